/* Makes each kind of call in a thread that has 64 KiB of stack in all, with a page below
 * it that cannot be touched, on patches of 128 moves whose visits stand one inside of
 * another: chains and rotations of registers and of slots, and swaps, with one and with two
 * kept evictions. None may be refused. Prints that all went; with an argument also how many
 * bytes of stack each kind of call took at most. It is C and C++. */
#ifndef _GNU_SOURCE
#define _GNU_SOURCE
#endif
#include <pthread.h>
#include <stdio.h>
#include <stdlib.h>
#include <string.h>
#include <sys/mman.h>

#include "parallel_moves.h"

#ifndef STACK
#define STACK 65536
#endif

enum { GUARD = 4096, REGISTERS = 131, VALUES = 130, MOVES = 128, LIMIT = 2048, MOST = 16384 };

static const uint8_t PATTERN = 0x5a;

struct work {
    struct parallel_moves_memory memory;
    struct parallel_moves_groups groups;
    struct parallel_moves_preview preview;
    struct parallel_moves_writer writer;
    struct parallel_moves_checker checker;
    /* A formula's tables, and what an asking in the frame leaves. */
    uint16_t frame[PARALLEL_MOVES_FRAME];
    uint16_t target[PARALLEL_MOVES_TARGET];
    uint16_t function[PARALLEL_MOVES_FUNCTION];
    uint16_t cache[PARALLEL_MOVES_CACHE];
    uint16_t to, made, position, counter;
    uint64_t stamp;
    /* Of examining. */
    uint16_t ties[PARALLEL_MOVES_TIES];
    uint16_t cells[PARALLEL_MOVES_CELLS];
    uint16_t start[PARALLEL_MOVES_CELLS];
    uint16_t held[PARALLEL_MOVES_WORDS];
    uint16_t asked[PARALLEL_MOVES_WORDS];
    /* A job as numbers and as bytes, and what comes of it. */
    uint32_t numbers[MOST];
    uint8_t bytes[MOST], written[MOST];
    uint64_t list[PARALLEL_MOVES_MOST_EDITS + 1];
    uint8_t text[PARALLEL_MOVES_MOST_TEXT];
    uint64_t tallies[2][PARALLEL_MOVES_TALLY];
};

static struct work *w;
static size_t numbers_length, bytes_length, function_length, function_numbers, edits;
static struct parallel_moves_entry entries[MOVES];
static uint32_t kept;
static const uint32_t prices[PARALLEL_MOVES_PRICES] = {4, 6, 16, 12};
static const uint32_t no_units[1] = {0};
static const char *patch;

static void is(const char *what, size_t given, size_t expected)
{
    if (given != expected) {
        printf("%s, %u kept, %s: %zu, not %zu\n", patch, kept, what, given, expected);
        exit(EXIT_FAILURE);
    }
}

static void put(uint32_t number)
{
    w->numbers[numbers_length++] = number;
    while (number >= 128) {
        w->bytes[bytes_length++] = PARALLEL_MOVES_AS(uint8_t, number % 128 + 128);
        number /= 128;
    }
    w->bytes[bytes_length++] = PARALLEL_MOVES_AS(uint8_t, number);
}

/* A class of all registers, in their order. */
static void put_class(uint32_t slots)
{
    put(0);
    put(slots);
    for (int i = 0; i < 2; i++) {
        put(REGISTERS);
        for (uint32_t r = 0; r < REGISTERS; r++) {
            put(r);
        }
    }
}

/* A target and a function; then one patch, of the entries. */
static void put_job(void)
{
    static const uint32_t bank[] = {REGISTERS, 1, 3, 0, 1, REGISTERS};
    numbers_length = bytes_length = 0;
    for (size_t i = 0; i < sizeof bank / sizeof *bank; i++) {
        put(bank[i]);
    }
    for (uint32_t r = 0; r < REGISTERS; r++) {
        put(0);
        put(0);
        put(1);
        put(r);
    }
    put(2);
    put_class(1);
    put_class(0);
    put(VALUES);
    put(VALUES);
    put(LIMIT);
    for (int i = 0; i < 2 * VALUES; i++) {
        put(0);
    }
    function_length = bytes_length;
    function_numbers = numbers_length;
    put(1);
    put(0);
    put(MOVES);
    for (size_t i = 0; i < MOVES; i++) {
        for (size_t j = 0; j < 4; j++) {
            put(entries[i].numbers[j]);
        }
    }
}

static struct parallel_moves_entry_list all(void)
{
    return parallel_moves_entries(entries, MOVES);
}

/* The kinds of calls. Each has what it needs from those before it. */
static void plan(void)
{
    uint8_t refusal = 99;
    is("slots", parallel_moves_enough_slots_in(&w->memory, kept, w->bytes, function_length, &refusal), 128 + kept);
    is("planning", refusal, 0);
}

static void open_function(void)
{
    is("opening", parallel_moves_open_in(&w->memory, kept, w->bytes, function_length), 0);
}

static void open_priced(void)
{
    uint8_t refusal = 99;
    is("a job's patches", parallel_moves_priced_job_in(&w->memory, kept, prices, w->bytes, bytes_length, &refusal), 1);
    is("a job's opening", refusal, 0);
    is("opening with prices", parallel_moves_open_priced_in(&w->memory, kept, prices, w->bytes, function_length), 0);
}

static void write_opened(void)
{
    uint8_t refusal = 99;
    is("writing an opened function",
       parallel_moves_write_opened_in(
           &w->memory, &w->writer, w->numbers + function_numbers, numbers_length - function_numbers, w->written, MOST,
           &refusal),
       bytes_length);
    is("the bytes of an opened function", memcmp(w->written, w->bytes, bytes_length) != 0, false);
}

static void ask(void)
{
    uint8_t refusal = 99;
    edits = parallel_moves_ask_in(
        &w->memory, no_units, 0, all(), w->list, PARALLEL_MOVES_MOST_EDITS, &refusal, &w->preview);
    is("asking", refusal, 0);
}

static void take(void)
{
    is("taking", parallel_moves_take_in(&w->memory, &w->preview), 0);
}

static void resolve(void)
{
    uint8_t refusal = 99;
    size_t count = parallel_moves_resolve_in(
        &w->memory, no_units, 0, all(), w->list, PARALLEL_MOVES_MOST_EDITS, &refusal);
    is("resolving", refusal, 0);
    is("edits", count, edits);
}

static void examine_opened(void)
{
    uint8_t refusal = 99;
    is("examining what is open",
       parallel_moves_examine_opened_in(
           &w->memory, &w->checker.examiner, no_units, 0, all(), w->list, edits, &refusal),
       1);
}

static void check(void)
{
    uint8_t refusal = 99;
    size_t count = parallel_moves_resolve_checked_in(
        &w->memory, &w->checker, no_units, 0, all(), w->list, PARALLEL_MOVES_MOST_EDITS, &refusal);
    is("checking", refusal, 0);
    is("edits that are checked", count, edits);
}

static void check_groups(void)
{
    uint8_t refusal = 99;
    (void)parallel_moves_resolve_groups_checked_in(
        &w->memory, &w->groups, &w->checker, no_units, 0, all(), w->list, PARALLEL_MOVES_MOST_EDITS,
        &refusal);
    is("checking groups", refusal, 0);
}

static void by_groups(void)
{
    uint8_t refusal = 99;
    (void)parallel_moves_resolve_groups_in(
        &w->memory, &w->groups, no_units, 0, all(), w->list, PARALLEL_MOVES_MOST_EDITS, &refusal);
    is("groups", refusal, 0);
}

static void answer_groups(void)
{
    uint8_t refusal = 99;
    (void)parallel_moves_answer_groups_in(
        &w->memory, &w->groups, kept, w->bytes, bytes_length, w->list, PARALLEL_MOVES_MOST_EDITS + 1, &refusal);
    is("a job by groups", refusal, 0);
}

static void answer(void)
{
    uint8_t refusal = 99;
    size_t count = parallel_moves_answer_in(
        &w->memory, kept, w->bytes, bytes_length, w->list, PARALLEL_MOVES_MOST_EDITS + 1, &refusal);
    is("a job", refusal, 0);
    is("words", count, edits + 1);
}

static void text(void)
{
    is("text", parallel_moves_text(w->list, edits + 1, 0, w->text, sizeof w->text) != 0, true);
}

static void price(void)
{
    uint64_t total = 0;
    double runs, product;
    is("a price", parallel_moves_price(w->list, edits + 1, 1, prices, 1, &total, &runs, &product), 0);
    is("a price of edits", parallel_moves_price_edits(w->list + 1, edits, prices, 1, &total, &runs, &product), 0);
    is("the cheaper", parallel_moves_cheaper(w->list + 1, edits, w->list + 1, edits, prices), 1);
}

static void examine(void)
{
    uint8_t refusal = 99;
    struct parallel_moves_memory *m = &w->memory;
    is("examining",
       parallel_moves_examine(
           w->bytes, bytes_length, 0, w->list + 1, edits, &refusal, m->target, m->function,
           m->free_units, m->entries, m->writers, w->ties, w->cells, w->start, w->held, w->asked),
       1);
}

static void examine_in(void)
{
    uint8_t refusal = 99;
    struct parallel_moves_memory *m = &w->memory;
    is("examining in a frame",
       parallel_moves_examine_in(
           LIMIT, w->bytes, bytes_length, 0, w->list + 1, edits, &refusal, m->target, m->function,
           m->free_units, m->entries, m->writers, w->ties, w->cells, w->start, w->held, w->asked),
       1);
}

static void write_job(void)
{
    uint8_t refusal = 99;
    is("writing",
       parallel_moves_write_in(&w->writer, w->numbers, numbers_length, w->written, MOST, &refusal), bytes_length);
    is("the bytes", memcmp(w->written, w->bytes, bytes_length) != 0, false);
    is("the shipped target", parallel_moves_shipped_in(&w->writer), 525);
}

static void try_settings(void)
{
    is("trying",
       parallel_moves_try_in(&w->memory, w->bytes, bytes_length, prices, 7, 16, w->tallies[0], w->tallies[1]), 0);
}

static void frame_open(void)
{
    static const uint32_t shares[] = {LIMIT};
    is("a frame", parallel_moves_frame_open(w->frame, LIMIT, shares, 1), 0);
    is("a formula",
       parallel_moves_frame_formula(
           w->frame, 0, kept, w->bytes, function_length, w->target, w->function, w->cache), 0);
}

static void frame_ask(void)
{
    uint8_t refusal = 99;
    struct parallel_moves_memory *m = &w->memory;
    size_t count = parallel_moves_frame_ask(
        w->frame, 0, w->target, w->function, no_units, 0, parallel_moves_entry_numbers(all()),
        parallel_moves_entry_numbers_length(all()), w->cache, w->list, PARALLEL_MOVES_MOST_EDITS, &refusal,
        &w->to, &w->made, &w->position, &w->stamp, &w->counter, m->entries, m->writers, m->available,
        m->sources, m->edits, w->preview.slots, m->diverted, m->marks, m->carried);
    is("asking in a frame", refusal, 0);
    is("edits asked for in a frame", count, edits);
}

static void frame_take(void)
{
    is("taking in a frame",
       parallel_moves_frame_take(w->frame, 0, w->to, w->stamp, w->counter, w->preview.slots, w->cache), 0);
}

static void frame_resolve(void)
{
    uint8_t refusal = 99;
    struct parallel_moves_memory *m = &w->memory;
    size_t count = parallel_moves_frame_resolve(
        w->frame, 0, w->target, w->function, no_units, 0, parallel_moves_entry_numbers(all()),
        parallel_moves_entry_numbers_length(all()), w->cache, w->list, PARALLEL_MOVES_MOST_EDITS, &refusal,
        &w->position, m->entries, m->writers, m->available, m->sources, m->edits, m->slots,
        m->diverted, m->marks, m->carried);
    is("resolving in a frame", refusal, 0);
    is("edits in a frame", count, edits);
}

static void examine_formula(void)
{
    uint8_t refusal = 99;
    struct parallel_moves_memory *m = &w->memory;
    is("examining a formula",
       parallel_moves_examine_formula(
           LIMIT, w->target, w->function, no_units, 0, parallel_moves_entry_numbers(all()),
           parallel_moves_entry_numbers_length(all()), w->list, edits, &refusal, m->free_units,
           m->entries, m->writers, w->ties, w->cells, w->start, w->held, w->asked),
       1);
}

static void frame_groups(void)
{
    uint8_t refusal = 99;
    struct parallel_moves_memory *m = &w->memory;
    struct parallel_moves_groups *g = &w->groups;
    (void)parallel_moves_frame_resolve_groups(
        w->frame, 0, w->target, w->function, no_units, 0, parallel_moves_entry_numbers(all()),
        parallel_moves_entry_numbers_length(all()), w->cache, w->list, PARALLEL_MOVES_MOST_EDITS, &refusal,
        &w->position, m->free_units, m->entries, m->writers, m->available, m->sources, m->edits,
        m->slots, m->diverted, m->marks, m->carried, g->owners, g->labels, g->next, g->common,
        g->work, g->joined);
    is("groups in a frame", refusal, 0);
}

static struct {
    const char *name;
    void (*call)(void);
    size_t most;
} kinds[] = {
    {"planning", plan, 0}, {"opening with prices", open_priced, 0}, {"writing what is open", write_opened, 0},
    {"opening", open_function, 0}, {"asking", ask, 0}, {"taking", take, 0},
    {"resolving", resolve, 0}, {"examining what is open", examine_opened, 0}, {"checking", check, 0},
    {"checking by groups", check_groups, 0}, {"by groups", by_groups, 0}, {"a job by groups", answer_groups, 0},
    {"a job", answer, 0}, {"text", text, 0}, {"prices", price, 0}, {"examining", examine, 0},
    {"examining in a frame", examine_in, 0}, {"writing", write_job, 0}, {"trying", try_settings, 0},
    {"opening in a frame", frame_open, 0}, {"asking in a frame", frame_ask, 0},
    {"taking in a frame", frame_take, 0}, {"resolving in a frame", frame_resolve, 0},
    {"examining a formula", examine_formula, 0},
    {"by groups in a frame", frame_groups, 0}};

/* The stack that the thread runs on, above the page that cannot be touched. */
static uint8_t *stack;
static void (*called)(void);
/* How far above the stack's end the call was made. */
static size_t called_at;

static void *run(void *given)
{
    volatile uint8_t here = 0;
    called_at = PARALLEL_MOVES_AS(size_t, &here - stack);
    called();
    return given;
}

/* How many bytes a call takes, in a thread of its own. */
static size_t taken(void (*call)(void))
{
    pthread_attr_t attributes;
    pthread_t thread;
    size_t at = 0;
    called = call;
    memset(stack, PATTERN, STACK);
    if (pthread_attr_init(&attributes) != 0 || pthread_attr_setstack(&attributes, stack, STACK) != 0
        || pthread_create(&thread, &attributes, run, NULL) != 0 || pthread_join(thread, NULL) != 0) {
        puts("there is no such thread");
        exit(EXIT_FAILURE);
    }
    pthread_attr_destroy(&attributes);
    while (at < called_at && stack[at] == PATTERN) {
        at++;
    }
    return called_at - at;
}

/* Moves from each place to the next, the last one first, so that each is visited inside of
 * the one before; or, as swaps, between each two places. */
static void make(const char *name, uint32_t (*place)(uint32_t), bool round, bool swaps)
{
    patch = name;
    for (uint32_t i = 0; i < MOVES; i++) {
        uint32_t from = MOVES - 1 - i;
        uint32_t to = swaps ? from ^ 1 : round ? (from + 1) % MOVES : from + 1;
        entries[i] = parallel_moves_move(place(from), place(to), from);
    }
    put_job();
    for (kept = 1; kept <= 2; kept++) {
        for (size_t i = 0; i < sizeof kinds / sizeof *kinds; i++) {
            size_t bytes = taken(kinds[i].call);
            if (bytes > kinds[i].most) {
                kinds[i].most = bytes;
            }
        }
    }
}

int main(int count, char **given)
{
    void *mapped = mmap(NULL, GUARD + STACK, PROT_READ | PROT_WRITE, MAP_PRIVATE | MAP_ANONYMOUS, -1, 0);
    w = PARALLEL_MOVES_AS(struct work *, calloc(1, sizeof *w));
    if (w == NULL || mapped == MAP_FAILED || mprotect(mapped, GUARD, PROT_NONE) != 0) {
        puts("there is no memory");
        return EXIT_FAILURE;
    }
    (void)given;
    stack = PARALLEL_MOVES_AS(uint8_t *, mapped) + GUARD;
    make("a chain of registers", parallel_moves_register, false, false);
    make("a chain of slots", parallel_moves_slot, false, false);
    make("a rotation of registers", parallel_moves_register, true, false);
    make("a rotation of slots", parallel_moves_slot, true, false);
    make("swaps of registers", parallel_moves_register, false, true);
    make("swaps of slots", parallel_moves_slot, false, true);
    for (size_t i = 0; count > 1 && i < sizeof kinds / sizeof *kinds; i++) {
        printf("%-24s%6zu\n", kinds[i].name, kinds[i].most);
    }
    puts("all as said");
    free(w);
    munmap(mapped, GUARD + STACK);
    return fflush(stdout) == 0 ? EXIT_SUCCESS : EXIT_FAILURE;
}
