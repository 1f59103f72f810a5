/* Calls without an opened function, with the memory fresh from calloc, after an opening
 * that was refused, and after each call that uses its tables: they are refused, and change
 * nothing. And answers that are taken late, in another function or in another memory: they
 * are refused with 20. Prints what differs, or that all is as said. It is C and C++. */
#include <stdio.h>
#include <stdlib.h>
#include <string.h>

#include "parallel_moves.h"

enum { MOST = 16 };

/* Three registers, two values, no ordinary slots, and an L of 1; and behind the function
 * a patch of nothing, with which it is a job. */
static const uint8_t bytes[] = {
    3, 1, 3, 0, 1, 3, 0, 0, 1, 0, 0, 0, 1, 1, 0, 0, 1, 2, 2, 0, 1, 3, 0,
    1, 2, 3, 0, 1, 2, 0, 0, 3, 0, 1, 2, 3, 0, 1, 2, 2, 0, 1, 0, 0, 0, 0, 1, 0, 0};
enum { FUNCTION = sizeof bytes - 3 };
/* r0 and r1 exchanged. */
static const struct parallel_moves_entry swapped[] = {{{0, 1, 3, 0}}, {{0, 3, 1, 1}}};
static const uint32_t free_units[] = {2};
static const uint32_t prices[PARALLEL_MOVES_PRICES] = {4, 6, 16, 12};

static struct parallel_moves_memory *memory, *before, *other;
static struct parallel_moves_groups *groups;
static struct parallel_moves_preview *previews;
static struct parallel_moves_writer *writer;
static uint64_t list[MOST], tallies[2][PARALLEL_MOVES_TALLY];
static uint8_t written[MOST];
/* A patch count, and a patch of nothing. */
static const uint32_t patch[] = {1, 0, 0};
static int wrong;

static void is(const char *when, const char *what, size_t given, size_t expected)
{
    if (given != expected) {
        printf("%s, %s: %zu, not %zu\n", when, what, given, expected);
        wrong = 1;
    }
}

static void open_function(const char *when)
{
    is(when, "an opening", parallel_moves_open_in(memory, 1, bytes, FUNCTION), 0);
    is(when, "open", memory->is_open, true);
}

/* Every call is refused, and leaves memory, list and preview as they were. */
static void closed(const char *when)
{
    struct parallel_moves_entry_list entries = parallel_moves_entries(swapped, 2);
    static struct parallel_moves_preview preview;
    uint8_t refusal = 99;
    is(when, "open", memory->is_open, false);
    for (size_t i = 0; i < MOST; i++) {
        list[i] = ~i;
    }
    memcpy(before, memory, sizeof *memory);
    memcpy(&preview, previews, sizeof preview);
    is(when, "edits", parallel_moves_resolve_in(memory, free_units, 0, entries, list, MOST, &refusal), 0);
    is(when, "a refusal", refusal, 2);
    refusal = 99;
    is(when, "edits by groups",
       parallel_moves_resolve_groups_in(memory, groups, free_units, 0, entries, list, MOST, &refusal), 0);
    is(when, "a refusal by groups", refusal, 2);
    refusal = 99;
    is(when, "edits asked for",
       parallel_moves_ask_in(memory, free_units, 0, entries, list, MOST, &refusal, previews), 0);
    is(when, "a refusal of an asking", refusal, 2);
    is(when, "a take", parallel_moves_take_in(memory, previews), 20);
    refusal = 99;
    is(when, "bytes of a job", parallel_moves_write_opened_in(memory, writer, patch, 3, written, MOST, &refusal), 0);
    is(when, "a refusal of a job to be written", refusal, 2);
    for (size_t i = 0; i < MOST; i++) {
        is(when, "the list", list[i], ~i);
        is(when, "the bytes", written[i], 0);
    }
    is(when, "the memory", memcmp(before, memory, sizeof *memory) != 0, false);
    is(when, "the preview", memcmp(&preview, previews, sizeof preview) != 0, false);
}

/* What ends a function. */
static void reopen(void)
{
    open_function("another opening");
}

static void refuse(void)
{
    is("refused", "an opening", parallel_moves_open_in(memory, 3, bytes, FUNCTION), 22);
}

static void refuse_price(void)
{
    static const uint32_t too_dear[PARALLEL_MOVES_PRICES] = {4, 6, 16, 65536};
    is("a price", "an opening", parallel_moves_open_priced_in(memory, 1, too_dear, bytes, FUNCTION), 19);
}

static void count_patches(void)
{
    uint8_t refusal = 99;
    is("a job's opening", "patches",
       parallel_moves_priced_job_in(memory, 1, prices, bytes, sizeof bytes, &refusal), 1);
    is("a job's opening", "a refusal", refusal, 0);
}

static void plan(void)
{
    uint8_t refusal = 99;
    (void)parallel_moves_enough_slots_in(memory, 1, bytes, FUNCTION, &refusal);
    is("planning", "a refusal", refusal, 0);
}

static void answer(void)
{
    uint8_t refusal = 99;
    (void)parallel_moves_answer_in(memory, 1, bytes, sizeof bytes, list, MOST, &refusal);
    is("a job", "a refusal", refusal, 0);
}

static void answer_groups(void)
{
    uint8_t refusal = 99;
    (void)parallel_moves_answer_groups_in(memory, groups, 1, bytes, sizeof bytes, list, MOST, &refusal);
    is("a job by groups", "a refusal", refusal, 0);
}

static void try_settings(void)
{
    is("trying", "a refusal",
       parallel_moves_try_in(memory, bytes, sizeof bytes, prices, 7, 3, tallies[0], tallies[1]), 0);
}

static void end(void)
{
    parallel_moves_close_in(memory);
}

/* Each use of the memory's tables ends the function that was open there. */
static void ended(void)
{
    static uint8_t job[PARALLEL_MOVES_MOST_BYTES];
    uint8_t refusal = 99;
    open_function("the first");
    is("the first", "edits",
       parallel_moves_resolve_in(
           memory, free_units, 0, parallel_moves_entries(swapped, 2), list, MOST, &refusal), 3);
    is("the first", "a refusal", refusal, 0);

    is("left over", "an opening", parallel_moves_open_in(memory, 1, bytes, sizeof bytes), 8);
    closed("after an opening with bytes left over");
    open_function("a second");
    refuse();
    closed("after a refused opening");
    open_function("before a price");
    refuse_price();
    closed("after an opening with a price too high");
    open_function("before a job's opening");
    count_patches();
    closed("after a job's opening");
    is("with prices", "an opening", parallel_moves_open_priced_in(memory, 1, prices, bytes, FUNCTION), 0);
    is("with prices", "open", memory->is_open, true);
    is("with prices", "bytes of a job",
       parallel_moves_write_opened_in(memory, writer, patch, 3, job, sizeof job, &refusal), sizeof bytes);
    is("with prices", "a refusal of a job to be written", refusal, 0);
    is("with prices", "the job", memcmp(job, bytes, sizeof bytes) != 0, false);
    is("with prices", "open", memory->is_open, true);
    open_function("before planning");
    plan();
    closed("after planning");
    open_function("before a job");
    answer();
    closed("after a job");
    open_function("before a job by groups");
    answer_groups();
    closed("after a job by groups");
    open_function("before trying");
    try_settings();
    closed("after trying");
    open_function("before the end");
    end();
    closed("after the end");
}

static void ask(const char *when, struct parallel_moves_preview *preview)
{
    uint8_t refusal = 99;
    is(when, "edits asked for",
       parallel_moves_ask_in(
           memory, free_units, 0, parallel_moves_entries(swapped, 2), list, MOST, &refusal, preview), 3);
    is(when, "a refusal of an asking", refusal, 0);
}

/* An answer cannot be taken in `where`, which stays as it was. */
static void late(const char *when, struct parallel_moves_memory *where, const struct parallel_moves_preview *preview)
{
    memcpy(before, where, sizeof *where);
    is(when, "a late take", parallel_moves_take_in(where, preview), 20);
    is(when, "the memory", memcmp(before, where, sizeof *where) != 0, false);
}

static void stale(void)
{
    static const struct {
        const char *what;
        void (*done)(void);
    } between[] = {
        {"after another opening", reopen}, {"after a refused opening", refuse},
        {"after a price", refuse_price}, {"after a job's opening", count_patches},
        {"after planning", plan}, {"after a job", answer},
        {"after a job by groups", answer_groups}, {"after trying", try_settings},
        {"after the end", end}};
    uint8_t refusal = 99;
    for (size_t i = 0; i < sizeof between / sizeof *between; i++) {
        open_function(between[i].what);
        ask(between[i].what, &previews[0]);
        between[i].done();
        late(between[i].what, memory, &previews[0]);
        open_function(between[i].what);
        late(between[i].what, memory, &previews[0]);
        is(between[i].what, "slots made", parallel_moves_slots_made(memory->cache), 0);
    }
    /* Two memories that were opened as often: each takes its own. */
    is("another memory", "an opening", parallel_moves_open_in(other, 1, bytes, FUNCTION), 0);
    other->openings = memory->openings;
    ask("two memories", &previews[0]);
    late("another memory", other, &previews[0]);
    /* An asking that is refused leaves nothing to take: here a place too few is lent. */
    ask("another asking", &previews[1]);
    is("a refused asking", "edits",
       parallel_moves_ask_in(
           memory, free_units, 0, parallel_moves_entries(swapped, 2), list, 1, &refusal, &previews[1]), 0);
    is("a refused asking", "a refusal", refusal, 16);
    late("a refused asking", memory, &previews[1]);
    memset(&previews[1], 0, sizeof previews[1]);
    late("never asked for", memory, &previews[1]);
    is("its own memory", "a take", parallel_moves_take_in(memory, &previews[0]), 0);
    is("its own memory", "slots made", parallel_moves_slots_made(memory->cache), 1);
}

int main(void)
{
    memory = PARALLEL_MOVES_AS(struct parallel_moves_memory *, calloc(1, sizeof *memory));
    before = PARALLEL_MOVES_AS(struct parallel_moves_memory *, calloc(1, sizeof *before));
    other = PARALLEL_MOVES_AS(struct parallel_moves_memory *, calloc(1, sizeof *other));
    groups = PARALLEL_MOVES_AS(struct parallel_moves_groups *, calloc(1, sizeof *groups));
    previews = PARALLEL_MOVES_AS(struct parallel_moves_preview *, calloc(2, sizeof *previews));
    writer = PARALLEL_MOVES_AS(struct parallel_moves_writer *, calloc(1, sizeof *writer));
    if (!memory || !before || !other || !groups || !previews || !writer) {
        return EXIT_FAILURE;
    }
    closed("fresh from calloc");
    ended();
    stale();
    if (!wrong) {
        puts("all as said");
    }
    free(writer);
    free(previews);
    free(groups);
    free(other);
    free(before);
    free(memory);
    return wrong;
}
