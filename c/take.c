/* Reads recorded calls (rust/tests/calls.txt) on standard input and has each patch
 * asked for and then taken: the edits, refusal, slots and position must be those that
 * resolving gave, asking must leave the cache as it was, and a second take, or one of
 * an answer asked for before, must be refused with 20 and leave it too. Prints how many
 * there were. It is C and C++. */
#include <inttypes.h>
#include <stdio.h>
#include <stdlib.h>
#include <string.h>

#include "parallel_moves.h"

enum { MOST_NUMBERS = 65536, PAST = 16 };

static struct parallel_moves_memory memory;
/* Two answers of each patch, and one of an earlier patch, of this function or another. */
static struct parallel_moves_preview first, second, earlier;
static bool has_earlier;
static uint16_t cache[PARALLEL_MOVES_CACHE];
static uint8_t bytes[MOST_NUMBERS];
static uint32_t free_units[MOST_NUMBERS];
static uint32_t numbers[MOST_NUMBERS];
static struct parallel_moves_entry entries[MOST_NUMBERS / 4];
static uint64_t words[MOST_NUMBERS];
static uint64_t list[PARALLEL_MOVES_MOST_EDITS + PAST];
static uint64_t before[PARALLEL_MOVES_MOST_EDITS + PAST];
static unsigned long line;

static void fail(const char *what)
{
    fprintf(stderr, "take: line %lu: %s\n", line, what);
    exit(EXIT_FAILURE);
}

static uint64_t number(void)
{
    uint64_t read;
    if (scanf("%" SCNu64, &read) != 1) {
        fail("no number");
    }
    return read;
}

static size_t count(void)
{
    uint64_t read = number();
    if (read > MOST_NUMBERS) {
        fail("too many numbers");
    }
    return read;
}

static size_t read_numbers(uint32_t *into)
{
    size_t length = count();
    for (size_t i = 0; i < length; i++) {
        into[i] = PARALLEL_MOVES_AS(uint32_t, number());
    }
    return length;
}

static void open_function(void)
{
    uint64_t refusal = number();
    number();
    uint32_t kept_evictions = PARALLEL_MOVES_AS(uint32_t, number());
    size_t length = count();
    for (size_t i = 0; i < length; i++) {
        bytes[i] = PARALLEL_MOVES_AS(uint8_t, number());
    }
    if (parallel_moves_open_in(&memory, kept_evictions, bytes, length) != refusal) {
        fail("another refusal of a function");
    }
}

static void cache_stays(const char *what)
{
    if (memcmp(cache, memory.cache, sizeof cache) != 0) {
        fail(what);
    }
}

/* Asks for a patch by its entries. One whose numbers end inside an entry has none: it is
 * asked for by the call that takes numbers. */
static size_t ask(
    size_t free_length, size_t numbers_length, size_t room, uint8_t *refusal,
    struct parallel_moves_preview *preview)
{
    if (numbers_length % 4 != 0) {
        return parallel_moves_ask(
            memory.target, memory.function, free_units, free_length, numbers, numbers_length,
            memory.cache, list, room, refusal, &preview->made, &preview->position,
            &preview->stamp, memory.entries, memory.writers, memory.available, memory.sources,
            memory.edits, preview->slots, memory.diverted, memory.marks, memory.carried);
    }
    memcpy(entries, numbers, numbers_length * sizeof *numbers);
    return parallel_moves_ask_in(
        &memory, free_units, free_length, parallel_moves_entries(entries, numbers_length / 4),
        list, room, refusal, preview);
}

/* Returns how many patches were taken. */
static unsigned long take_patch(void)
{
    uint64_t refusal = number();
    uint64_t made = number();
    uint64_t position = number();
    size_t room = count();
    size_t free_length = read_numbers(free_units);
    size_t numbers_length = read_numbers(numbers);
    size_t length = count();
    for (size_t i = 0; i < length; i++) {
        words[i] = number();
    }
    memcpy(cache, memory.cache, sizeof cache);
    uint16_t last = memory.position;
    struct parallel_moves_preview *previews[] = { &first, &second };
    for (size_t p = 0; p < 2; p++) {
        for (size_t i = 0; i < sizeof list / sizeof *list; i++) {
            list[i] = ~(line * 4096 + i);
        }
        memcpy(before, list, sizeof list);
        uint8_t given = 99;
        size_t edits = ask(free_length, numbers_length, room, &given, previews[p]);
        if (given != refusal || edits != length) {
            fail("another refusal, or other edits");
        }
        if (memcmp(list, words, length * sizeof *list) != 0) {
            fail("other edits");
        }
        if (memcmp(list + length, before + length, sizeof list - length * sizeof *list) != 0) {
            fail("the list was changed past the edits");
        }
        cache_stays("asking changed the cache");
        if (refusal == 0 && (previews[p]->made != made || previews[p]->position != position)) {
            fail("another number of slots made, or another position");
        }
    }
    if (refusal != 0) {
        return 0;
    }
    if (has_earlier && parallel_moves_take_in(&memory, &earlier) != 20) {
        fail("an answer asked for before was taken");
    }
    cache_stays("a take that was refused changed the cache");
    if (memory.position != last) {
        fail("a take that was refused changed the position");
    }
    if (parallel_moves_take_in(&memory, line % 2 == 0 ? &first : &second) != 0) {
        fail("not taken");
    }
    if (parallel_moves_slots_made(memory.cache) != made || memory.position != position) {
        fail("another number of slots made, or another position, once taken");
    }
    memcpy(cache, memory.cache, sizeof cache);
    if (parallel_moves_take_in(&memory, &first) != 20 || parallel_moves_take_in(&memory, &second) != 20) {
        fail("taken twice");
    }
    cache_stays("a second take changed the cache");
    earlier = first;
    has_earlier = true;
    return 1;
}

int main(void)
{
    char kind[8];
    unsigned long taken = 0;
    while (scanf("%7s", kind) == 1) {
        line++;
        if (strcmp(kind, "open") == 0) {
            open_function();
        } else {
            taken += take_patch();
        }
    }
    printf("%lu calls, %lu taken\n", line, taken);
    return ferror(stdin) || fflush(stdout) != 0 ? EXIT_FAILURE : EXIT_SUCCESS;
}
