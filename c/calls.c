/* Reads recorded calls (rust/tests/calls.txt) on standard input and makes each:
 * its edits, refusal, slots and position must be the recorded ones, and so must a
 * function's L to plan with, also where it is opened with prices; a refused call must leave
 * the list, the cache and the position as they were. Prints how many there were. It is C
 * and C++. */
#include <inttypes.h>
#include <stdio.h>
#include <stdlib.h>
#include <string.h>

#include "parallel_moves.h"

enum { MOST_NUMBERS = 65536, PAST = 16 };

static struct parallel_moves_memory memory;
static uint16_t cache[PARALLEL_MOVES_CACHE];
static uint8_t bytes[MOST_NUMBERS];
static uint32_t free_units[MOST_NUMBERS];
static uint32_t numbers[MOST_NUMBERS];
static struct parallel_moves_entry entries[MOST_NUMBERS / 4];
static uint64_t words[MOST_NUMBERS];
static uint64_t list[PARALLEL_MOVES_MOST_EDITS + PAST];
static uint64_t before[PARALLEL_MOVES_MOST_EDITS + PAST];
static unsigned long line, functions;
/* The highest. */
static const uint32_t PRICES[] = { 65535, 65535, 65535, 65535 };

static void fail(const char *what)
{
    fprintf(stderr, "calls: line %lu: %s\n", line, what);
    exit(EXIT_FAILURE);
}

static uint64_t number(void)
{
    uint64_t read;
    if (scanf("%" SCNu64, &read) != 1) {
        fail("no number");
    }
    return read;
}

static size_t count(void)
{
    uint64_t read = number();
    if (read > MOST_NUMBERS) {
        fail("too many numbers");
    }
    return read;
}

static size_t read_numbers(uint32_t *into)
{
    size_t length = count();
    for (size_t i = 0; i < length; i++) {
        into[i] = PARALLEL_MOVES_AS(uint32_t, number());
    }
    return length;
}

/* Returns whether it was refused. */
static bool open_function(void)
{
    uint64_t refusal = number();
    uint64_t enough = number();
    uint32_t kept_evictions = PARALLEL_MOVES_AS(uint32_t, number());
    size_t length = count();
    for (size_t i = 0; i < length; i++) {
        bytes[i] = PARALLEL_MOVES_AS(uint8_t, number());
    }
    memcpy(cache, memory.cache, sizeof cache);
    uint8_t given = 99;
    if (parallel_moves_enough_slots_in(&memory, kept_evictions, bytes, length, &given) != enough) {
        fail("another L to plan with");
    }
    if (given != refusal) {
        fail("another refusal of a function whose L is asked for");
    }
    if (parallel_moves_open_priced_in(&memory, kept_evictions, PRICES, bytes, length) != refusal
        || memory.is_open != (refusal == 0)) {
        fail("another refusal of a function with prices");
    }
    if (refusal != 0 && memcmp(cache, memory.cache, sizeof cache) != 0) {
        fail("a refused function with prices changed the cache");
    }
    /* Every second one is left as it was opened with prices. */
    if (++functions % 2 == 0 && parallel_moves_open_in(&memory, kept_evictions, bytes, length) != refusal) {
        fail("another refusal of a function");
    }
    if (refusal != 0 && memcmp(cache, memory.cache, sizeof cache) != 0) {
        fail("a refused function changed the cache");
    }
    if (refusal == 0 && parallel_moves_slots_made(memory.cache) != 0) {
        fail("an opened function has slots");
    }
    return refusal != 0;
}

/* Resolves a patch by its entries. One whose numbers end inside an entry has none: it is
 * resolved by the call that takes numbers. */
static size_t resolve(size_t free_length, size_t numbers_length, size_t room, uint8_t *refusal)
{
    if (numbers_length % 4 != 0) {
        return parallel_moves_resolve(
            memory.target, memory.function, free_units, free_length, numbers, numbers_length,
            memory.cache, list, room, refusal, &memory.position, memory.entries, memory.writers,
            memory.available, memory.sources, memory.edits, memory.slots, memory.diverted,
            memory.marks, memory.carried);
    }
    memcpy(entries, numbers, numbers_length * sizeof *numbers);
    return parallel_moves_resolve_in(
        &memory, free_units, free_length, parallel_moves_entries(entries, numbers_length / 4),
        list, room, refusal);
}

/* Returns whether it was refused. */
static bool resolve_patch(void)
{
    uint64_t refusal = number();
    uint64_t made = number();
    uint64_t position = number();
    size_t room = count();
    size_t free_length = read_numbers(free_units);
    size_t numbers_length = read_numbers(numbers);
    size_t length = count();
    for (size_t i = 0; i < length; i++) {
        words[i] = number();
    }
    for (size_t i = 0; i < sizeof list / sizeof *list; i++) {
        list[i] = ~(line * 4096 + i);
    }
    memcpy(before, list, sizeof list);
    memcpy(cache, memory.cache, sizeof cache);
    uint8_t given = 99;
    uint16_t last = memory.position;
    size_t edits = resolve(free_length, numbers_length, room, &given);
    if (given != refusal || edits != length) {
        fail("another refusal, or other edits");
    }
    if (memcmp(list, words, length * sizeof *list) != 0) {
        fail("other edits");
    }
    if (memcmp(list + length, before + length, sizeof list - length * sizeof *list) != 0) {
        fail("the list was changed past the edits");
    }
    if (refusal != 0 && memcmp(cache, memory.cache, sizeof cache) != 0) {
        fail("a refused patch changed the cache");
    }
    if (parallel_moves_slots_made(memory.cache) != made) {
        fail("another number of slots made");
    }
    if (memory.position != (refusal == 0 ? position : last)) {
        fail("another position");
    }
    return refusal != 0;
}

int main(void)
{
    char kind[8];
    unsigned long refused = 0;
    while (scanf("%7s", kind) == 1) {
        line++;
        refused += strcmp(kind, "open") == 0 ? open_function() : resolve_patch();
    }
    printf("%lu calls, %lu refused\n", line, refused);
    return ferror(stdin) || fflush(stdout) != 0 ? EXIT_FAILURE : EXIT_SUCCESS;
}
