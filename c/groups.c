/* Resolves patches by groups, and their groups one after the other with another
 * function's memory: the edits, slots and positions must be the same. A group that is out
 * of slots leaves list and cache as they were. Then the same patches as one job, by
 * groups: the words must be those of the calls. Prints how many patches there were. It is
 * C and C++. */
#include <stdio.h>
#include <stdlib.h>
#include <string.h>

#include "parallel_moves.h"

enum { MOST = 64 };

static struct parallel_moves_memory whole, parts;
static struct parallel_moves_groups groups;
static uint16_t cache[PARALLEL_MOVES_CACHE];
static unsigned patches;
/* The job of the patches so far, and its words as the calls give them. */
static uint8_t job[MOST * MOST];
static uint64_t expected[MOST * MOST];
static size_t job_length, expected_length;

/* Four registers, six slots, four values; two emergency slots may be made. */
static const uint8_t bytes[] = {
    4, 1, 3, 0, 1, 4, 0, 0, 1, 0, 0, 0, 1, 1, 0, 0, 1, 2, 0, 0, 1, 3, 2, 0, 1, 4, 0,
    1, 2, 3, 4, 0, 1, 2, 3, 0, 0, 4, 0, 1, 2, 3, 4, 0, 1, 2, 3, 4, 6, 2, 0, 0, 0, 0, 0, 0, 0, 0};

struct patch {
    uint32_t free_units[MOST];
    struct parallel_moves_entry entries[MOST];
    size_t units, count;
};

static void fail(const char *what)
{
    fprintf(stderr, "groups: %s\n", what);
    exit(EXIT_FAILURE);
}

/* All of these numbers are below 128: a byte each. A rebuild has no fourth. */
static void add_to_job(const struct patch *patch)
{
    job[job_length++] = PARALLEL_MOVES_AS(uint8_t, patch->units);
    for (size_t i = 0; i < patch->units; i++) {
        job[job_length++] = PARALLEL_MOVES_AS(uint8_t, patch->free_units[i]);
    }
    job[job_length++] = PARALLEL_MOVES_AS(uint8_t, patch->count);
    for (size_t i = 0; i < patch->count; i++) {
        const uint32_t *numbers = patch->entries[i].numbers;
        for (size_t j = 0; j < (numbers[0] == 0 ? 4 : 3); j++) {
            job[job_length++] = PARALLEL_MOVES_AS(uint8_t, numbers[j]);
        }
    }
}

static void check(const struct patch *patch, const struct patch *each, size_t count)
{
    uint64_t list[MOST], joined[MOST], head;
    uint8_t refusal;
    size_t edits = 0, got;
    for (size_t i = 0; i < count; i++) {
        edits += parallel_moves_resolve_in(
            &parts, each[i].free_units, each[i].units,
            parallel_moves_entries(each[i].entries, each[i].count), joined + edits,
            MOST - edits, &refusal);
        if (refusal != 0) {
            fail("a group is refused");
        }
    }
    got = parallel_moves_resolve_groups_in(
        &whole, &groups, patch->free_units, patch->units,
        parallel_moves_entries(patch->entries, patch->count), list, MOST, &refusal);
    if (refusal != 0 || got != edits || memcmp(list, joined, got * sizeof *list) != 0) {
        fail("edits");
    }
    if (parallel_moves_slots_made(whole.cache) != parallel_moves_slots_made(parts.cache)) {
        fail("slots");
    }
    add_to_job(patch);
    head = whole.position;
    head = (head * 65536 + parallel_moves_slots_made(whole.cache)) * 65536 + got;
    expected[expected_length++] = head * 8;
    memcpy(expected + expected_length, list, got * sizeof *list);
    expected_length += got;
    patches++;
}

/* The job of all of them; then with words for the bound of the first, a head and 8 for
 * each of its moves: it stands, and the second gets 16. */
static void check_job(void)
{
    static uint64_t words[MOST * MOST];
    uint8_t refusal = 1;
    size_t first = 1 + expected[0] / 8 % 65536;
    size_t count = parallel_moves_answer_groups_in(
        &parts, &groups, 1, job, job_length, words, MOST * MOST, &refusal);
    if (refusal != 0 || count != expected_length
        || memcmp(words, expected, count * sizeof *words) != 0) {
        fail("a job");
    }
    words[first] = 7;
    count = parallel_moves_answer_groups_in(
        &parts, &groups, 1, job, job_length, words, 1 + 8 * 3, &refusal);
    if (refusal != 16 || count != first || words[first] != 7
        || memcmp(words, expected, count * sizeof *words) != 0) {
        fail("a job with too few words");
    }
}

int main(void)
{
    /* Two registers change their contents, and unit 2, which is free, is another group's source. */
    static const struct patch spared = {
        {2}, {{{0, 1, 3, 0}}, {{0, 3, 1, 1}}, {{0, 5, 7, 2}}}, 1, 3};
    static const struct patch spared_each[] = {
        {{0}, {{{0, 1, 3, 0}}, {{0, 3, 1, 1}}}, 0, 2}, {{2}, {{{0, 5, 7, 2}}}, 1, 1}};
    /* Slots change theirs between registers that do. */
    static const struct patch between = {
        {0}, {{{0, 1, 3, 0}}, {{0, 0, 2, 2}}, {{0, 3, 1, 1}}, {{0, 2, 0, 3}}}, 0, 4};
    static const struct patch between_each[] = {
        {{0}, {{{0, 1, 3, 0}}, {{0, 3, 1, 1}}}, 0, 2},
        {{0}, {{{0, 0, 2, 2}}, {{0, 2, 0, 3}}}, 0, 2}};
    static const struct patch nothing = {{1, 3}, {{{0}}}, 2, 0};
    uint8_t refusal = 0;
    uint64_t list[MOST] = {7};
    /* The same function with L 1: the second group is out of slots. */
    uint8_t few[sizeof bytes];
    if (parallel_moves_open_in(&whole, 1, bytes, sizeof bytes) != 0
        || parallel_moves_open_in(&parts, 1, bytes, sizeof bytes) != 0) {
        fail("opening");
    }
    memcpy(job, bytes, sizeof bytes);
    job[sizeof bytes] = 3;
    job_length = sizeof bytes + 1;
    check(&spared, spared_each, 2);
    check(&between, between_each, 2);
    check(&nothing, NULL, 0);
    check_job();
    memcpy(few, bytes, sizeof bytes);
    few[49] = 1;
    if (parallel_moves_open_in(&whole, 1, few, sizeof few) != 0) {
        fail("opening");
    }
    memcpy(cache, whole.cache, sizeof cache);
    (void)parallel_moves_resolve_groups_in(
        &whole, &groups, between.free_units, between.units,
        parallel_moves_entries(between.entries, between.count), list, MOST, &refusal);
    if (refusal != 17 || list[0] != 7 || memcmp(cache, whole.cache, sizeof cache) != 0) {
        fail("17");
    }
    printf("the groups of %u patches\n", patches);
    return EXIT_SUCCESS;
}
