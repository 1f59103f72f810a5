/* Examines lists of edits for the job on standard input, whose one patch exchanges r0 and
 * r1 as swap-full does: each answer of the library is held against request 02 m. Prints
 * what differs, or that all is as said. It is C and C++. */
#include <stdio.h>
#include <stdlib.h>
#include <string.h>

#include "parallel_moves.h"

enum { MOST = 64 };

static struct {
    uint16_t target[PARALLEL_MOVES_TARGET];
    uint16_t function[PARALLEL_MOVES_FUNCTION];
    bool free_units[PARALLEL_MOVES_UNITS];
    uint16_t entries[PARALLEL_MOVES_ENTRIES];
    uint16_t writers[PARALLEL_MOVES_WRITERS];
    uint16_t ties[PARALLEL_MOVES_TIES];
    uint16_t cells[PARALLEL_MOVES_CELLS];
    uint16_t start[PARALLEL_MOVES_CELLS];
    uint16_t held[PARALLEL_MOVES_WORDS];
    uint16_t asked[PARALLEL_MOVES_WORDS];
} work;
static struct parallel_moves_memory memory;
static uint8_t job[1000];
static size_t job_length;
static int wrong;

/* What is said of a list: 1 yes, 0 no, and 100 more than the number for a refusal. A frame
 * has a limit; -1 for none. */
static void is(
    const char *what, long limit, uint32_t patch, const uint64_t *words, size_t length,
    unsigned expected)
{
    uint8_t refusal = 77;
    uint8_t said = limit < 0
        ? parallel_moves_examine(
              job, job_length, patch, words, length, &refusal, work.target, work.function,
              work.free_units, work.entries, work.writers, work.ties, work.cells, work.start,
              work.held, work.asked)
        : parallel_moves_examine_in(
              PARALLEL_MOVES_AS(uint32_t, limit), job, job_length, patch, words, length,
              &refusal, work.target, work.function, work.free_units, work.entries,
              work.writers, work.ties, work.cells, work.start, work.held, work.asked);
    unsigned given = said == 2 ? 100U + refusal : said;
    if (given != expected || (said == 2) != (refusal != 0)) {
        printf("%s: %u with %u, not %u\n", what, said, refusal, expected);
        wrong = 1;
    }
}

/* A move of a value between places by their codes. */
static uint64_t moved(uint64_t to, uint64_t from, uint64_t value)
{
    return ((value * 16384 + from) * 16384 + to) * 8 + 1;
}

int main(void)
{
    enum { R0 = 1, R1 = 3, R2 = 5, R3 = 7, S0 = 0, S2 = 4, PATCHES = 46 };
    /* Two patches, and the first: the swap, with unit 1 free, which is a destination's. */
    static const uint8_t thirteen[] = {2, 1, 1, 2, 0, R0, R1, 0, 0, R1, R0, 1};
    /* r0, r1 and r2 are the units 0 1, 1 2 and 3 4. The value is rebuilt by class 2, which has
     * r0 and r2 and ends in r0; the first patch rebuilds it in r1, and the second does nothing. */
    static const uint8_t fourteen[] = {
        5, 1, 4, 0, 1, 3, 0, 0, 2, 0, 1, 0, 0, 2, 1, 2, 0, 0, 2, 3, 4, 3, 0, 1, 3, 0, 1, 2, 3, 0, 1, 2,
        0, 0, 3, 0, 1, 2, 3, 0, 1, 2, 0, 0, 2, 0, 2, 2, 2, 0, 1, 0, 1, 0, 2, 2, 2, 0, 1, 1, R1, 0, 0, 0};
    static uint8_t swap[sizeof job];
    const uint64_t high[] = {moved(S2, R1, 1), moved(R1, R0, 0), moved(R0, S2, 1)};
    uint64_t list[MOST], changed[MOST];
    uint8_t refusal = 0;
    size_t count;
    job_length = fread(job, 1, sizeof job, stdin);
    count = parallel_moves_answer_in(&memory, 1, job, job_length, list, MOST, &refusal);
    if (refusal != 0 || count != 4) {
        puts("the job is no swap");
        return EXIT_FAILURE;
    }
    /* The first word is the patch's head. */
    is("ours", -1, 0, list + 1, 3, 1);
    is("ours in a frame", 1, 0, list + 1, 3, 1);
    is("none", -1, 0, list, 0, 0);
    is("one left out", -1, 0, list + 1, 2, 0);
    for (size_t i = 0; i < 3; i++) {
        changed[i] = list[i + 1];
    }
    changed[0] = moved(S0, R0, 0);
    is("another operand", -1, 0, changed, 3, 0);
    changed[0] = moved(S0, R3, 1);
    is("a register that there is not", -1, 0, changed, 3, 124);
    changed[0] = list[1] + (UINT64_C(1) << 63);
    is("a bit too many", -1, 0, changed, 3, 124);
    is("a head", -1, 0, list, 4, 124);
    is("another patch", -1, 1, list + 1, 3, 102);
    /* The slot counts by the limit of the frame. */
    is("a slot that there is not", -1, 0, high, 3, 124);
    is("a slot of a frame", 3, 0, high, 3, 1);
    is("a slot above a frame's", 2, 0, high, 3, 124);
    is("the greatest limit", 2048, 0, list + 1, 3, 1);
    is("a limit", 2049, 0, list + 1, 3, 102);
    /* A patch before it is tested and not resolved: its 13 and 14 come first. */
    memcpy(swap, job, job_length);
    memcpy(job + PATCHES, thirteen, sizeof thirteen);
    memcpy(job + PATCHES + sizeof thirteen, swap + PATCHES + 1, job_length - PATCHES - 1);
    job_length += sizeof thirteen - 1;
    is("behind a patch that is refused by 13", -1, 1, list + 1, 3, 113);
    is("the same in a frame", 1, 1, list, 4, 113);
    job[PATCHES + 2] = 2;
    is("behind a patch with another free unit", -1, 1, list + 1, 3, 1);
    memcpy(job, fourteen, sizeof fourteen);
    job_length = sizeof fourteen;
    is("behind a patch that is refused by 14", -1, 1, list, 0, 114);
    job[sizeof fourteen - 4] = R2;
    is("behind a patch with another destination", -1, 1, list, 0, 1);
    /* Before all else. */
    job_length = 0;
    is("a limit, of no job", 2049, 0, list, 4, 102);
    is("no job", 2048, 0, list + 1, 3, 101);
    if (!wrong) {
        puts("all as said");
    }
    return wrong;
}
