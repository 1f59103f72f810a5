/* A frame and its formulas in one struct, and lists examined with one: what the calls that are
 * lent their tables one by one say (c/frame.c, c/examine.c), those with a struct say too, and
 * without a frame or a formula they change nothing. Prints what differs, or that all is as said.
 * It is C and C++. */
#include <stdio.h>
#include <stdlib.h>
#include <string.h>

#include "parallel_moves.h"

enum { MOST = 16 };

/* Three registers, two values, no ordinary slots, and an L of 0; and behind the function the
 * patch that exchanges r0 and r1, with which it is a job. */
static const uint8_t bytes[] = {
    3, 1, 3, 0, 1, 3, 0, 0, 1, 0, 0, 0, 1, 1, 0, 0, 1, 2, 2, 0, 1, 3, 0, 1, 2, 3, 0, 1, 2,
    0, 0, 3, 0, 1, 2, 3, 0, 1, 2, 2, 0, 0, 0, 0, 0, 0, 1, 0, 2, 0, 1, 3, 0, 0, 3, 1, 1};
enum { FUNCTION = sizeof bytes - 11 };
static const struct parallel_moves_entry swapped[] = {{{0, 1, 3, 0}}, {{0, 3, 1, 1}}};
static const uint32_t no_units[] = {0};

static struct parallel_moves_frame_memory *memory, *before;
static struct parallel_moves_memory *alone;
static struct parallel_moves_groups *groups;
static struct parallel_moves_examiner *examiner;
static struct parallel_moves_frame_preview *previews;
static uint64_t list[MOST];
static int wrong;

static void is(const char *what, size_t given, size_t expected)
{
    if (given != expected) {
        printf("%s: %zu, not %zu\n", what, given, expected);
        wrong = 1;
    }
}

static struct parallel_moves_entry_list swap(void)
{
    return parallel_moves_entries(swapped, 2);
}

/* How many edits swap has for a formula, and 100 more than the number for a refusal. */
static size_t resolved(size_t formula)
{
    uint8_t refusal = 99;
    size_t count = parallel_moves_frame_resolve_in(memory, formula, no_units, 0, swap(), list, MOST, &refusal);
    return refusal == 0 ? count : 100U + refusal;
}

static size_t by_groups(size_t formula)
{
    uint8_t refusal = 99;
    size_t count = parallel_moves_frame_resolve_groups_in(
        memory, groups, formula, no_units, 0, swap(), list, MOST, &refusal);
    return refusal == 0 ? count : 100U + refusal;
}

static size_t asked(size_t formula, size_t preview)
{
    uint8_t refusal = 99;
    size_t count = parallel_moves_frame_ask_in(
        memory, formula, no_units, 0, swap(), list, MOST, &refusal, &previews[preview]);
    return refusal == 0 ? count : 100U + refusal;
}

/* What is said of the list's first words for swap of a formula, as 1, 0 or 100 and a number. */
static size_t examined(size_t formula, size_t count)
{
    uint8_t refusal = 99;
    uint8_t said = parallel_moves_frame_examine_in(
        memory, examiner, formula, no_units, 0, swap(), list, count, &refusal);
    is("a number beside an answer", refusal != 0, said == 2);
    return said == 2 ? 100U + refusal : said;
}

static void open_frame(uint32_t limit, uint32_t first, uint32_t second)
{
    const uint32_t shares[] = {first, second};
    is("a frame", parallel_moves_frame_open_in(memory, limit, shares, 2), 0);
    for (size_t i = 0; i < 2; i++) {
        is("a formula", parallel_moves_frame_formula_in(memory, 1, bytes, FUNCTION), 0);
    }
    is("one formula too many", parallel_moves_frame_formula_in(memory, 1, bytes, FUNCTION), 2);
    is("opened", memory->opened, 2);
}

/* Nothing is open with this number: each call is refused, and changes nothing. */
static void closed(size_t formula)
{
    memcpy(before, memory, sizeof *memory);
    is("no formula", resolved(formula), 102);
    is("no formula by groups", by_groups(formula), 102);
    is("no formula to ask", asked(formula, 0), 102);
    is("no formula to examine", examined(formula, 0), 102);
    is("no formula that made any", parallel_moves_frame_made_in(memory, formula), 0);
    is("no formula, changed", memcmp(before, memory, sizeof *memory) != 0, false);
}

static void in_frames(void)
{
    static const uint32_t above[] = {2, 2};
    closed(0);
    is("shares above the limit", parallel_moves_frame_open_in(memory, 3, above, 2), 23);
    is("a formula without a frame", parallel_moves_frame_formula_in(memory, 1, bytes, FUNCTION), 2);
    closed(0);
    /* One slot, promised to the first. */
    open_frame(1, 1, 0);
    closed(2);
    is("the second", resolved(1), 117);
    is("the second by groups", by_groups(1), 117);
    is("the first asks", asked(0, 0), 3);
    is("its slots", previews[0].made, 1);
    is("it has made none yet", parallel_moves_frame_total_in(memory), 0);
    is("its edits", examined(0, 3), 1);
    is("fewer edits", examined(0, 2), 0);
    list[0] = ((1 * UINT64_C(16384) + 3) * 16384 + 2) * 8 + PARALLEL_MOVES_MOVE; /* M s1 r1 1 */
    is("a slot above the limit", examined(0, 3), 124);
    is("it takes", parallel_moves_frame_take_in(memory, &previews[0]), 0);
    is("it takes once", parallel_moves_frame_take_in(memory, &previews[0]), 20);
    is("it made", parallel_moves_frame_made_in(memory, 0), 1);
    is("all made", parallel_moves_frame_total_in(memory), 1);
    is("its position", memory->formulas[0].position, 3);
    is("it resolves", resolved(0), 3);
    is("it resolves by groups", by_groups(0), 3);
    is("edits by groups", examined(0, 3), 1);
    is("nothing asked for", parallel_moves_frame_take_in(memory, &previews[1]), 20);
    is("it asks", asked(0, 1), 3);
    /* Another frame: what was asked for in the first is not taken. */
    open_frame(2, 0, 0);
    is("late", parallel_moves_frame_take_in(memory, &previews[1]), 20);
    is("the second in another frame", resolved(1), 3);
    is("and the first", resolved(0), 3);
    is("made by both", parallel_moves_frame_total_in(memory), 2);
    is("the limit", memory->limit, 2);
    is("edits with the second slot", examined(0, 3), 1);
}

/* What is said of the list's first words for the patch of a job. */
static size_t said_of_job(long limit, uint32_t patch, size_t count)
{
    uint8_t refusal = 99;
    uint8_t said = limit < 0
        ? parallel_moves_examine_job_in(examiner, bytes, sizeof bytes, patch, list, count, &refusal)
        : parallel_moves_examine_limit_in(
              examiner, PARALLEL_MOVES_AS(uint32_t, limit), bytes, sizeof bytes, patch, list, count, &refusal);
    return said == 2 ? 100U + refusal : said;
}

/* What is said of them for swap of the function alone. */
static size_t said_alone(size_t count, uint32_t dest)
{
    struct parallel_moves_entry entries[2] = {swapped[0], swapped[1]};
    uint8_t refusal = 99;
    entries[1].numbers[2] = dest;
    uint8_t said = parallel_moves_examine_opened_in(
        alone, examiner, no_units, 0, parallel_moves_entries(entries, 2), list, count, &refusal);
    return said == 2 ? 100U + refusal : said;
}

static void examining(void)
{
    /* By s0, which only a frame has: the L is 0. */
    is("edits by a slot", resolved(1), 3);
    is("a job's", said_of_job(-1, 0, 3), 124);
    is("a job's in a frame", said_of_job(2, 0, 3), 1);
    is("no patch", said_of_job(2, 1, 3), 102);
    is("a limit", said_of_job(2049, 0, 3), 102);
    is("no function", said_alone(0, 1), 102);
    is("an opening", parallel_moves_open_in(alone, 1, bytes, FUNCTION), 0);
    is("a function's", said_alone(3, 1), 124);
    is("a function's, none", said_alone(0, 1), 0);
    is("a patch that is refused", said_alone(3, 3), 110);
    is("still open", alone->is_open, true);
}

int main(void)
{
    memory = PARALLEL_MOVES_AS(struct parallel_moves_frame_memory *, calloc(1, sizeof *memory));
    before = PARALLEL_MOVES_AS(struct parallel_moves_frame_memory *, calloc(1, sizeof *before));
    alone = PARALLEL_MOVES_AS(struct parallel_moves_memory *, calloc(1, sizeof *alone));
    groups = PARALLEL_MOVES_AS(struct parallel_moves_groups *, calloc(1, sizeof *groups));
    examiner = PARALLEL_MOVES_AS(struct parallel_moves_examiner *, calloc(1, sizeof *examiner));
    previews = PARALLEL_MOVES_AS(struct parallel_moves_frame_preview *, calloc(2, sizeof *previews));
    if (!memory || !before || !alone || !groups || !examiner || !previews) {
        return EXIT_FAILURE;
    }
    in_frames();
    examining();
    if (!wrong) {
        puts("all as said");
    }
    free(memory);
    free(before);
    free(alone);
    free(groups);
    free(examiner);
    free(previews);
    return wrong;
}
