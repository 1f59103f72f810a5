/* Two formulas that share a frame with one slot, which is promised to the first: each
 * answer of the library is held against request 02 l. Prints what differs. */
#include <stdio.h>
#include <stdlib.h>
#include <string.h>

#include "parallel_moves.h"

/* Three registers, two values, no ordinary slots, and an L of 0. */
static const uint8_t bytes[] = {
    3, 1, 3, 0, 1, 3, 0, 0, 1, 0, 0, 0, 1, 1, 0, 0, 1, 2, 2, 0, 1, 3, 0,
    1, 2, 3, 0, 1, 2, 0, 0, 3, 0, 1, 2, 3, 0, 1, 2, 2, 0, 0, 0, 0, 0, 0};
/* r0 and r1 exchanged. */
static const uint32_t swapped[] = {0, 1, 3, 0, 0, 3, 1, 1};

struct formula {
    uint16_t target[PARALLEL_MOVES_TARGET];
    uint16_t function[PARALLEL_MOVES_FUNCTION];
    uint16_t cache[PARALLEL_MOVES_CACHE];
};

struct work {
    uint16_t entries[PARALLEL_MOVES_ENTRIES];
    uint16_t writers[PARALLEL_MOVES_WRITERS];
    bool available[PARALLEL_MOVES_UNITS];
    bool sources[PARALLEL_MOVES_UNITS];
    uint64_t edits[PARALLEL_MOVES_EDITS];
    uint16_t slots[PARALLEL_MOVES_SLOTS];
    uint16_t diverted[PARALLEL_MOVES_DIVERTED];
    uint8_t marks[PARALLEL_MOVES_MARKS];
    uint16_t carried[PARALLEL_MOVES_CARRIED];
};

/* By groups. */
struct groups {
    bool units[PARALLEL_MOVES_UNITS];
    uint8_t owners[PARALLEL_MOVES_OWNERS];
    uint8_t labels[PARALLEL_MOVES_LABELS];
    uint8_t next[PARALLEL_MOVES_LABELS];
    bool common[PARALLEL_MOVES_UNITS];
    uint16_t cache[PARALLEL_MOVES_CACHE];
    uint64_t joined[PARALLEL_MOVES_JOINED];
};

/* What an asking leaves. */
struct asked {
    uint16_t to, made, position, counter;
    uint64_t stamp;
    uint16_t slots[PARALLEL_MOVES_SLOTS];
};

static int wrong;

static void is(const char *what, unsigned given, unsigned expected)
{
    if (given != expected) {
        printf("%s: %u, not %u\n", what, given, expected);
        wrong = 1;
    }
}

static uint16_t frame[PARALLEL_MOVES_FRAME];
static struct formula *formulas;
static struct work *work;
static struct groups *groups;
static uint64_t list[16];

static size_t resolve(size_t i, uint8_t *refusal)
{
    uint16_t position;
    struct formula *f = &formulas[i];
    return parallel_moves_frame_resolve(
        frame, i, f->target, f->function, swapped, 0, swapped, 8, f->cache, list, 16, refusal,
        &position, work->entries, work->writers, work->available, work->sources, work->edits,
        work->slots, work->diverted, work->marks, work->carried);
}

static size_t by_groups(size_t i, uint8_t *refusal)
{
    uint16_t position;
    struct formula *f = &formulas[i];
    return parallel_moves_frame_resolve_groups(
        frame, i, f->target, f->function, swapped, 0, swapped, 8, f->cache, list, 16, refusal,
        &position, groups->units, work->entries, work->writers, work->available, work->sources,
        work->edits, work->slots, work->diverted, work->marks, work->carried, groups->owners,
        groups->labels, groups->next, groups->common, groups->cache, groups->joined);
}

static size_t ask(size_t i, struct asked *a, uint8_t *refusal)
{
    struct formula *f = &formulas[i];
    return parallel_moves_frame_ask(
        frame, i, f->target, f->function, swapped, 0, swapped, 8, f->cache, list, 16, refusal,
        &a->to, &a->made, &a->position, &a->stamp, &a->counter, work->entries, work->writers,
        work->available, work->sources, work->edits, a->slots, work->diverted, work->marks,
        work->carried);
}

static uint8_t take(size_t i, const struct asked *a)
{
    return parallel_moves_frame_take(
        frame, i, a->to, a->stamp, a->counter, a->slots, formulas[i].cache);
}

/* Opens formula `number` with the tables of formula i. */
static uint8_t open_one(size_t number, size_t i, const uint8_t *given, size_t length)
{
    struct formula *f = &formulas[i];
    return parallel_moves_frame_formula(
        frame, number, 1, given, length, f->target, f->function, f->cache);
}

static void open(uint32_t limit, uint32_t first, uint32_t second)
{
    const uint32_t shares[] = {first, second};
    is("a frame", parallel_moves_frame_open(frame, limit, shares, 2), 0);
    for (size_t i = 0; i < 2; i++) {
        is("a formula", open_one(i, i, bytes, sizeof bytes), 0);
    }
}

/* Opens formula `number` where it is not the next: 2, and frame and tables are as they were. */
static void is_not_next(const char *what, size_t number)
{
    struct formula *before = PARALLEL_MOVES_AS(struct formula *, malloc(2 * sizeof *before));
    uint16_t held[PARALLEL_MOVES_FRAME];
    if (before == NULL) {
        wrong = 1;
        return;
    }
    memcpy(before, formulas, 2 * sizeof *before);
    memcpy(held, frame, sizeof held);
    is(what, open_one(number, 0, bytes, sizeof bytes), 2);
    is("nothing changed", memcmp(before, formulas, 2 * sizeof *before) == 0, 1);
    is("nor the frame", memcmp(held, frame, sizeof held) == 0, 1);
    free(before);
}

int main(void)
{
    uint8_t refusal;
    const uint32_t shares[] = {2, 1};
    struct asked *a = PARALLEL_MOVES_AS(struct asked *, calloc(2, sizeof *a));
    formulas = PARALLEL_MOVES_AS(struct formula *, calloc(2, sizeof *formulas));
    work = PARALLEL_MOVES_AS(struct work *, calloc(1, sizeof *work));
    groups = PARALLEL_MOVES_AS(struct groups *, calloc(1, sizeof *groups));
    if (a == NULL || formulas == NULL || work == NULL || groups == NULL) {
        return 1;
    }
    is("no formula", parallel_moves_frame_open(frame, 1, shares, 0), 2);
    is("a limit", parallel_moves_frame_open(frame, 2049, shares, 2), 2);
    is("shares", parallel_moves_frame_open(frame, 2, shares, 2), 23);

    /* The one slot is promised to the first. */
    open(1, 1, 0);
    is("edits refused", PARALLEL_MOVES_AS(unsigned, resolve(1, &refusal)), 0);
    is("refusal", refusal, 17);
    is("edits", PARALLEL_MOVES_AS(unsigned, resolve(0, &refusal)), 3);
    is("no refusal", refusal, 0);
    is("made", parallel_moves_frame_made(frame, 0), 1);
    is("made by the other", parallel_moves_frame_made(frame, 1), 0);

    /* A slot made by the other since the asking. */
    open(2, 0, 0);
    is("edits asked for", PARALLEL_MOVES_AS(unsigned, ask(0, &a[0], &refusal)), 3);
    is("made then", a[0].made, 1);
    is("edits of the other", PARALLEL_MOVES_AS(unsigned, resolve(1, &refusal)), 3);
    is("late", take(0, &a[0]), 20);
    is("edits asked for again", PARALLEL_MOVES_AS(unsigned, ask(0, &a[1], &refusal)), 3);
    is("taken", take(0, &a[1]), 0);
    is("made, taken", parallel_moves_frame_made(frame, 0), 1);
    is("taken twice", take(0, &a[1]), 20);

    /* By groups: refused, nothing changes; else the counter is the frame's. */
    open(2, 1, 1);
    is("edits by groups", PARALLEL_MOVES_AS(unsigned, by_groups(1, &refusal)), 3);
    is("its slot", parallel_moves_number(parallel_moves_to(list[0])), 0);
    is("edits after it", PARALLEL_MOVES_AS(unsigned, resolve(0, &refusal)), 3);
    is("the next slot", parallel_moves_number(parallel_moves_to(list[0])), 1);
    is("made by groups", parallel_moves_frame_made(frame, 1), 1);
    open(1, 1, 0);
    is("edits by groups refused", PARALLEL_MOVES_AS(unsigned, by_groups(1, &refusal)), 0);
    is("refusal by groups", refusal, 17);
    is("edits by groups of the first", PARALLEL_MOVES_AS(unsigned, by_groups(0, &refusal)), 3);
    is("no refusal by groups", refusal, 0);

    /* Formulas are opened in order, each once, before a slot is made. */
    {
        const uint32_t two[] = {1, 1};
        is("a frame anew", parallel_moves_frame_open(frame, 2, two, 2), 0);
        is_not_next("out of order", 1);
        is_not_next("past the shares", 5);
        is("a formula refused", open_one(0, 0, bytes, sizeof bytes - 1), 1);
        is("tried again", open_one(0, 0, bytes, sizeof bytes), 0);
        is_not_next("open already", 0);
        is("edits of the first", PARALLEL_MOVES_AS(unsigned, resolve(0, &refusal)), 3);
        is_not_next("after a slot was made", 1);
    }

    /* An answer is not taken by a formula that was opened since. */
    open(2, 1, 1);
    is("edits asked for", PARALLEL_MOVES_AS(unsigned, ask(0, &a[0], &refusal)), 3);
    open(2, 1, 1);
    is("another frame's answer", take(0, &a[0]), 20);
    is("nothing made", parallel_moves_frame_made(frame, 0), 0);
    free(groups);
    free(work);
    free(formulas);
    free(a);
    return wrong;
}
