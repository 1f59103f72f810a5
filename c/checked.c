/* Patches whose edits are examined before they are handed out, with the library as it is and
 * with one made wrong: it is linked so that asking and resolving by groups go through
 * functions here, which exchange two edits or spoil one where they are told to. Then the patch
 * is not confirmed, and list, cache and position are as they were. Prints what differs, or that
 * all is as said. It is C and C++. */
#include <stdio.h>
#include <stdlib.h>
#include <string.h>

#include "parallel_moves.h"

enum { MOST = 16 };

/* What is done to the edits of a patch. */
enum fault { NONE, EXCHANGED, SPOILED, COUNTED };
static enum fault fault;

#ifdef __cplusplus
extern "C" {
#endif

#define PATCH const uint16_t *target, const uint16_t *function, \
    const uint32_t *units, size_t units_length, const uint32_t *numbers, size_t numbers_length
#define TABLES uint16_t *entries, uint16_t *writers, bool *available, bool *sources, uint64_t *edits, \
    uint16_t *slots, uint16_t *diverted, uint8_t *marks, uint16_t *carried
#define GROUPS uint8_t *owners, uint8_t *labels, uint8_t *next, bool *common, uint16_t *work, uint64_t *joined

#define ASK PATCH, const uint16_t *cache, uint64_t *words, size_t words_length, uint8_t *refusal, \
    uint16_t *made, uint16_t *position, uint64_t *stamp, TABLES
size_t right_ask(ASK) __asm__("__real_parallel_moves_ask_5");
size_t wrong_ask(ASK) __asm__("__wrap_parallel_moves_ask_5");

#define BY_GROUPS PATCH, uint16_t *cache, uint64_t *words, size_t words_length, uint8_t *refusal, \
    uint16_t *position, bool *free_set, TABLES, GROUPS
size_t right_groups(BY_GROUPS) __asm__("__real_parallel_moves_resolve_groups_5");
size_t wrong_groups(BY_GROUPS) __asm__("__wrap_parallel_moves_resolve_groups_5");

#ifdef __cplusplus
}
#endif

static size_t spoiled(uint64_t *words, size_t count)
{
    if (fault == EXCHANGED && count > 1) {
        uint64_t word = words[0];
        words[0] = words[1];
        words[1] = word;
    }
    if (fault == SPOILED && count > 0) {
        words[0] += UINT64_C(1) << 63;
    }
    return fault == COUNTED ? count + PARALLEL_MOVES_MOST_EDITS : count;
}

size_t wrong_ask(ASK)
{
    size_t count = right_ask(
        target, function, units, units_length, numbers, numbers_length, cache, words, words_length,
        refusal, made, position, stamp, entries, writers, available, sources, edits, slots, diverted,
        marks, carried);
    return spoiled(words, count);
}

size_t wrong_groups(BY_GROUPS)
{
    size_t count = right_groups(
        target, function, units, units_length, numbers, numbers_length, cache, words, words_length,
        refusal, position, free_set, entries, writers, available, sources, edits, slots, diverted, marks,
        carried, owners, labels, next, common, work, joined);
    return spoiled(words, count);
}

/* Three registers, two values, no ordinary slots, and an L of 1. */
static const uint8_t bytes[] = {
    3, 1, 3, 0, 1, 3, 0, 0, 1, 0, 0, 0, 1, 1, 0, 0, 1, 2, 2, 0, 1, 3, 0,
    1, 2, 3, 0, 1, 2, 0, 0, 3, 0, 1, 2, 3, 0, 1, 2, 2, 0, 1, 0, 0, 0, 0};
/* r0 and r1 exchanged; and r0 to itself. */
static const struct parallel_moves_entry swapped[] = {{{0, 1, 3, 0}}, {{0, 3, 1, 1}}};
static const struct parallel_moves_entry itself[] = {{{0, 1, 1, 0}}};
static const uint32_t no_units[] = {0};

static struct parallel_moves_memory *memory, *plain, *before;
static struct parallel_moves_groups *groups;
static struct parallel_moves_checker *checker;
static uint64_t list[MOST], expected[MOST];
static int wrong;

static void is(const char *what, size_t given, size_t should)
{
    if (given != should) {
        printf("%s: %zu, not %zu\n", what, given, should);
        wrong = 1;
    }
}

/* A patch, checked, by groups or not. */
static size_t call(bool by_groups, struct parallel_moves_entry_list entries, size_t room, uint8_t *refusal)
{
    return by_groups
        ? parallel_moves_resolve_groups_checked_in(
              memory, groups, checker, no_units, 0, entries, list, room, refusal)
        : parallel_moves_resolve_checked_in(memory, checker, no_units, 0, entries, list, room, refusal);
}

/* It comes to what a function without a check makes of it. */
static void as_plain(const char *what, bool by_groups)
{
    struct parallel_moves_entry_list entries = parallel_moves_entries(swapped, 2);
    uint8_t refusal = 99, refused = 99;
    size_t count = by_groups
        ? parallel_moves_resolve_groups_in(plain, groups, no_units, 0, entries, expected, MOST, &refused)
        : parallel_moves_resolve_in(plain, no_units, 0, entries, expected, MOST, &refused);
    is(what, call(by_groups, entries, MOST, &refusal), count);
    is(what, refusal, refused);
    is(what, memcmp(list, expected, sizeof list) != 0, false);
    is(what, memcmp(memory->cache, plain->cache, sizeof plain->cache) != 0, false);
    is(what, memory->position, plain->position);
}

/* It is refused by a number, and changes nothing. */
static void refused(const char *what, bool by_groups, struct parallel_moves_entry_list entries, size_t room, size_t number)
{
    uint8_t refusal = 99;
    memcpy(before, memory, sizeof *memory);
    memcpy(expected, list, sizeof list);
    is(what, call(by_groups, entries, room, &refusal), 0);
    is(what, refusal, number);
    is(what, memcmp(list, expected, sizeof list) != 0, false);
    is(what, memcmp(memory->cache, before->cache, sizeof before->cache) != 0, false);
    is(what, memory->position, before->position);
    is(what, memory->is_open, before->is_open);
}

static void all(bool by_groups)
{
    struct parallel_moves_entry_list entries = parallel_moves_entries(swapped, 2);
    is("an opening", parallel_moves_open_in(memory, 1, bytes, sizeof bytes), 0);
    is("an opening", parallel_moves_open_in(plain, 1, bytes, sizeof bytes), 0);
    memset(checker, 0, sizeof *checker);
    for (size_t i = 0; i < MOST; i++) {
        list[i] = expected[i] = ~i;
    }
    fault = EXCHANGED;
    refused("edits exchanged", by_groups, entries, MOST, PARALLEL_MOVES_UNCONFIRMED);
    is("edits exchanged, said", checker->said, 0);
    is("edits exchanged, its number", checker->given, 1);
    fault = SPOILED;
    refused("an edit spoiled", by_groups, entries, MOST, PARALLEL_MOVES_UNCONFIRMED);
    is("an edit spoiled, said", checker->said, 2);
    is("an edit spoiled, the number", checker->number, 24);
    fault = COUNTED;
    refused("edits counted wrong", by_groups, entries, MOST, PARALLEL_MOVES_UNCONFIRMED);
    is("edits counted wrong, its number", checker->given, 3);
    fault = NONE;
    for (size_t i = 0; i < MOST; i++) {
        expected[i] = ~i;
    }
    /* As if those had not been given. */
    as_plain("the first", by_groups);
    as_plain("the second", by_groups);
    refused("a move to itself", by_groups, parallel_moves_entries(itself, 1), MOST, 10);
    refused("a list too short", by_groups, entries, 2, 16);
    fault = EXCHANGED;
    refused("edits exchanged later", by_groups, entries, MOST, PARALLEL_MOVES_UNCONFIRMED);
    is("its number later", checker->given, 8);
    fault = NONE;
    as_plain("the third", by_groups);
    parallel_moves_close_in(memory);
    refused("no function", by_groups, entries, MOST, 2);
}

int main(void)
{
    memory = PARALLEL_MOVES_AS(struct parallel_moves_memory *, calloc(1, sizeof *memory));
    plain = PARALLEL_MOVES_AS(struct parallel_moves_memory *, calloc(1, sizeof *plain));
    before = PARALLEL_MOVES_AS(struct parallel_moves_memory *, calloc(1, sizeof *before));
    groups = PARALLEL_MOVES_AS(struct parallel_moves_groups *, calloc(1, sizeof *groups));
    checker = PARALLEL_MOVES_AS(struct parallel_moves_checker *, calloc(1, sizeof *checker));
    if (!memory || !plain || !before || !groups || !checker) {
        return EXIT_FAILURE;
    }
    all(false);
    all(true);
    if (!wrong) {
        puts("all as said");
    }
    free(memory);
    free(plain);
    free(before);
    free(groups);
    free(checker);
    return wrong;
}
