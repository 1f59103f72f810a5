/* Parallel moves over registers that share units, resolved in-process.
 *
 * For C99 and later, and C++. Link what is used of target/staticlib, which `./build`
 * fills, or all:
 * - libcalls_c.a, for calls patch by patch:
 *   parallel_moves_open_in with a target and a function, then
 *   parallel_moves_resolve_in with each patch, and parallel_moves_slots_made;
 *   before them, for whoever lays out the frame, parallel_moves_enough_slots_in;
 *   of a target with prices, parallel_moves_open_priced_in, and
 *   parallel_moves_priced_job_in for a whole job;
 * - libasking_c.a, beside libcalls_c.a, for a
 *   patch asked for before one settles on it: parallel_moves_ask_in, and
 *   parallel_moves_take_in;
 * - libgroups_c.a, beside libcalls_c.a, for a
 *   patch resolved by groups: parallel_moves_resolve_groups_in;
 * - libframe_c.a, for formulas that share a
 *   frame: parallel_moves_frame_open_in, and what stands behind it;
 * - libparallel_moves_c.a, for a
 *   whole job as bytes: parallel_moves_answer_in, and parallel_moves_text;
 * - libanswer_groups_c.a, for the same by
 *   groups: parallel_moves_answer_groups_in;
 * - libjob_writer_c.a, for the bytes of a
 *   job from its numbers, parallel_moves_write_in, or of a function that is open,
 *   parallel_moves_write_opened_in, and the shipped target, parallel_moves_shipped_in;
 * - libprice_c.a, for what edits cost:
 *   parallel_moves_price and parallel_moves_price_edits, and the cheaper of two
 *   lists, parallel_moves_cheaper_list;
 * - libtrying_c.a, for both settings tried on
 *   patches that are drawn: parallel_moves_try_in.
 * - libexamine_c.a, for lists of edits examined:
 *   parallel_moves_examine_job_in, and beside libcalls_c.a of an opened function
 *   parallel_moves_examine_opened_in; with libasking_c.a and libgroups_c.a, for patches
 *   whose edits are examined before they are handed out:
 *   parallel_moves_resolve_checked_in, parallel_moves_resolve_groups_checked_in.
 * A release (c/install) has all of them in one, libparallel_moves.a, and as a shared
 * library: link what `pkg-config --libs parallel_moves` says.
 * c/stamp writes parallel_moves_build.h beside them, which says which build they
 * are. docs/JOB.md has the format of a job, and every refusal with its cause and
 * cure; docs/STATEMENTS.md, 'From a call to its theorem', has for each function what is
 * proved of it.
 *
 * A target and a function are described by a struct parallel_moves_builder, and
 * parallel_moves_refusal_text says why something is refused: they need no library.
 * A first program, which links libcalls_c.a and libjob_writer_c.a (c/test runs it):
 *
 *     #include <stdio.h>
 *     #include <stdlib.h>
 *     #include "parallel_moves.h"
 *
 *     int main(void)
 *     {
 *         struct parallel_moves_writer *writer = calloc(1, sizeof *writer);
 *         struct parallel_moves_builder *builder = calloc(1, sizeof *builder);
 *         struct parallel_moves_memory *memory = calloc(1, sizeof *memory);
 *         if (!writer || !builder || !memory) return 1;
 *
 *         // ARM's VFP: registers 32 to 47 are d0 to d15, of bank 1 and two units each.
 *         size_t length = parallel_moves_shipped_in(writer);
 *         parallel_moves_set_target(builder, writer->work, length);
 *         uint32_t a = parallel_moves_add_value(builder, 1), b = parallel_moves_add_value(builder, 1);
 *         length = parallel_moves_build(builder);
 *         uint8_t refusal = parallel_moves_open_in(memory, 1, builder->bytes, length);
 *
 *         // d0 and d1 change their contents. Nothing is needed of what d2 holds: units 4 and 5.
 *         uint32_t d0 = parallel_moves_register(32), d1 = parallel_moves_register(33);
 *         const struct parallel_moves_entry swap[] = { parallel_moves_move(d0, d1, a), parallel_moves_move(d1, d0, b) };
 *         const uint32_t free_units[] = { 4, 5 };
 *         uint64_t list[PARALLEL_MOVES_MOST_EDITS];
 *         size_t count = 0;
 *         if (refusal == 0) {
 *             count = parallel_moves_resolve_in(
 *                 memory, free_units, 2, parallel_moves_entries(swap, 2), list, PARALLEL_MOVES_MOST_EDITS, &refusal);
 *         }
 *         for (size_t i = 0; i < count; i++) {
 *             uint16_t to = parallel_moves_to(list[i]), from = parallel_moves_from(list[i]);
 *             printf("r%d from r%d\n", parallel_moves_number(to), parallel_moves_number(from));
 *         }
 *         if (refusal != 0) fprintf(stderr, "refused %d: %s\n", refusal, parallel_moves_refusal_text(refusal));
 *         free(writer), free(builder), free(memory);
 *         return refusal;
 *     }
 *
 * The functions keep nothing but in the tables that they are lent, neither
 * allocate nor print, and accept any bytes and any patch. What they ask of a caller
 * stands here, all of it; where a call does not get it, anything may happen, and no
 * refusal says so.
 *
 * Every call asks:
 * - no pointer is null, also where a length is 0;
 * - each list has the length that it is said to have, or that it is declared
 *   with, and is aligned as its type is. A `numbers_length` counts numbers, also where
 *   four of them are an entry;
 * - what a call writes overlaps nothing else that is lent to it;
 * - until it returns, other threads leave alone what it writes, and do not write
 *   what it reads (several calls may read one job at once);
 * - each bool is 0 or 1, as calloc makes it and as every call leaves it;
 * - 64 KiB of stack are left.
 *
 * The calls that are lent a struct (parallel_moves_memory, parallel_moves_frame_memory,
 * parallel_moves_groups, parallel_moves_writer, parallel_moves_examiner or
 * parallel_moves_checker) ask:
 * - it was made with calloc, one call at a time is lent it, and what its comment says is to
 *   be read is left alone. While a function is open there, so are its tables: only
 *   while none is may they be lent to other calls;
 * - parallel_moves_take_in, parallel_moves_frame_take_in: the preview is as an asking left
 *   it, or all 0, and the memory that was asked was not freed since.
 * Whether a function, frame or formula is open there, and whether an answer can still be
 * taken, they test.
 *
 * The calls that are lent the tables of a function one by one ask:
 * - parallel_moves_resolve, parallel_moves_resolve_groups and parallel_moves_ask: target,
 *   function and cache are those of one parallel_moves_open or parallel_moves_open_priced
 *   that answered 0, and are as that and the calls of the function since left them. A
 *   refused opening, and any other call that works in these tables, ends the function;
 * - parallel_moves_write_opened and parallel_moves_examine_opened: target and function are
 *   those of such an opening, and are as it left them;
 * - parallel_moves_take: made, stamp and slots are as one parallel_moves_ask left them
 *   that was not refused, and the cache is the one that it asked on;
 * - parallel_moves_slots_made: the cache is an opened function's, else the number says
 *   nothing.
 * For the others it does not matter what the tables hold.
 *
 * The calls with a frame ask:
 * - parallel_moves_frame_formula: the frame is as parallel_moves_frame_open left it when
 *   it answered 0, or as the calls since did; and each formula has a target, function and
 *   cache of its own;
 * - parallel_moves_frame_resolve, parallel_moves_frame_resolve_groups and
 *   parallel_moves_frame_ask: the formula was opened so in the frame; target, function
 *   and cache are its own, as its last call left them, and the frame is as the last call
 *   of any formula left it. So one call at a time is made of all formulas of a frame;
 * - parallel_moves_frame_take: the same, and to, stamp, counter and slots are as one
 *   parallel_moves_frame_ask of that formula left them that was not refused;
 * - parallel_moves_examine_formula: target and function are those of a formula that was
 *   opened so, and are as its opening left them;
 * - parallel_moves_frame_made: the formula's number is below 16.
 * The library is for x86-64 Linux.
 */
#ifndef PARALLEL_MOVES_H
#define PARALLEL_MOVES_H

#include <stdbool.h>
#include <stddef.h>
#include <stdint.h>
#include <string.h>

/* The version of the interface: of what each function is lent, and how long the
 * tables are. The names in the library end in it, so that a library of another
 * version does not link. A version may gain a function: what it has stays. */
#define PARALLEL_MOVES_INTERFACE 5

#define PARALLEL_MOVES_STRING_OF(text) #text
#define PARALLEL_MOVES_STRING(text) PARALLEL_MOVES_STRING_OF(text)
/* The name that a function has in the library. */
#define PARALLEL_MOVES_SYMBOL(name) __asm__(name "_" PARALLEL_MOVES_STRING(PARALLEL_MOVES_INTERFACE))

#ifdef __GNUC__
#define PARALLEL_MOVES_LOOK_AT_IT __attribute__((warn_unused_result))
#else
#define PARALLEL_MOVES_LOOK_AT_IT
#endif

#ifdef __cplusplus
#define PARALLEL_MOVES_AS(type, value) (static_cast<type>(value))
#else
#define PARALLEL_MOVES_AS(type, value) ((type)(value))
#endif

/* A longer job is refused. */
#define PARALLEL_MOVES_MOST_BYTES 65536
/* As many words are enough for every job: a move has at least 4 bytes of the
 * job and at most 8 edits, a rebuild 3 and 5, and there are 1,024 patches. */
#define PARALLEL_MOVES_MOST_WORDS (2 * PARALLEL_MOVES_MOST_BYTES + 1024)
/* As many bytes are enough for every text: the line of an edit has at most 19,
 * each other line at most 36. */
#define PARALLEL_MOVES_MOST_TEXT (19 * 2 * PARALLEL_MOVES_MOST_BYTES + 36 * 1025)

/* A target with more banks is refused. */
#define PARALLEL_MOVES_MOST_BANKS 8
/* As many emergency slots are enough for every function, and a higher limit is refused. */
#define PARALLEL_MOVES_MOST_EMERGENCY_SLOTS 2048
/* A patch with more entries is refused. */
#define PARALLEL_MOVES_MOST_ENTRIES 128
/* As many words are enough for the edits of every patch: 8 for each entry. */
#define PARALLEL_MOVES_MOST_EDITS (8 * PARALLEL_MOVES_MOST_ENTRIES)

/* A patch's prices: what an M, an R, an S and an L costs. */
#define PARALLEL_MOVES_PRICES 4
/* No price is above this. */
#define PARALLEL_MOVES_MOST_PRICE 65535
/* No run count is above this: 2^26 - 1. */
#define PARALLEL_MOVES_MOST_RUNS 67108863
/* No list of two to choose from has more words than this. */
#define PARALLEL_MOVES_MOST_CHOSEN 65536

/* The lengths of the tables. */
#define PARALLEL_MOVES_TARGET 107520
#define PARALLEL_MOVES_FUNCTION 16388
#define PARALLEL_MOVES_CACHE 65600
#define PARALLEL_MOVES_UNITS 512
#define PARALLEL_MOVES_ENTRIES 1541
#define PARALLEL_MOVES_WRITERS 6657
#define PARALLEL_MOVES_EDITS 1025
#define PARALLEL_MOVES_SLOTS 32835
#define PARALLEL_MOVES_FRAME 37
#define PARALLEL_MOVES_DIVERTED 12288
#define PARALLEL_MOVES_MARKS 129
#define PARALLEL_MOVES_CARRIED 2049
/* By groups. */
#define PARALLEL_MOVES_OWNERS 4608
#define PARALLEL_MOVES_LABELS 128
#define PARALLEL_MOVES_JOINED 1024
#define PARALLEL_MOVES_NUMBERS 512
#define PARALLEL_MOVES_TALLY 263
#define PARALLEL_MOVES_TIES 12416
#define PARALLEL_MOVES_CELLS 67072
#define PARALLEL_MOVES_WORDS 10

#ifdef __cplusplus
extern "C" {
#endif

/* Opens a function: `bytes` are a target and a function over it, with nothing
 * behind them. `kept_evictions` is how many registers may be evicted at once in
 * its patches, 1 or 2; docs/JOB.md says what it changes. Returns 0, or the number
 * of the refusal (22 for another number of kept evictions, tested first; else 1
 * to 9; 8 for bytes left over): then the cache is as it was, and no patch can be
 * given. The function has no emergency slots yet. */
PARALLEL_MOVES_LOOK_AT_IT uint8_t parallel_moves_open(
    uint32_t kept_evictions,
    const uint8_t *bytes, size_t bytes_length,
    uint16_t target[PARALLEL_MOVES_TARGET],
    uint16_t function[PARALLEL_MOVES_FUNCTION],
    uint16_t cache[PARALLEL_MOVES_CACHE])
    PARALLEL_MOVES_SYMBOL("parallel_moves_open");

/* Opens a function as parallel_moves_open does, of a target that has these prices, of M,
 * R, S and L: 19 for one above PARALLEL_MOVES_MOST_PRICE, tested when the target is read
 * to its end, after 7 and before the function's first number. */
PARALLEL_MOVES_LOOK_AT_IT uint8_t parallel_moves_open_priced(
    uint32_t kept_evictions,
    const uint32_t prices[PARALLEL_MOVES_PRICES],
    const uint8_t *bytes, size_t bytes_length,
    uint16_t target[PARALLEL_MOVES_TARGET],
    uint16_t function[PARALLEL_MOVES_FUNCTION],
    uint16_t cache[PARALLEL_MOVES_CACHE])
    PARALLEL_MOVES_SYMBOL("parallel_moves_open_priced");

/* How many patches a whole job says that it has, 1 to 1,024, of a target that has these
 * prices. *refusal is set to 0, or to the number by which the job's opening is refused,
 * with 19 as for parallel_moves_open_priced: look at it first, since then the result is 0.
 * The patches are not read. The working tables are `target` and `function`: a function
 * that was opened in them is open no longer. */
uint32_t parallel_moves_priced_job(
    uint32_t kept_evictions,
    const uint32_t prices[PARALLEL_MOVES_PRICES],
    const uint8_t *job, size_t job_length,
    uint8_t *refusal,
    uint16_t target[PARALLEL_MOVES_TARGET],
    uint16_t function[PARALLEL_MOVES_FUNCTION])
    PARALLEL_MOVES_SYMBOL("parallel_moves_priced_job");

/* The L to plan with: so many emergency slots are enough for a function, whatever
 * patches it gets. `bytes` are a target and a function over it, with any L and with
 * nothing behind them; `kept_evictions` is as for parallel_moves_open. Returns
 * 128 + kept_evictions for each different slot size among the banks of the
 * function's values, at most 1,040. Opened with it in the place of its L, the
 * function never gets 17. *refusal is set to 0, or to the number that
 * parallel_moves_open would return: look at it first, since then the result is 0,
 * as it is for a function without values. The working tables are `target` and
 * `function`: a function that was opened in them is open no longer. */
uint16_t parallel_moves_enough_slots(
    uint32_t kept_evictions,
    const uint8_t *bytes, size_t bytes_length,
    uint8_t *refusal,
    uint16_t target[PARALLEL_MOVES_TARGET],
    uint16_t function[PARALLEL_MOVES_FUNCTION])
    PARALLEL_MOVES_SYMBOL("parallel_moves_enough_slots");

/* Resolves a patch of an opened function. `free_units` are the units that are
 * free, rising; `numbers` are its entries, four to each, as
 * parallel_moves_put_move and parallel_moves_put_remat write them.
 * `numbers_length` counts numbers, four to an entry, here and in every call that
 * takes them: given the count of entries in its place, a call may resolve only the
 * first quarter of them, and say nothing. parallel_moves_resolve_in takes entries.
 * Returns how many edits the patch has, as words at the front of `list`; the words
 * past them are left alone. *refusal is set to 0, or to the number of the refusal (2,
 * 3, 9 to 17, 21): look at it first, since then the result is 0, and list, cache and
 * *position are as they were. Else *position is set to the greatest position
 * that a search of the patch met, see parallel_moves_position. As many words as
 * PARALLEL_MOVES_MOST_EDITS are enough for every patch. The working tables are
 * `entries` to `carried`. */
size_t parallel_moves_resolve(
    const uint16_t target[PARALLEL_MOVES_TARGET],
    const uint16_t function[PARALLEL_MOVES_FUNCTION],
    const uint32_t *free_units, size_t free_units_length,
    const uint32_t *numbers, size_t numbers_length,
    uint16_t cache[PARALLEL_MOVES_CACHE],
    uint64_t *list, size_t list_length,
    uint8_t *refusal,
    uint16_t *position,
    uint16_t entries[PARALLEL_MOVES_ENTRIES],
    uint16_t writers[PARALLEL_MOVES_WRITERS],
    bool available[PARALLEL_MOVES_UNITS],
    bool sources[PARALLEL_MOVES_UNITS],
    uint64_t edits[PARALLEL_MOVES_EDITS],
    uint16_t slots[PARALLEL_MOVES_SLOTS],
    uint16_t diverted[PARALLEL_MOVES_DIVERTED],
    uint8_t marks[PARALLEL_MOVES_MARKS],
    uint16_t carried[PARALLEL_MOVES_CARRIED])
    PARALLEL_MOVES_SYMBOL("parallel_moves_resolve");

/* Asks for a patch of an opened function, given as to parallel_moves_resolve, and
 * changes no cache: it returns and sets what parallel_moves_resolve would, and the
 * edits stand at the front of `list`. Where it is not refused, *made is set to how many
 * emergency slots the function has once the answer is taken, and *stamp to what tells
 * later whether it still can be. To take it, keep *made, *stamp and the table `slots`,
 * which is this answer's own until then: give each asking another. The list is read no
 * more. Refused, it leaves nothing to take: *made, *position, *stamp and list are as
 * they were, and `slots` holds anything: an answer that was kept there is lost. */
size_t parallel_moves_ask(
    const uint16_t target[PARALLEL_MOVES_TARGET],
    const uint16_t function[PARALLEL_MOVES_FUNCTION],
    const uint32_t *free_units, size_t free_units_length,
    const uint32_t *numbers, size_t numbers_length,
    const uint16_t cache[PARALLEL_MOVES_CACHE],
    uint64_t *list, size_t list_length,
    uint8_t *refusal,
    uint16_t *made,
    uint16_t *position,
    uint64_t *stamp,
    uint16_t entries[PARALLEL_MOVES_ENTRIES],
    uint16_t writers[PARALLEL_MOVES_WRITERS],
    bool available[PARALLEL_MOVES_UNITS],
    bool sources[PARALLEL_MOVES_UNITS],
    uint64_t edits[PARALLEL_MOVES_EDITS],
    uint16_t slots[PARALLEL_MOVES_SLOTS],
    uint16_t diverted[PARALLEL_MOVES_DIVERTED],
    uint8_t marks[PARALLEL_MOVES_MARKS],
    uint16_t carried[PARALLEL_MOVES_CARRIED])
    PARALLEL_MOVES_SYMBOL("parallel_moves_ask");

/* Takes what was asked for: the cache becomes what resolving the patch would have made
 * it. Returns 0; or 20, the cache as it was, where that cache has taken an answer or
 * resolved a patch since the asking, or was opened or cleared for another function. Of
 * askings and takes this is promised while a cache has fewer than 2^64 patches taken or
 * resolved and functions opened. Asked of the caller, and not tested: `made`, `stamp` and
 * `slots` are as one asking, which was not refused, left them, and `cache` is the one that
 * it was asked for on. parallel_moves_take_in tests for this. */
PARALLEL_MOVES_LOOK_AT_IT uint8_t parallel_moves_take(
    uint16_t made,
    uint64_t stamp,
    const uint16_t slots[PARALLEL_MOVES_SLOTS],
    uint16_t cache[PARALLEL_MOVES_CACHE])
    PARALLEL_MOVES_SYMBOL("parallel_moves_take");

/* Resolves a patch of an opened function by groups, given as to parallel_moves_resolve:
 * it returns and sets what parallel_moves_resolve does. Entries belong together if a
 * unit of one's source or destination is in the other's, or others link them in a
 * chain; groups go in the order of their first entry, each as a patch of its entries
 * alone, whose free units are those that no source of another group has. The whole
 * patch is tested first; a 17 in one refuses all, and list and cache are as they were.
 * For askings and takes it is one patch. */
size_t parallel_moves_resolve_groups(
    const uint16_t target[PARALLEL_MOVES_TARGET],
    const uint16_t function[PARALLEL_MOVES_FUNCTION],
    const uint32_t *free_units, size_t free_units_length,
    const uint32_t *numbers, size_t numbers_length,
    uint16_t cache[PARALLEL_MOVES_CACHE],
    uint64_t *list, size_t list_length,
    uint8_t *refusal,
    uint16_t *position,
    bool units[PARALLEL_MOVES_UNITS],
    uint16_t entries[PARALLEL_MOVES_ENTRIES],
    uint16_t writers[PARALLEL_MOVES_WRITERS],
    bool available[PARALLEL_MOVES_UNITS],
    bool sources[PARALLEL_MOVES_UNITS],
    uint64_t edits[PARALLEL_MOVES_EDITS],
    uint16_t slots[PARALLEL_MOVES_SLOTS],
    uint16_t diverted[PARALLEL_MOVES_DIVERTED],
    uint8_t marks[PARALLEL_MOVES_MARKS],
    uint16_t carried[PARALLEL_MOVES_CARRIED],
    uint8_t owners[PARALLEL_MOVES_OWNERS],
    uint8_t labels[PARALLEL_MOVES_LABELS],
    uint8_t next[PARALLEL_MOVES_LABELS],
    bool common[PARALLEL_MOVES_UNITS],
    uint16_t work[PARALLEL_MOVES_CACHE],
    uint64_t joined[PARALLEL_MOVES_JOINED])
    PARALLEL_MOVES_SYMBOL("parallel_moves_resolve_groups");

/* Opens a frame that 1 to 16 formulas share, with a limit of at most 2,048 emergency
 * slots for all and each one's promised share of them. Returns 0; or, the frame as it
 * was, 2 for another number of formulas or a higher limit, then 23 for shares that add
 * up to more than the limit. A formula may make a slot while it is below its share, or
 * while all slots made plus what the others still lack of their shares are below the
 * limit; else its patch is refused with 17. Slot numbers come from one counter. */
PARALLEL_MOVES_LOOK_AT_IT uint8_t parallel_moves_frame_open(
    uint16_t frame[PARALLEL_MOVES_FRAME],
    uint32_t limit,
    const uint32_t *shares, size_t shares_length)
    PARALLEL_MOVES_SYMBOL("parallel_moves_frame_open");

/* Opens a formula of an opened frame, number 0 first, with tables of its own; the bytes
 * are as for parallel_moves_open, and their L is read but not used. Returns 0 or the
 * refusal's number, the frame and the cache then as they were: another N than the first
 * formula's is 2, when it is read. First 2, with nothing changed at all, for a formula that
 * is not the next: its number is not below that of the shares, it is out of order or open
 * already, or a slot of the frame is made. After any refusal the same one may be tried
 * again. */
PARALLEL_MOVES_LOOK_AT_IT uint8_t parallel_moves_frame_formula(
    uint16_t frame[PARALLEL_MOVES_FRAME],
    size_t formula,
    uint32_t kept_evictions,
    const uint8_t *bytes, size_t bytes_length,
    uint16_t target[PARALLEL_MOVES_TARGET],
    uint16_t function[PARALLEL_MOVES_FUNCTION],
    uint16_t cache[PARALLEL_MOVES_CACHE])
    PARALLEL_MOVES_SYMBOL("parallel_moves_frame_formula");

/* Resolves a patch of a formula as parallel_moves_resolve does. Asked of the caller, and
 * not tested: the formula's number is below the number of shares, and it was opened; its
 * tables are those that it was opened with, and the frame is as the last call of any
 * formula left it. */
size_t parallel_moves_frame_resolve(
    uint16_t frame[PARALLEL_MOVES_FRAME],
    size_t formula,
    const uint16_t target[PARALLEL_MOVES_TARGET],
    const uint16_t function[PARALLEL_MOVES_FUNCTION],
    const uint32_t *free_units, size_t free_units_length,
    const uint32_t *numbers, size_t numbers_length,
    uint16_t cache[PARALLEL_MOVES_CACHE],
    uint64_t *list, size_t list_length,
    uint8_t *refusal,
    uint16_t *position,
    uint16_t entries[PARALLEL_MOVES_ENTRIES],
    uint16_t writers[PARALLEL_MOVES_WRITERS],
    bool available[PARALLEL_MOVES_UNITS],
    bool sources[PARALLEL_MOVES_UNITS],
    uint64_t edits[PARALLEL_MOVES_EDITS],
    uint16_t slots[PARALLEL_MOVES_SLOTS],
    uint16_t diverted[PARALLEL_MOVES_DIVERTED],
    uint8_t marks[PARALLEL_MOVES_MARKS],
    uint16_t carried[PARALLEL_MOVES_CARRIED])
    PARALLEL_MOVES_SYMBOL("parallel_moves_frame_resolve");

/* Resolves a patch of a formula by groups, as parallel_moves_resolve_groups does. All
 * groups have the formula's one share: a 17 in one refuses all, and frame, list and cache
 * are as they were. For the rest it is as parallel_moves_frame_resolve. */
size_t parallel_moves_frame_resolve_groups(
    uint16_t frame[PARALLEL_MOVES_FRAME],
    size_t formula,
    const uint16_t target[PARALLEL_MOVES_TARGET],
    const uint16_t function[PARALLEL_MOVES_FUNCTION],
    const uint32_t *free_units, size_t free_units_length,
    const uint32_t *numbers, size_t numbers_length,
    uint16_t cache[PARALLEL_MOVES_CACHE],
    uint64_t *list, size_t list_length,
    uint8_t *refusal,
    uint16_t *position,
    bool units[PARALLEL_MOVES_UNITS],
    uint16_t entries[PARALLEL_MOVES_ENTRIES],
    uint16_t writers[PARALLEL_MOVES_WRITERS],
    bool available[PARALLEL_MOVES_UNITS],
    bool sources[PARALLEL_MOVES_UNITS],
    uint64_t edits[PARALLEL_MOVES_EDITS],
    uint16_t slots[PARALLEL_MOVES_SLOTS],
    uint16_t diverted[PARALLEL_MOVES_DIVERTED],
    uint8_t marks[PARALLEL_MOVES_MARKS],
    uint16_t carried[PARALLEL_MOVES_CARRIED],
    uint8_t owners[PARALLEL_MOVES_OWNERS],
    uint8_t labels[PARALLEL_MOVES_LABELS],
    uint8_t next[PARALLEL_MOVES_LABELS],
    bool common[PARALLEL_MOVES_UNITS],
    uint16_t work[PARALLEL_MOVES_CACHE],
    uint64_t joined[PARALLEL_MOVES_JOINED])
    PARALLEL_MOVES_SYMBOL("parallel_moves_frame_resolve_groups");

/* Asks for a patch of a formula as parallel_moves_ask does, and changes neither frame
 * nor cache. *made is how many slots the formula itself has made once the answer is
 * taken. To take it, keep *to, *stamp, *counter and the table `slots`. */
size_t parallel_moves_frame_ask(
    const uint16_t frame[PARALLEL_MOVES_FRAME],
    size_t formula,
    const uint16_t target[PARALLEL_MOVES_TARGET],
    const uint16_t function[PARALLEL_MOVES_FUNCTION],
    const uint32_t *free_units, size_t free_units_length,
    const uint32_t *numbers, size_t numbers_length,
    const uint16_t cache[PARALLEL_MOVES_CACHE],
    uint64_t *list, size_t list_length,
    uint8_t *refusal,
    uint16_t *to,
    uint16_t *made,
    uint16_t *position,
    uint64_t *stamp,
    uint16_t *counter,
    uint16_t entries[PARALLEL_MOVES_ENTRIES],
    uint16_t writers[PARALLEL_MOVES_WRITERS],
    bool available[PARALLEL_MOVES_UNITS],
    bool sources[PARALLEL_MOVES_UNITS],
    uint64_t edits[PARALLEL_MOVES_EDITS],
    uint16_t slots[PARALLEL_MOVES_SLOTS],
    uint16_t diverted[PARALLEL_MOVES_DIVERTED],
    uint8_t marks[PARALLEL_MOVES_MARKS],
    uint16_t carried[PARALLEL_MOVES_CARRIED])
    PARALLEL_MOVES_SYMBOL("parallel_moves_frame_ask");

/* Takes what a formula asked for. Returns 0; or 20, frame and cache as they were, where
 * the formula has taken an answer or resolved a patch since the asking, another formula
 * made a slot, or the formula's cache was opened anew. Asked of the caller, and not
 * tested: `to`, `stamp`, `counter` and `slots` are as one asking of this formula, which was
 * not refused, left them. */
PARALLEL_MOVES_LOOK_AT_IT uint8_t parallel_moves_frame_take(
    uint16_t frame[PARALLEL_MOVES_FRAME],
    size_t formula,
    uint16_t to,
    uint64_t stamp,
    uint16_t counter,
    const uint16_t slots[PARALLEL_MOVES_SLOTS],
    uint16_t cache[PARALLEL_MOVES_CACHE])
    PARALLEL_MOVES_SYMBOL("parallel_moves_frame_take");

/* How many emergency slots a formula has made. Asked of the caller, and not tested: its
 * number is below 16. */
uint16_t parallel_moves_frame_made(
    const uint16_t frame[PARALLEL_MOVES_FRAME],
    size_t formula)
    PARALLEL_MOVES_SYMBOL("parallel_moves_frame_made");

/* How many emergency slots an opened function has so far. docs/JOB.md says how
 * large each is. */
uint16_t parallel_moves_slots_made(
    const uint16_t cache[PARALLEL_MOVES_CACHE])
    PARALLEL_MOVES_SYMBOL("parallel_moves_made");

/* Answers a whole job, with 1 or 2 kept evictions as parallel_moves_open says:
 * returns how many words its resolved patches have, and sets *refusal to the
 * number of the refusal, or to 0 if there is none. Look at it before the words:
 * of a refused job they are only the patches before the refused one. The words are, for each patch, a head and then its edits. A patch
 * for which too few words are left is refused with 16, which never comes from
 * PARALLEL_MOVES_MOST_WORDS words on: lend as many, or more and ask again. The
 * words past those answered are left alone. The working tables are `target` to
 * `carried`. */
size_t parallel_moves_answer(
    uint32_t kept_evictions,
    const uint8_t *job, size_t job_length,
    uint64_t *words, size_t words_length,
    uint8_t *refusal,
    uint16_t target[PARALLEL_MOVES_TARGET],
    uint16_t function[PARALLEL_MOVES_FUNCTION],
    uint16_t cache[PARALLEL_MOVES_CACHE],
    bool free_units[PARALLEL_MOVES_UNITS],
    uint16_t entries[PARALLEL_MOVES_ENTRIES],
    uint16_t writers[PARALLEL_MOVES_WRITERS],
    bool available[PARALLEL_MOVES_UNITS],
    bool sources[PARALLEL_MOVES_UNITS],
    uint64_t edits[PARALLEL_MOVES_EDITS],
    uint16_t slots[PARALLEL_MOVES_SLOTS],
    uint16_t diverted[PARALLEL_MOVES_DIVERTED],
    uint8_t marks[PARALLEL_MOVES_MARKS],
    uint16_t carried[PARALLEL_MOVES_CARRIED])
    PARALLEL_MOVES_SYMBOL("parallel_moves_answer");

/* parallel_moves_answer with each patch by groups, as parallel_moves_resolve_groups has
 * them: the same words and refusals; 17 where a group gets it. */
size_t parallel_moves_answer_groups(
    uint32_t kept_evictions,
    const uint8_t *job, size_t job_length,
    uint64_t *words, size_t words_length,
    uint8_t *refusal,
    uint16_t target[PARALLEL_MOVES_TARGET],
    uint16_t function[PARALLEL_MOVES_FUNCTION],
    uint16_t cache[PARALLEL_MOVES_CACHE],
    bool free_units[PARALLEL_MOVES_UNITS],
    uint16_t entries[PARALLEL_MOVES_ENTRIES],
    uint16_t writers[PARALLEL_MOVES_WRITERS],
    bool available[PARALLEL_MOVES_UNITS],
    bool sources[PARALLEL_MOVES_UNITS],
    uint64_t edits[PARALLEL_MOVES_EDITS],
    uint16_t slots[PARALLEL_MOVES_SLOTS],
    uint16_t diverted[PARALLEL_MOVES_DIVERTED],
    uint8_t marks[PARALLEL_MOVES_MARKS],
    uint16_t carried[PARALLEL_MOVES_CARRIED],
    uint8_t owners[PARALLEL_MOVES_OWNERS],
    uint8_t labels[PARALLEL_MOVES_LABELS],
    uint8_t next[PARALLEL_MOVES_LABELS],
    bool common[PARALLEL_MOVES_UNITS],
    uint16_t work[PARALLEL_MOVES_CACHE],
    uint64_t joined[PARALLEL_MOVES_JOINED],
    uint32_t numbers[PARALLEL_MOVES_NUMBERS])
    PARALLEL_MOVES_SYMBOL("parallel_moves_answer_groups");

/* Writes the text of an answer, as the program `resolve` prints it: returns its
 * length, or 0 where `text` is too short; then the lines that fit stand at its
 * front, and the other bytes are as they were. It ends in a newline, not in a
 * zero byte. `words` and `refusal` are those of a call of parallel_moves_answer,
 * with the count that it returned as `words_length`. */
size_t parallel_moves_text(
    const uint64_t *words, size_t words_length,
    uint8_t refusal,
    uint8_t *text, size_t text_length)
    PARALLEL_MOVES_SYMBOL("parallel_moves_text");

/* Writes a job: `numbers` are all of it, target, function and patches, in the order
 * of docs/JOB.md. Returns how many bytes it has, at the front of `bytes`, each number
 * in its shortest form; the bytes past them are left alone. *refusal is set to 0, or
 * to the number of the refusal: look at it first, since then the result is 0, and no
 * byte is written. The number is the one that reading these bytes to their end would
 * give, 2 before all else for more than PARALLEL_MOVES_MOST_BYTES of them, else 1 to
 * 15 or 21; then 18, where `bytes_length` is less than the job has. As many as
 * PARALLEL_MOVES_MOST_BYTES are enough for every job. 16 and 17 are matters of
 * resolving: a job that is written may still be refused by 17. The working tables
 * are `work` to `writers`. */
size_t parallel_moves_write(
    const uint32_t *numbers, size_t numbers_length,
    uint8_t *bytes, size_t bytes_length,
    uint8_t *refusal,
    uint8_t work[PARALLEL_MOVES_MOST_BYTES],
    uint16_t target[PARALLEL_MOVES_TARGET],
    uint16_t function[PARALLEL_MOVES_FUNCTION],
    bool available[PARALLEL_MOVES_UNITS],
    uint16_t entries[PARALLEL_MOVES_ENTRIES],
    uint16_t writers[PARALLEL_MOVES_WRITERS])
    PARALLEL_MOVES_SYMBOL("parallel_moves_write");

/* Writes a job of an opened target and function: `numbers` are the rest of it, the patch
 * count and the patches, in the order of docs/JOB.md. It returns and sets what
 * parallel_moves_write would of all the job's numbers. Asked of the caller, and not tested:
 * `target` and `function` are as an opening left them that answered 0. They stay so. The
 * working tables are `work` to `writers`. */
size_t parallel_moves_write_opened(
    const uint16_t target[PARALLEL_MOVES_TARGET],
    const uint16_t function[PARALLEL_MOVES_FUNCTION],
    const uint32_t *numbers, size_t numbers_length,
    uint8_t *bytes, size_t bytes_length,
    uint8_t *refusal,
    uint8_t work[PARALLEL_MOVES_MOST_BYTES],
    uint16_t read_target[PARALLEL_MOVES_TARGET],
    uint16_t read_function[PARALLEL_MOVES_FUNCTION],
    bool available[PARALLEL_MOVES_UNITS],
    uint16_t entries[PARALLEL_MOVES_ENTRIES],
    uint16_t writers[PARALLEL_MOVES_WRITERS])
    PARALLEL_MOVES_SYMBOL("parallel_moves_write_opened");

/* Writes the shipped target (docs/JOB.md, 'Writing a job') to the front of `work`,
 * as the bytes that a job on it begins with, and returns how many there are. What stands
 * past them in `work` may be anything. */
size_t parallel_moves_shipped(
    uint8_t work[PARALLEL_MOVES_MOST_BYTES],
    uint16_t target[PARALLEL_MOVES_TARGET])
    PARALLEL_MOVES_SYMBOL("parallel_moves_shipped");

/* The code of a register. */
static inline uint32_t parallel_moves_register(uint32_t number)
{
    return 2 * number + 1;
}

/* The code of a slot. */
static inline uint32_t parallel_moves_slot(uint32_t number)
{
    return 2 * number;
}

/* Writes the entry of a move as four numbers: `dest` is to hold what `source` holds
 * before the patch, which is `value`. Places are given by their codes. */
static inline void parallel_moves_put_move(uint32_t entry[4], uint32_t source, uint32_t dest, uint32_t value)
{
    entry[0] = 0;
    entry[1] = source;
    entry[2] = dest;
    entry[3] = value;
}

/* Writes the entry of a rebuild: `value` is to be rebuilt in `dest`. */
static inline void parallel_moves_put_remat(uint32_t entry[4], uint32_t dest, uint32_t value)
{
    entry[0] = 1;
    entry[1] = dest;
    entry[2] = value;
    entry[3] = 0;
}

/* An entry of a patch, as parallel_moves_move and parallel_moves_remat make it. An array
 * of them is the numbers that parallel_moves_resolve reads. */
struct parallel_moves_entry {
    uint32_t numbers[4];
};
typedef char parallel_moves_entry_is_four_numbers[sizeof(struct parallel_moves_entry) == 16 ? 1 : -1];

/* The entry of a move, as parallel_moves_put_move has it. */
static inline struct parallel_moves_entry parallel_moves_move(uint32_t source, uint32_t dest, uint32_t value)
{
    struct parallel_moves_entry entry;
    parallel_moves_put_move(entry.numbers, source, dest, value);
    return entry;
}

/* The entry of a rebuild, as parallel_moves_put_remat has it. */
static inline struct parallel_moves_entry parallel_moves_remat(uint32_t dest, uint32_t value)
{
    struct parallel_moves_entry entry;
    parallel_moves_put_remat(entry.numbers, dest, value);
    return entry;
}

/* The entries of a patch, and how many they are: one argument, so that a call which gives
 * numbers and their length in its place does not compile. */
struct parallel_moves_entry_list {
    const struct parallel_moves_entry *first;
    size_t count;
};

/* The `count` entries from `first` on. */
static inline struct parallel_moves_entry_list parallel_moves_entries(const struct parallel_moves_entry *first, size_t count)
{
    struct parallel_moves_entry_list entries;
    entries.first = first;
    entries.count = count;
    return entries;
}

/* The numbers of entries, for a call that takes numbers. */
static inline const uint32_t *parallel_moves_entry_numbers(struct parallel_moves_entry_list entries)
{
    return PARALLEL_MOVES_AS(const uint32_t *, PARALLEL_MOVES_AS(const void *, entries.first));
}

/* How many numbers they are. */
static inline size_t parallel_moves_entry_numbers_length(struct parallel_moves_entry_list entries)
{
    return 4 * entries.count;
}

/* All tables, about half a megabyte: make one with calloc, and use it for as
 * many calls as you like, one at a time. It has one opened function at most, and
 * `is_open` tells whether it has one: none before the first opening, none where the
 * last opening was refused, and none after parallel_moves_enough_slots_in,
 * parallel_moves_priced_job_in, parallel_moves_answer_in, parallel_moves_answer_groups_in
 * or parallel_moves_try_in, which use its tables, whatever they answer. Without an opened
 * function a patch is refused with 2, so is a job to be written of it, a take is with 20,
 * and nothing changes. `position` is that of the last patch of the function which was
 * resolved or taken, 0 before the first. `openings` rises with every opening, also a
 * refused one, and with every other use that ends the opened function: an answer is taken
 * only under the number that it was asked for under. Read these three, and write none. */
struct parallel_moves_memory {
    uint64_t openings;
    uint64_t edits[PARALLEL_MOVES_EDITS];
    uint16_t target[PARALLEL_MOVES_TARGET];
    uint16_t function[PARALLEL_MOVES_FUNCTION];
    uint16_t cache[PARALLEL_MOVES_CACHE];
    uint16_t entries[PARALLEL_MOVES_ENTRIES];
    uint16_t writers[PARALLEL_MOVES_WRITERS];
    uint16_t slots[PARALLEL_MOVES_SLOTS];
    uint16_t diverted[PARALLEL_MOVES_DIVERTED];
    uint16_t carried[PARALLEL_MOVES_CARRIED];
    bool free_units[PARALLEL_MOVES_UNITS];
    bool available[PARALLEL_MOVES_UNITS];
    bool sources[PARALLEL_MOVES_UNITS];
    uint8_t marks[PARALLEL_MOVES_MARKS];
    uint16_t position;
    bool is_open;
};

/* Ends the function that is open in `memory`, if there is one: no patch can be given, and
 * no answer of it can be taken any more. */
static inline void parallel_moves_close_in(struct parallel_moves_memory *memory)
{
    memory->is_open = false;
    memory->openings++;
}

/* parallel_moves_open with the tables of `memory`. It ends the function that was open
 * there; refused, it leaves none open. */
PARALLEL_MOVES_LOOK_AT_IT static inline uint8_t parallel_moves_open_in(
    struct parallel_moves_memory *memory, uint32_t kept_evictions,
    const uint8_t *bytes, size_t bytes_length)
{
    parallel_moves_close_in(memory);
    memory->position = 0;
    uint8_t refusal = parallel_moves_open(
        kept_evictions, bytes, bytes_length, memory->target, memory->function, memory->cache);
    memory->is_open = refusal == 0;
    return refusal;
}

/* parallel_moves_open_priced with the tables of `memory`, as parallel_moves_open_in. */
PARALLEL_MOVES_LOOK_AT_IT static inline uint8_t parallel_moves_open_priced_in(
    struct parallel_moves_memory *memory, uint32_t kept_evictions,
    const uint32_t prices[PARALLEL_MOVES_PRICES],
    const uint8_t *bytes, size_t bytes_length)
{
    parallel_moves_close_in(memory);
    memory->position = 0;
    uint8_t refusal = parallel_moves_open_priced(
        kept_evictions, prices, bytes, bytes_length, memory->target, memory->function,
        memory->cache);
    memory->is_open = refusal == 0;
    return refusal;
}

/* parallel_moves_priced_job with the tables of `memory`, which has no opened function
 * afterwards. */
static inline uint32_t parallel_moves_priced_job_in(
    struct parallel_moves_memory *memory, uint32_t kept_evictions,
    const uint32_t prices[PARALLEL_MOVES_PRICES],
    const uint8_t *job, size_t job_length,
    uint8_t *refusal)
{
    parallel_moves_close_in(memory);
    return parallel_moves_priced_job(
        kept_evictions, prices, job, job_length, refusal, memory->target, memory->function);
}

/* parallel_moves_enough_slots with the tables of `memory`, which has no opened
 * function afterwards. */
static inline uint16_t parallel_moves_enough_slots_in(
    struct parallel_moves_memory *memory, uint32_t kept_evictions,
    const uint8_t *bytes, size_t bytes_length,
    uint8_t *refusal)
{
    parallel_moves_close_in(memory);
    return parallel_moves_enough_slots(
        kept_evictions, bytes, bytes_length, refusal, memory->target, memory->function);
}

/* parallel_moves_resolve of the function that is open in `memory`; without one, 2 and no
 * edits. */
static inline size_t parallel_moves_resolve_in(
    struct parallel_moves_memory *memory,
    const uint32_t *free_units, size_t free_units_length,
    struct parallel_moves_entry_list entries,
    uint64_t *list, size_t list_length,
    uint8_t *refusal)
{
    if (!memory->is_open) {
        *refusal = 2;
        return 0;
    }
    return parallel_moves_resolve(
        memory->target, memory->function, free_units, free_units_length,
        parallel_moves_entry_numbers(entries), parallel_moves_entry_numbers_length(entries),
        memory->cache, list, list_length, refusal, &memory->position,
        memory->entries, memory->writers, memory->available, memory->sources,
        memory->edits, memory->slots, memory->diverted, memory->marks,
        memory->carried);
}

/* parallel_moves_answer with the tables of `memory`, which has no opened function
 * afterwards. */
static inline size_t parallel_moves_answer_in(
    struct parallel_moves_memory *memory, uint32_t kept_evictions,
    const uint8_t *job, size_t job_length,
    uint64_t *words, size_t words_length,
    uint8_t *refusal)
{
    parallel_moves_close_in(memory);
    return parallel_moves_answer(
        kept_evictions, job, job_length, words, words_length, refusal,
        memory->target, memory->function, memory->cache,
        memory->free_units, memory->entries, memory->writers,
        memory->available, memory->sources, memory->edits, memory->slots,
        memory->diverted, memory->marks, memory->carried);
}

/* What parallel_moves_resolve_groups_in and parallel_moves_answer_groups_in work in beside
 * the memory: make one with calloc. What the calls left in it does not matter. */
struct parallel_moves_groups {
    uint64_t joined[PARALLEL_MOVES_JOINED];
    uint32_t numbers[PARALLEL_MOVES_NUMBERS];
    uint16_t work[PARALLEL_MOVES_CACHE];
    uint8_t owners[PARALLEL_MOVES_OWNERS];
    uint8_t labels[PARALLEL_MOVES_LABELS];
    uint8_t next[PARALLEL_MOVES_LABELS];
    bool common[PARALLEL_MOVES_UNITS];
};

/* parallel_moves_resolve_groups of the function that is open in `memory`; without one, 2
 * and no edits. */
static inline size_t parallel_moves_resolve_groups_in(
    struct parallel_moves_memory *memory, struct parallel_moves_groups *groups,
    const uint32_t *free_units, size_t free_units_length,
    struct parallel_moves_entry_list entries,
    uint64_t *list, size_t list_length,
    uint8_t *refusal)
{
    if (!memory->is_open) {
        *refusal = 2;
        return 0;
    }
    return parallel_moves_resolve_groups(
        memory->target, memory->function, free_units, free_units_length,
        parallel_moves_entry_numbers(entries), parallel_moves_entry_numbers_length(entries),
        memory->cache, list, list_length, refusal, &memory->position, memory->free_units, memory->entries, memory->writers, memory->available,
        memory->sources, memory->edits, memory->slots, memory->diverted, memory->marks,
        memory->carried, groups->owners, groups->labels, groups->next, groups->common,
        groups->work, groups->joined);
}

/* parallel_moves_answer_groups with the tables of `memory`, which has no opened function
 * afterwards, and of `groups`. */
static inline size_t parallel_moves_answer_groups_in(
    struct parallel_moves_memory *memory, struct parallel_moves_groups *groups,
    uint32_t kept_evictions,
    const uint8_t *job, size_t job_length,
    uint64_t *words, size_t words_length,
    uint8_t *refusal)
{
    parallel_moves_close_in(memory);
    return parallel_moves_answer_groups(
        kept_evictions, job, job_length, words, words_length, refusal,
        memory->target, memory->function, memory->cache,
        memory->free_units, memory->entries, memory->writers,
        memory->available, memory->sources, memory->edits, memory->slots,
        memory->diverted, memory->marks, memory->carried, groups->owners, groups->labels,
        groups->next, groups->common, groups->work, groups->joined, groups->numbers);
}

/* What an asking leaves to take, about 64 KiB: one for each answer. Beside it stand the
 * memory that was asked, and its number of openings. */
struct parallel_moves_preview {
    const struct parallel_moves_memory *memory;
    uint64_t openings;
    uint16_t slots[PARALLEL_MOVES_SLOTS];
    uint16_t made;
    uint16_t position;
    uint64_t stamp;
};

/* parallel_moves_ask of the function that is open in `memory`; without one, 2 and no
 * edits. Where it is not refused, `preview` has what is to take, and tells the slots made
 * and the position. Refused otherwise, `preview` has nothing to take, also where it had
 * before. */
static inline size_t parallel_moves_ask_in(
    struct parallel_moves_memory *memory,
    const uint32_t *free_units, size_t free_units_length,
    struct parallel_moves_entry_list entries,
    uint64_t *list, size_t list_length,
    uint8_t *refusal,
    struct parallel_moves_preview *preview)
{
    if (!memory->is_open) {
        *refusal = 2;
        return 0;
    }
    preview->memory = NULL;
    size_t count = parallel_moves_ask(
        memory->target, memory->function, free_units, free_units_length,
        parallel_moves_entry_numbers(entries), parallel_moves_entry_numbers_length(entries),
        memory->cache, list, list_length, refusal, &preview->made, &preview->position, &preview->stamp,
        memory->entries, memory->writers, memory->available, memory->sources,
        memory->edits, preview->slots, memory->diverted, memory->marks,
        memory->carried);
    if (*refusal == 0) {
        preview->memory = memory;
        preview->openings = memory->openings;
    }
    return count;
}

/* parallel_moves_take of a preview that parallel_moves_ask_in left; 20 also where it has
 * nothing to take, where it was asked for in another memory, and where that function is
 * open no longer, or was opened anew. Taken, it sets memory->position. */
PARALLEL_MOVES_LOOK_AT_IT static inline uint8_t parallel_moves_take_in(
    struct parallel_moves_memory *memory,
    const struct parallel_moves_preview *preview)
{
    if (preview->memory != memory || preview->openings != memory->openings) {
        return 20;
    }
    uint8_t refusal = parallel_moves_take(
        preview->made, preview->stamp, preview->slots, memory->cache);
    if (refusal == 0) {
        memory->position = preview->position;
    }
    return refusal;
}

/* The tables of writing, about a third of a megabyte: make one with
 * calloc, and use it for as many calls as you like, one at a time. They are apart from
 * those of struct parallel_moves_memory, so that a function which is opened there stays
 * so while jobs are written. */
struct parallel_moves_writer {
    uint16_t target[PARALLEL_MOVES_TARGET];
    uint16_t function[PARALLEL_MOVES_FUNCTION];
    uint16_t entries[PARALLEL_MOVES_ENTRIES];
    uint16_t writers[PARALLEL_MOVES_WRITERS];
    bool available[PARALLEL_MOVES_UNITS];
    uint8_t work[PARALLEL_MOVES_MOST_BYTES];
};

/* parallel_moves_write with the tables of `writer`. */
static inline size_t parallel_moves_write_in(
    struct parallel_moves_writer *writer,
    const uint32_t *numbers, size_t numbers_length,
    uint8_t *bytes, size_t bytes_length,
    uint8_t *refusal)
{
    return parallel_moves_write(
        numbers, numbers_length, bytes, bytes_length, refusal,
        writer->work, writer->target, writer->function, writer->available,
        writer->entries, writer->writers);
}

/* parallel_moves_write_opened of the function that is open in `memory`, with the tables of
 * `writer`; without one, 2 and no bytes. The function stays open. */
static inline size_t parallel_moves_write_opened_in(
    const struct parallel_moves_memory *memory, struct parallel_moves_writer *writer,
    const uint32_t *numbers, size_t numbers_length,
    uint8_t *bytes, size_t bytes_length,
    uint8_t *refusal)
{
    if (!memory->is_open) {
        *refusal = 2;
        return 0;
    }
    return parallel_moves_write_opened(
        memory->target, memory->function, numbers, numbers_length, bytes, bytes_length, refusal,
        writer->work, writer->target, writer->function, writer->available,
        writer->entries, writer->writers);
}

/* parallel_moves_shipped with the tables of `writer`: the bytes are in its `work`. */
static inline size_t parallel_moves_shipped_in(struct parallel_moves_writer *writer)
{
    return parallel_moves_shipped(writer->work, writer->target);
}

/* Why something is refused, by number: docs/JOB.md has the cause and the cure of each. A later
 * library may have more. */
enum parallel_moves_refusal {
    PARALLEL_MOVES_NOT_A_NUMBER = 1,
    PARALLEL_MOVES_NAMES_NOTHING = 2,
    PARALLEL_MOVES_LISTED_TWICE = 3,
    PARALLEL_MOVES_UNEQUAL_WIDTHS = 4,
    PARALLEL_MOVES_FOREIGN_MEMBER = 5,
    PARALLEL_MOVES_SHARED_MEMORY = 6,
    PARALLEL_MOVES_UNFIT_CLASS = 7,
    PARALLEL_MOVES_LEFT_OVER = 8,
    PARALLEL_MOVES_FOREIGN_BANK = 9,
    PARALLEL_MOVES_SELF_MOVE = 10,
    PARALLEL_MOVES_CANNOT_REMATERIALIZE = 11,
    PARALLEL_MOVES_WRITTEN_TWICE = 12,
    PARALLEL_MOVES_FREE_DESTINATION = 13,
    PARALLEL_MOVES_EVICTS_DESTINATION = 14,
    PARALLEL_MOVES_TOO_MANY_ENTRIES = 15,
    PARALLEL_MOVES_LIST_TOO_SHORT = 16,
    PARALLEL_MOVES_OUT_OF_SLOTS = 17,
    PARALLEL_MOVES_BYTES_TOO_FEW = 18,
    PARALLEL_MOVES_OUTSIDE_PRICE = 19,
    PARALLEL_MOVES_TAKEN_LATE = 20,
    PARALLEL_MOVES_OVERLAPPING_SOURCES = 21,
    PARALLEL_MOVES_NO_SUCH_SETTING = 22,
    PARALLEL_MOVES_SHARES_ABOVE_LIMIT = 23,
    PARALLEL_MOVES_NO_SUCH_EDIT = 24
};

/* The cause of a refusal in words, as a string that is never freed: of 0 "not refused", and of
 * a number that this header does not know that it does not. */
static inline const char *parallel_moves_refusal_text(uint8_t refusal)
{
    switch (refusal) {
    case 0:
        return "not refused";
    case PARALLEL_MOVES_NOT_A_NUMBER:
        return "a number is cut off, has more than 5 bytes, is 2^32 or more, or is not in its shortest form";
    case PARALLEL_MOVES_NAMES_NOTHING:
        return "a number is outside a limit, or an index, place, flag or code that names nothing, or the "
               "job has more than 65,536 bytes";
    case PARALLEL_MOVES_LISTED_TWICE:
        return "something is listed twice, or free units are not rising";
    case PARALLEL_MOVES_UNEQUAL_WIDTHS:
        return "a memory register has more than one unit, or registers of one bank that are not memory have "
               "different numbers of units";
    case PARALLEL_MOVES_FOREIGN_MEMBER:
        return "a member, a bank's class or an order entry is of another bank, or an order entry is no "
               "member";
    case PARALLEL_MOVES_SHARED_MEMORY:
        return "a memory register shares a unit with one that is not memory";
    case PARALLEL_MOVES_UNFIT_CLASS:
        return "a top-level class has no slots, a stack class has slots or a memory register in its order, "
               "or the order of a class without slots is empty or ends in a memory register";
    case PARALLEL_MOVES_LEFT_OVER:
        return "bytes are left over";
    case PARALLEL_MOVES_FOREIGN_BANK:
        return "a register, or a value's rebuild class, is not of the value's bank";
    case PARALLEL_MOVES_SELF_MOVE:
        return "a move's source is its destination";
    case PARALLEL_MOVES_CANNOT_REMATERIALIZE:
        return "a rebuild of a value that cannot be rebuilt";
    case PARALLEL_MOVES_WRITTEN_TWICE:
        return "a destination overlaps that of an earlier entry, and the entry does not repeat a kept move";
    case PARALLEL_MOVES_FREE_DESTINATION:
        return "a free unit is a destination's";
    case PARALLEL_MOVES_EVICTS_DESTINATION:
        return "a rebuild needs a scratch, in a class without slots whose order's last register overlaps "
               "the destination";
    case PARALLEL_MOVES_TOO_MANY_ENTRIES:
        return "a patch has more than 128 entries";
    case PARALLEL_MOVES_LIST_TOO_SHORT:
        return "the lent list is too short for the patch's edits";
    case PARALLEL_MOVES_OUT_OF_SLOTS:
        return "an emergency slot is needed, none of its size is at hand, and no more may be made";
    case PARALLEL_MOVES_BYTES_TOO_FEW:
        return "the lent bytes are fewer than the job has";
    case PARALLEL_MOVES_OUTSIDE_PRICE:
        return "a price is above 65,535, a run count is 2^26 or more, or one of two lists to choose from "
               "has more than 65,536 entries";
    case PARALLEL_MOVES_TAKEN_LATE:
        return "an answer is taken of a cache that has taken one or resolved a patch since it was asked for";
    case PARALLEL_MOVES_OVERLAPPING_SOURCES:
        return "a move's source overlaps that of an earlier move without being equal to it, and both moves "
               "are kept";
    case PARALLEL_MOVES_NO_SUCH_SETTING:
        return "the number of kept evictions is neither 1 nor 2";
    case PARALLEL_MOVES_SHARES_ABOVE_LIMIT:
        return "the shares of the formulas of a frame add up to more than its limit";
    case PARALLEL_MOVES_NO_SUCH_EDIT:
        return "an entry of a list to examine is no edit, or names a register, a value or a slot that there "
               "is not";
    default:
        /* 255 is PARALLEL_MOVES_UNCONFIRMED, which checked resolving gives and the library never. */
        return refusal == 255 ? "the edits are not confirmed: the library or the memory is broken"
                              : "a cause that this header has no words for";
    }
}

/* A target and a function under construction, in the words of docs/JOB.md, about a quarter of
 * a megabyte: make one with calloc, or set it to 0 for another. It makes all counts, and numbers
 * what is added from 0 on. Nothing is tested before a function is opened with what
 * parallel_moves_build makes: then the first refusal is given that reading comes by. What is said
 * of a bank, a register or a class that is not there is so refused, by 2. Unless it is said
 * there are as many units as the registers name, no ordinary slots, and 2,048 emergency slots
 * may be made, which is always enough. Its members are its own: read none but `bytes`. */
struct parallel_moves_builder {
    uint32_t units;
    uint32_t named_units;
    uint32_t slots;
    uint32_t fewer_emergency_slots;
    uint32_t bank_count;
    uint32_t register_count;
    uint32_t class_count;
    uint32_t value_count;
    uint32_t banks[PARALLEL_MOVES_MOST_BANKS][3];
    size_t target_length;
    size_t registers_length;
    size_t classes_length;
    size_t values_length;
    uint8_t target[PARALLEL_MOVES_MOST_BYTES + 1];
    uint8_t registers[PARALLEL_MOVES_MOST_BYTES + 1];
    uint8_t classes[PARALLEL_MOVES_MOST_BYTES + 1];
    uint8_t values[PARALLEL_MOVES_MOST_BYTES + 1];
    uint8_t bytes[PARALLEL_MOVES_MOST_BYTES + 1];
};

/* Puts a number behind the bytes of a part, in its shortest form. A part that is too long for
 * every job stays at PARALLEL_MOVES_MOST_BYTES + 1 bytes, and is so refused. */
static inline void parallel_moves_put_number(uint8_t *bytes, size_t *length, uint32_t number)
{
    for (; number >= 128 && *length <= PARALLEL_MOVES_MOST_BYTES; number /= 128) {
        bytes[(*length)++] = PARALLEL_MOVES_AS(uint8_t, number % 128 + 128);
    }
    if (*length <= PARALLEL_MOVES_MOST_BYTES) {
        bytes[(*length)++] = PARALLEL_MOVES_AS(uint8_t, number);
    }
}

/* Puts a count and as many numbers. */
static inline void parallel_moves_put_numbers(
    uint8_t *bytes, size_t *length, const uint32_t *numbers, size_t count)
{
    parallel_moves_put_number(bytes, length, count < UINT32_MAX ? PARALLEL_MOVES_AS(uint32_t, count) : UINT32_MAX);
    for (size_t i = 0; i < count && *length <= PARALLEL_MOVES_MOST_BYTES; i++) {
        parallel_moves_put_number(bytes, length, numbers[i]);
    }
}

/* Puts bytes behind those of a part. */
static inline void parallel_moves_put_bytes(uint8_t *bytes, size_t *length, const uint8_t *more, size_t count)
{
    for (size_t i = 0; i < count && *length <= PARALLEL_MOVES_MOST_BYTES; i++) {
        bytes[(*length)++] = more[i];
    }
}

/* Takes a target as its bytes, such as those of parallel_moves_shipped_in, in the place of units,
 * banks, registers and classes: what is added of these is left out. */
static inline void parallel_moves_set_target(struct parallel_moves_builder *builder, const uint8_t *bytes, size_t bytes_length)
{
    builder->target_length = 0;
    parallel_moves_put_bytes(builder->target, &builder->target_length, bytes, bytes_length);
}

/* Says how many units there are. */
static inline void parallel_moves_set_units(struct parallel_moves_builder *builder, uint32_t count)
{
    builder->units = count;
}

/* Adds a bank, whose emergency slots have 2^slot_size_log2 bytes, and returns its number. It needs
 * a top-level class and a stack class. */
static inline uint32_t parallel_moves_add_bank(struct parallel_moves_builder *builder, uint32_t slot_size_log2)
{
    uint32_t bank = builder->bank_count++;
    if (bank < PARALLEL_MOVES_MOST_BANKS) {
        builder->banks[bank][0] = slot_size_log2;
        builder->banks[bank][1] = UINT32_MAX;
        builder->banks[bank][2] = UINT32_MAX;
    }
    return bank;
}

/* Says which class of a bank is searched where moves form a cycle. It includes slots. */
static inline void parallel_moves_set_top_level_class(struct parallel_moves_builder *builder, uint32_t bank, uint32_t reg_class)
{
    if (bank < PARALLEL_MOVES_MOST_BANKS) {
        builder->banks[bank][1] = reg_class;
    }
}

/* Says which class of a bank is searched where a move goes from memory to memory. It includes no
 * slots, and its order no memory register. */
static inline void parallel_moves_set_stack_class(struct parallel_moves_builder *builder, uint32_t bank, uint32_t reg_class)
{
    if (bank < PARALLEL_MOVES_MOST_BANKS) {
        builder->banks[bank][2] = reg_class;
    }
}

/* Adds a register of a bank with these units, and returns its number. */
static inline uint32_t parallel_moves_add_register(
    struct parallel_moves_builder *builder, uint32_t bank, const uint32_t *units, size_t unit_count)
{
    parallel_moves_put_number(builder->registers, &builder->registers_length, 0);
    parallel_moves_put_number(builder->registers, &builder->registers_length, bank);
    parallel_moves_put_numbers(builder->registers, &builder->registers_length, units, unit_count);
    for (size_t i = 0; i < unit_count; i++) {
        if (units[i] >= builder->named_units) {
            builder->named_units = units[i] < UINT32_MAX ? units[i] + 1 : UINT32_MAX;
        }
    }
    return builder->register_count++;
}

/* Adds a memory register, which has one unit: a place in memory, as an argument on the stack is. */
static inline uint32_t parallel_moves_add_memory_register(struct parallel_moves_builder *builder, uint32_t bank, uint32_t unit)
{
    size_t first = builder->registers_length;
    uint32_t number = parallel_moves_add_register(builder, bank, &unit, 1);
    if (first <= PARALLEL_MOVES_MOST_BYTES) {
        builder->registers[first] = 1;
    }
    return number;
}

/* Adds a class of a bank, and returns its number: its members, whether it includes slots, and the
 * order in which its registers are taken as scratch, the best first. */
static inline uint32_t parallel_moves_add_class(
    struct parallel_moves_builder *builder, uint32_t bank, bool includes_slots,
    const uint32_t *members, size_t member_count,
    const uint32_t *order, size_t order_count)
{
    parallel_moves_put_number(builder->classes, &builder->classes_length, bank);
    parallel_moves_put_number(builder->classes, &builder->classes_length, includes_slots);
    parallel_moves_put_numbers(builder->classes, &builder->classes_length, members, member_count);
    parallel_moves_put_numbers(builder->classes, &builder->classes_length, order, order_count);
    return builder->class_count++;
}

/* What rebuilding a value costs. */
enum parallel_moves_remat_cost {
    PARALLEL_MOVES_CHEAPER_THAN_MOVE = 1,
    PARALLEL_MOVES_CHEAPER_THAN_LOAD = 2
};

/* Adds a value of a bank that cannot be rebuilt, and returns its number. */
static inline uint32_t parallel_moves_add_value(struct parallel_moves_builder *builder, uint32_t bank)
{
    parallel_moves_put_number(builder->values, &builder->values_length, bank);
    parallel_moves_put_number(builder->values, &builder->values_length, 0);
    return builder->value_count++;
}

/* Adds a value that can be rebuilt in the places of a class, at such a cost. */
static inline uint32_t parallel_moves_add_remat_value(
    struct parallel_moves_builder *builder, uint32_t bank,
    enum parallel_moves_remat_cost cost, uint32_t reg_class)
{
    parallel_moves_put_number(builder->values, &builder->values_length, bank);
    parallel_moves_put_number(builder->values, &builder->values_length, PARALLEL_MOVES_AS(uint32_t, cost));
    parallel_moves_put_number(builder->values, &builder->values_length, reg_class);
    return builder->value_count++;
}

/* Says how many ordinary slots there are in all: N. */
static inline void parallel_moves_set_slots(struct parallel_moves_builder *builder, uint32_t count)
{
    builder->slots = count;
}

/* Says how many emergency slots may be made: L. */
static inline void parallel_moves_set_emergency_slots(struct parallel_moves_builder *builder, uint32_t most)
{
    /* Modulo 2^32, so that 0 is the L that is always enough. */
    builder->fewer_emergency_slots = PARALLEL_MOVES_MOST_EMERGENCY_SLOTS - most;
}

/* Puts the target behind what stands in `bytes`. */
static inline void parallel_moves_build_target(struct parallel_moves_builder *builder, size_t *length)
{
    if (builder->target_length > 0) {
        parallel_moves_put_bytes(builder->bytes, length, builder->target, builder->target_length);
        return;
    }
    parallel_moves_put_number(builder->bytes, length, builder->units > 0 ? builder->units : builder->named_units);
    parallel_moves_put_number(builder->bytes, length, builder->bank_count);
    for (uint32_t bank = 0; bank < builder->bank_count && bank < PARALLEL_MOVES_MOST_BANKS; bank++) {
        for (size_t i = 0; i < 3; i++) {
            parallel_moves_put_number(builder->bytes, length, builder->banks[bank][i]);
        }
    }
    parallel_moves_put_number(builder->bytes, length, builder->register_count);
    parallel_moves_put_bytes(builder->bytes, length, builder->registers, builder->registers_length);
    parallel_moves_put_number(builder->bytes, length, builder->class_count);
    parallel_moves_put_bytes(builder->bytes, length, builder->classes, builder->classes_length);
}

/* Makes the bytes of the target and the function, in the builder's `bytes`, for
 * parallel_moves_open_in and what else takes them: returns how many there are. They are never more
 * than PARALLEL_MOVES_MOST_BYTES + 1, which opening refuses by 2. More may be added then, and the
 * bytes made again. */
static inline size_t parallel_moves_build(struct parallel_moves_builder *builder)
{
    size_t length = 0;
    parallel_moves_build_target(builder, &length);
    parallel_moves_put_number(builder->bytes, &length, builder->value_count);
    parallel_moves_put_number(builder->bytes, &length, builder->slots);
    parallel_moves_put_number(
        builder->bytes, &length, PARALLEL_MOVES_MOST_EMERGENCY_SLOTS - builder->fewer_emergency_slots);
    parallel_moves_put_bytes(builder->bytes, &length, builder->values, builder->values_length);
    return length;
}

/* A word is a patch's head, ((position * 2^16 + made) * 2^16 + count) * 8, or an
 * edit, ((value * 2^14 + from) * 2^14 + to) * 8 + kind. */
enum parallel_moves_word_kind {
    PARALLEL_MOVES_HEAD = 0,
    PARALLEL_MOVES_MOVE = 1,          /* M: the contents of `from`, read whole first, go to `to` */
    PARALLEL_MOVES_REMATERIALIZE = 2, /* R: the value is rebuilt in `to` */
    PARALLEL_MOVES_SPILL = 3,         /* S: the register `from` is saved in the slot `to` */
    PARALLEL_MOVES_RELOAD = 4         /* L: the register `to` is loaded from the slot `from` */
};

/* The kind of a word. */
static inline enum parallel_moves_word_kind parallel_moves_kind(uint64_t word)
{
    return PARALLEL_MOVES_AS(enum parallel_moves_word_kind, word % 8);
}

/* Whether a word is a patch's head, and no edit. */
static inline bool parallel_moves_is_head(uint64_t word)
{
    return word % 8 == PARALLEL_MOVES_HEAD;
}

/* Of a head: how many edits follow it. */
static inline size_t parallel_moves_count(uint64_t head)
{
    return head / 8 % 65536;
}

/* Of a head: how many emergency slots the function has after the patch.
 * docs/JOB.md says how large each is. */
static inline uint16_t parallel_moves_made(uint64_t head)
{
    return PARALLEL_MOVES_AS(uint16_t, head / 524288 % 65536);
}

/* Of a head: the greatest position that a search of the patch for a scratch
 * register met, 0 without searches. The position of a search is where in its
 * class's order the register stands that it found, counted from 0, or the
 * order's length where none there would do. */
static inline uint16_t parallel_moves_position(uint64_t head)
{
    return PARALLEL_MOVES_AS(uint16_t, head / 34359738368u % 65536);
}

/* Of an edit: the place that it writes. */
static inline uint16_t parallel_moves_to(uint64_t edit)
{
    return PARALLEL_MOVES_AS(uint16_t, edit / 8 % 16384);
}

/* Of a move, spill or reload: the place that it reads. */
static inline uint16_t parallel_moves_from(uint64_t edit)
{
    return PARALLEL_MOVES_AS(uint16_t, edit / 131072 % 16384);
}

/* Of a move or rebuild: its value. */
static inline uint16_t parallel_moves_value(uint64_t edit)
{
    return PARALLEL_MOVES_AS(uint16_t, edit / 2147483648u % 4096);
}

/* Whether a place is a register; else it is a slot. */
static inline bool parallel_moves_is_register(uint16_t place)
{
    return place % 2 == 1;
}

/* The number of a register or slot. */
static inline uint16_t parallel_moves_number(uint16_t place)
{
    return PARALLEL_MOVES_AS(uint16_t, place / 2);
}

/* What an edge costs that ran `runs` times and whose patch is the one numbered
 * `patch`, from 1 on, among the patches of an answer. `prices` are those of M, R, S
 * and L on the target, in quarter cycles, at most PARALLEL_MOVES_MOST_PRICE each;
 * `words` are an answer's, with the count that parallel_moves_answer returned as
 * `words_length`. Returns 0, and sets *total to what the edits cost together,
 * *runs_as_double to the run count and *product to the product of the two, each of
 * them exact. Or returns the number of the refusal, and sets nothing: 19 for a run
 * count above PARALLEL_MOVES_MOST_RUNS, tested first, or for a price above its
 * bound; then 2 for a patch that there is not. */
PARALLEL_MOVES_LOOK_AT_IT uint8_t parallel_moves_price(
    const uint64_t *words, size_t words_length,
    size_t patch,
    const uint32_t prices[PARALLEL_MOVES_PRICES],
    uint64_t runs,
    uint64_t *total,
    double *runs_as_double,
    double *product)
    PARALLEL_MOVES_SYMBOL("parallel_moves_price");

/* The same of a patch's edits alone, as parallel_moves_resolve gives them: 2 for a
 * list of more than PARALLEL_MOVES_MOST_EDITS, which no patch has. */
PARALLEL_MOVES_LOOK_AT_IT uint8_t parallel_moves_price_edits(
    const uint64_t *list, size_t list_length,
    const uint32_t prices[PARALLEL_MOVES_PRICES],
    uint64_t runs,
    uint64_t *total,
    double *runs_as_double,
    double *product)
    PARALLEL_MOVES_SYMBOL("parallel_moves_price_edits");

/* Which of two lists of edits costs less: 1 for the first, also where both cost the
 * same, or 2 for the second. A word goes by its kind alone; one that is no edit's
 * costs nothing. Or returns 19: for a price above its bound, or a list of more than
 * PARALLEL_MOVES_MOST_CHOSEN words. The lists may be one. */
PARALLEL_MOVES_LOOK_AT_IT uint8_t parallel_moves_cheaper(
    const uint64_t *first, size_t first_length,
    const uint64_t *second, size_t second_length,
    const uint32_t prices[PARALLEL_MOVES_PRICES])
    PARALLEL_MOVES_SYMBOL("parallel_moves_cheaper");

/* The cheaper of two lists itself: sets *list and *length to it, and returns 0. Or
 * returns 19, with an empty part of the first. */
PARALLEL_MOVES_LOOK_AT_IT static inline uint8_t parallel_moves_cheaper_list(
    const uint64_t *first, size_t first_length,
    const uint64_t *second, size_t second_length,
    const uint32_t prices[PARALLEL_MOVES_PRICES],
    const uint64_t **list, size_t *length)
{
    uint8_t chosen = parallel_moves_cheaper(first, first_length, second, second_length, prices);
    *list = chosen == 2 ? second : first;
    *length = chosen == 2 ? second_length : chosen == 1 ? first_length : 0;
    return PARALLEL_MOVES_AS(uint8_t, chosen <= 2 ? 0 : chosen);
}

/* The cells of a tally. */
enum parallel_moves_tally_cell {
    PARALLEL_MOVES_ACCEPTED = 0,         /* patches that were accepted */
    PARALLEL_MOVES_MOVES = 1,            /* the M of their edits */
    PARALLEL_MOVES_REMATERIALIZES = 2,   /* the R */
    PARALLEL_MOVES_SPILLS = 3,           /* the S */
    PARALLEL_MOVES_RELOADS = 4,          /* the L */
    PARALLEL_MOVES_EVICTIONS = 5,        /* registers evicted */
    PARALLEL_MOVES_TOTAL_PRICE = 6,      /* what the edits cost together */
    PARALLEL_MOVES_REFUSED = 7           /* and the number: patches that were refused by it */
};

/* Draws `patches` patches of a function from a seed, and counts what becomes of them with
 * one kept eviction, in `one`, and with two, in `two`; docs/JOB.md says how they are
 * drawn. The bytes are a target and a function, as for parallel_moves_open, or a whole job
 * of them, whose own patches are read and tested, but not resolved. `prices` are as for
 * parallel_moves_price. Returns 0, or the number of the refusal, and then leaves both
 * tallies alone: 2, tested first, where `patches` is not from 1 to 1,024; then what the
 * target is refused by, 19 for a price above its bound, after 7, and what the function is
 * refused by; and if something stands behind it, what reading the job to its end is (1 to
 * 15, 21 and 8). The working tables are `target` to `carried`. */
PARALLEL_MOVES_LOOK_AT_IT uint8_t parallel_moves_try(
    const uint8_t *job, size_t job_length,
    const uint32_t prices[PARALLEL_MOVES_PRICES],
    uint32_t seed,
    uint32_t patches,
    uint64_t one[PARALLEL_MOVES_TALLY],
    uint64_t two[PARALLEL_MOVES_TALLY],
    uint16_t target[PARALLEL_MOVES_TARGET],
    uint16_t function[PARALLEL_MOVES_FUNCTION],
    uint16_t cache[PARALLEL_MOVES_CACHE],
    uint16_t entries[PARALLEL_MOVES_ENTRIES],
    uint16_t writers[PARALLEL_MOVES_WRITERS],
    bool available[PARALLEL_MOVES_UNITS],
    bool sources[PARALLEL_MOVES_UNITS],
    uint64_t edits[PARALLEL_MOVES_EDITS],
    uint16_t slots[PARALLEL_MOVES_SLOTS],
    uint16_t diverted[PARALLEL_MOVES_DIVERTED],
    uint8_t marks[PARALLEL_MOVES_MARKS],
    uint16_t carried[PARALLEL_MOVES_CARRIED])
    PARALLEL_MOVES_SYMBOL("parallel_moves_try");

/* parallel_moves_try with the tables of `memory`, which has no opened function
 * afterwards. */
PARALLEL_MOVES_LOOK_AT_IT static inline uint8_t parallel_moves_try_in(
    struct parallel_moves_memory *memory,
    const uint8_t *job, size_t job_length,
    const uint32_t prices[PARALLEL_MOVES_PRICES],
    uint32_t seed,
    uint32_t patches,
    uint64_t one[PARALLEL_MOVES_TALLY],
    uint64_t two[PARALLEL_MOVES_TALLY])
{
    parallel_moves_close_in(memory);
    return parallel_moves_try(
        job, job_length, prices, seed, patches, one, two,
        memory->target, memory->function, memory->cache,
        memory->entries, memory->writers, memory->available, memory->sources,
        memory->edits, memory->slots, memory->diverted, memory->marks,
        memory->carried);
}

/* Whether a list of edits does what a patch of a job asks: whether, from every start in
 * which each kept source holds its value and whatever the values' contents are, every edit
 * can be done, and in the end all destinations are right and all else outside free units
 * and the slots from N on is as it began. Returns 1 if so and 0 if not, with *refusal 0; or
 * 2, with *refusal the number by which the job up to that patch, the patch or, with 24, the
 * list is refused: 24 for a word that is no edit, or names a register, a value or a slot
 * that there is not. `patch` counts the job's patches from 0; 2 for one that the job has
 * not. Patches before it are read and tested and not resolved, so that a number of theirs
 * (all but 16 and 17) comes first; those behind it are not read. The list
 * may have any length. The working tables are `target` to `asked`. */
PARALLEL_MOVES_LOOK_AT_IT uint8_t parallel_moves_examine(
    const uint8_t *job, size_t job_length,
    uint32_t patch,
    const uint64_t *words, size_t words_length,
    uint8_t *refusal,
    uint16_t target[PARALLEL_MOVES_TARGET],
    uint16_t function[PARALLEL_MOVES_FUNCTION],
    bool free_units[PARALLEL_MOVES_UNITS],
    uint16_t entries[PARALLEL_MOVES_ENTRIES],
    uint16_t writers[PARALLEL_MOVES_WRITERS],
    uint16_t ties[PARALLEL_MOVES_TIES],
    uint16_t cells[PARALLEL_MOVES_CELLS],
    uint16_t start[PARALLEL_MOVES_CELLS],
    uint16_t held[PARALLEL_MOVES_WORDS],
    uint16_t asked[PARALLEL_MOVES_WORDS])
    PARALLEL_MOVES_SYMBOL("parallel_moves_examine");

/* The same for a formula of a shared frame: slots below N plus the frame's limit may be
 * named. 2, tested first, for a limit above 2,048. */
PARALLEL_MOVES_LOOK_AT_IT uint8_t parallel_moves_examine_in(
    uint32_t limit,
    const uint8_t *job, size_t job_length,
    uint32_t patch,
    const uint64_t *words, size_t words_length,
    uint8_t *refusal,
    uint16_t target[PARALLEL_MOVES_TARGET],
    uint16_t function[PARALLEL_MOVES_FUNCTION],
    bool free_units[PARALLEL_MOVES_UNITS],
    uint16_t entries[PARALLEL_MOVES_ENTRIES],
    uint16_t writers[PARALLEL_MOVES_WRITERS],
    uint16_t ties[PARALLEL_MOVES_TIES],
    uint16_t cells[PARALLEL_MOVES_CELLS],
    uint16_t start[PARALLEL_MOVES_CELLS],
    uint16_t held[PARALLEL_MOVES_WORDS],
    uint16_t asked[PARALLEL_MOVES_WORDS])
    PARALLEL_MOVES_SYMBOL("parallel_moves_examine_in");

/* Whether a list of edits does what a patch of an opened function asks: it returns and sets
 * what parallel_moves_examine does. The patch is given as to parallel_moves_resolve, and
 * gets the same numbers, but for 16 and 17, which belong to resolving; then the list may get
 * 24: slots below N + L may be named. Target, function and cache stay as they are. The
 * working tables are `units` to `asked`. For a formula that was opened in a frame:
 * parallel_moves_examine_formula. */
PARALLEL_MOVES_LOOK_AT_IT uint8_t parallel_moves_examine_opened(
    const uint16_t target[PARALLEL_MOVES_TARGET],
    const uint16_t function[PARALLEL_MOVES_FUNCTION],
    const uint32_t *free_units, size_t free_units_length,
    const uint32_t *numbers, size_t numbers_length,
    const uint64_t *words, size_t words_length,
    uint8_t *refusal,
    bool units[PARALLEL_MOVES_UNITS],
    uint16_t entries[PARALLEL_MOVES_ENTRIES],
    uint16_t writers[PARALLEL_MOVES_WRITERS],
    uint16_t ties[PARALLEL_MOVES_TIES],
    uint16_t cells[PARALLEL_MOVES_CELLS],
    uint16_t start[PARALLEL_MOVES_CELLS],
    uint16_t held[PARALLEL_MOVES_WORDS],
    uint16_t asked[PARALLEL_MOVES_WORDS])
    PARALLEL_MOVES_SYMBOL("parallel_moves_examine_opened");

/* The same for a formula that parallel_moves_frame_formula opened, with its own target and
 * function and the limit that its frame was opened with: slots below N plus that limit may
 * be named, for those of all formulas have numbers from one counter. 2, tested first, for a
 * limit above 2,048. */
PARALLEL_MOVES_LOOK_AT_IT uint8_t parallel_moves_examine_formula(
    uint32_t limit,
    const uint16_t target[PARALLEL_MOVES_TARGET],
    const uint16_t function[PARALLEL_MOVES_FUNCTION],
    const uint32_t *free_units, size_t free_units_length,
    const uint32_t *numbers, size_t numbers_length,
    const uint64_t *words, size_t words_length,
    uint8_t *refusal,
    bool units[PARALLEL_MOVES_UNITS],
    uint16_t entries[PARALLEL_MOVES_ENTRIES],
    uint16_t writers[PARALLEL_MOVES_WRITERS],
    uint16_t ties[PARALLEL_MOVES_TIES],
    uint16_t cells[PARALLEL_MOVES_CELLS],
    uint16_t start[PARALLEL_MOVES_CELLS],
    uint16_t held[PARALLEL_MOVES_WORDS],
    uint16_t asked[PARALLEL_MOVES_WORDS])
    PARALLEL_MOVES_SYMBOL("parallel_moves_examine_formula");

/* The tables of examining, about half a megabyte: make one with calloc, and use it for as
 * many calls as you like, one at a time. What the calls left in it does not matter. */
struct parallel_moves_examiner {
    uint16_t target[PARALLEL_MOVES_TARGET];
    uint16_t function[PARALLEL_MOVES_FUNCTION];
    bool free_units[PARALLEL_MOVES_UNITS];
    uint16_t entries[PARALLEL_MOVES_ENTRIES];
    uint16_t writers[PARALLEL_MOVES_WRITERS];
    uint16_t ties[PARALLEL_MOVES_TIES];
    uint16_t cells[PARALLEL_MOVES_CELLS];
    uint16_t start[PARALLEL_MOVES_CELLS];
    uint16_t held[PARALLEL_MOVES_WORDS];
    uint16_t asked[PARALLEL_MOVES_WORDS];
};

/* A call whose name ends in _in is lent a struct that has its tables. Only
 * parallel_moves_examine_in, which is older, means something else by it: a limit, and its
 * tables one by one. With a struct it is parallel_moves_examine_limit_in. */

/* parallel_moves_examine with the tables of `examiner`. */
PARALLEL_MOVES_LOOK_AT_IT static inline uint8_t parallel_moves_examine_job_in(
    struct parallel_moves_examiner *examiner,
    const uint8_t *job, size_t job_length,
    uint32_t patch,
    const uint64_t *words, size_t words_length,
    uint8_t *refusal)
{
    return parallel_moves_examine(
        job, job_length, patch, words, words_length, refusal, examiner->target,
        examiner->function, examiner->free_units, examiner->entries, examiner->writers,
        examiner->ties, examiner->cells, examiner->start, examiner->held, examiner->asked);
}

/* parallel_moves_examine_in with the tables of `examiner`. */
PARALLEL_MOVES_LOOK_AT_IT static inline uint8_t parallel_moves_examine_limit_in(
    struct parallel_moves_examiner *examiner, uint32_t limit,
    const uint8_t *job, size_t job_length,
    uint32_t patch,
    const uint64_t *words, size_t words_length,
    uint8_t *refusal)
{
    return parallel_moves_examine_in(
        limit, job, job_length, patch, words, words_length, refusal, examiner->target,
        examiner->function, examiner->free_units, examiner->entries, examiner->writers,
        examiner->ties, examiner->cells, examiner->start, examiner->held, examiner->asked);
}

/* parallel_moves_examine_opened of the function that is open in `memory`, with the tables of
 * `examiner`; without one, 2 with *refusal 2. The function stays open, and as it is. */
PARALLEL_MOVES_LOOK_AT_IT static inline uint8_t parallel_moves_examine_opened_in(
    const struct parallel_moves_memory *memory, struct parallel_moves_examiner *examiner,
    const uint32_t *free_units, size_t free_units_length,
    struct parallel_moves_entry_list entries,
    const uint64_t *words, size_t words_length,
    uint8_t *refusal)
{
    if (!memory->is_open) {
        *refusal = 2;
        return 2;
    }
    return parallel_moves_examine_opened(
        memory->target, memory->function, free_units, free_units_length,
        parallel_moves_entry_numbers(entries), parallel_moves_entry_numbers_length(entries),
        words, words_length, refusal, examiner->free_units, examiner->entries,
        examiner->writers, examiner->ties, examiner->cells, examiner->start, examiner->held,
        examiner->asked);
}

/* Belt and braces: what parallel_moves_resolve_checked_in and
 * parallel_moves_resolve_groups_checked_in work in beside the memory, about 0.8 megabytes.
 * Make one with calloc. `given` counts the patches that they were given with it, refused
 * ones among them: read it to name one. `said` is what the examination of the last one
 * returned, and `number` the number that it set. */
struct parallel_moves_checker {
    struct parallel_moves_examiner examiner;
    struct parallel_moves_preview preview;
    uint64_t list[PARALLEL_MOVES_MOST_EDITS];
    uint16_t cache[PARALLEL_MOVES_CACHE];
    uint64_t given;
    uint8_t said;
    uint8_t number;
};

/* The number of a patch whose edits the examination does not confirm. No call of the library
 * gives it: a compiler or a linker went wrong, or memory is broken, since every list of ours
 * gets a yes, which is proved. */
#define PARALLEL_MOVES_UNCONFIRMED 255

/* Whether the first `count` words of checker->list do what a patch asks. */
static inline bool parallel_moves_confirm_in(
    const struct parallel_moves_memory *memory, struct parallel_moves_checker *checker,
    const uint32_t *free_units, size_t free_units_length,
    struct parallel_moves_entry_list entries,
    size_t count)
{
    checker->said = 0;
    checker->number = 0;
    if (count > PARALLEL_MOVES_MOST_EDITS) {
        return false;
    }
    checker->said = parallel_moves_examine_opened_in(
        memory, &checker->examiner, free_units, free_units_length, entries, checker->list, count,
        &checker->number);
    return checker->said == 1;
}

/* The edits that were confirmed, handed out. */
static inline size_t parallel_moves_hand_out(
    const struct parallel_moves_checker *checker, size_t count, uint64_t *list)
{
    for (size_t i = 0; i < count; i++) {
        list[i] = checker->list[i];
    }
    return count;
}

/* parallel_moves_resolve_in with belt and braces: the patch is asked for, its edits are
 * examined as parallel_moves_examine_opened has it, and only then it is taken and the edits
 * stand in `list`. Where they are not confirmed, *refusal is PARALLEL_MOVES_UNCONFIRMED, the
 * result is 0, and list and memory are as they were; checker->given is the patch's number. */
static inline size_t parallel_moves_resolve_checked_in(
    struct parallel_moves_memory *memory, struct parallel_moves_checker *checker,
    const uint32_t *free_units, size_t free_units_length,
    struct parallel_moves_entry_list entries,
    uint64_t *list, size_t list_length,
    uint8_t *refusal)
{
    size_t room = list_length < PARALLEL_MOVES_MOST_EDITS ? list_length : PARALLEL_MOVES_MOST_EDITS;
    checker->given++;
    size_t count = parallel_moves_ask_in(
        memory, free_units, free_units_length, entries, checker->list, room, refusal, &checker->preview);
    if (*refusal != 0) {
        return 0;
    }
    if (count > room
        || !parallel_moves_confirm_in(memory, checker, free_units, free_units_length, entries, count)
        || parallel_moves_take_in(memory, &checker->preview) != 0) {
        *refusal = PARALLEL_MOVES_UNCONFIRMED;
        return 0;
    }
    return parallel_moves_hand_out(checker, count, list);
}

/* parallel_moves_resolve_groups_in with belt and braces, as
 * parallel_moves_resolve_checked_in: the patch is resolved on a copy of the cache, which is
 * kept if the edits are confirmed. */
static inline size_t parallel_moves_resolve_groups_checked_in(
    struct parallel_moves_memory *memory, struct parallel_moves_groups *groups,
    struct parallel_moves_checker *checker,
    const uint32_t *free_units, size_t free_units_length,
    struct parallel_moves_entry_list entries,
    uint64_t *list, size_t list_length,
    uint8_t *refusal)
{
    size_t room = list_length < PARALLEL_MOVES_MOST_EDITS ? list_length : PARALLEL_MOVES_MOST_EDITS;
    uint16_t position = memory->position;
    checker->given++;
    if (!memory->is_open) {
        *refusal = 2;
        return 0;
    }
    memcpy(checker->cache, memory->cache, sizeof checker->cache);
    size_t count = parallel_moves_resolve_groups(
        memory->target, memory->function, free_units, free_units_length,
        parallel_moves_entry_numbers(entries), parallel_moves_entry_numbers_length(entries),
        checker->cache, checker->list, room, refusal, &position, memory->free_units,
        memory->entries, memory->writers, memory->available, memory->sources, memory->edits,
        memory->slots, memory->diverted, memory->marks, memory->carried, groups->owners,
        groups->labels, groups->next, groups->common, groups->work, groups->joined);
    if (*refusal != 0) {
        return 0;
    }
    if (count > room
        || !parallel_moves_confirm_in(memory, checker, free_units, free_units_length, entries, count)) {
        *refusal = PARALLEL_MOVES_UNCONFIRMED;
        return 0;
    }
    memcpy(memory->cache, checker->cache, sizeof checker->cache);
    memory->position = position;
    return parallel_moves_hand_out(checker, count, list);
}

/* The most formulas of a frame. */
#define PARALLEL_MOVES_MOST_FORMULAS 16

/* The tables of one formula, and the position of its last patch that was resolved or taken. */
struct parallel_moves_formula {
    uint16_t target[PARALLEL_MOVES_TARGET];
    uint16_t function[PARALLEL_MOVES_FUNCTION];
    uint16_t cache[PARALLEL_MOVES_CACHE];
    uint16_t position;
};

/* A frame with its formulas and all tables, about 6.2 megabytes of which the tables of
 * formulas that are not opened are not touched: make one with calloc, and use it for as many
 * frames as you like, one at a time. `shares` is how many formulas the frame that is open
 * has, 0 where none is; `opened` how many of them are open; `limit` the frame's limit;
 * `openings` rises with every opening, so that an answer of an earlier frame is not taken.
 * Read these four, and write none. */
struct parallel_moves_frame_memory {
    uint64_t openings;
    size_t shares;
    size_t opened;
    uint32_t limit;
    uint16_t frame[PARALLEL_MOVES_FRAME];
    uint64_t edits[PARALLEL_MOVES_EDITS];
    uint16_t entries[PARALLEL_MOVES_ENTRIES];
    uint16_t writers[PARALLEL_MOVES_WRITERS];
    uint16_t slots[PARALLEL_MOVES_SLOTS];
    uint16_t diverted[PARALLEL_MOVES_DIVERTED];
    uint16_t carried[PARALLEL_MOVES_CARRIED];
    bool units[PARALLEL_MOVES_UNITS];
    bool available[PARALLEL_MOVES_UNITS];
    bool sources[PARALLEL_MOVES_UNITS];
    uint8_t marks[PARALLEL_MOVES_MARKS];
    struct parallel_moves_formula formulas[PARALLEL_MOVES_MOST_FORMULAS];
};

/* parallel_moves_frame_open with the tables of `memory`. It ends the frame that was open
 * there; refused, it leaves none open. */
PARALLEL_MOVES_LOOK_AT_IT static inline uint8_t parallel_moves_frame_open_in(
    struct parallel_moves_frame_memory *memory, uint32_t limit,
    const uint32_t *shares, size_t shares_length)
{
    memory->openings++;
    memory->shares = 0;
    memory->opened = 0;
    uint8_t refusal = parallel_moves_frame_open(memory->frame, limit, shares, shares_length);
    if (refusal == 0) {
        memory->shares = shares_length;
        memory->limit = limit;
    }
    return refusal;
}

/* parallel_moves_frame_formula of the next formula of the frame that is open in `memory`;
 * without a frame, or with all formulas open, 2. */
PARALLEL_MOVES_LOOK_AT_IT static inline uint8_t parallel_moves_frame_formula_in(
    struct parallel_moves_frame_memory *memory, uint32_t kept_evictions,
    const uint8_t *bytes, size_t bytes_length)
{
    if (memory->opened >= memory->shares) {
        return 2;
    }
    struct parallel_moves_formula *formula = &memory->formulas[memory->opened];
    formula->position = 0;
    uint8_t refusal = parallel_moves_frame_formula(
        memory->frame, memory->opened, kept_evictions, bytes, bytes_length, formula->target,
        formula->function, formula->cache);
    if (refusal == 0) {
        memory->opened++;
    }
    return refusal;
}

/* parallel_moves_frame_resolve of a formula that is open in `memory`; for another, 2 and no
 * edits. */
static inline size_t parallel_moves_frame_resolve_in(
    struct parallel_moves_frame_memory *memory, size_t formula,
    const uint32_t *free_units, size_t free_units_length,
    struct parallel_moves_entry_list entries,
    uint64_t *list, size_t list_length,
    uint8_t *refusal)
{
    if (formula >= memory->opened) {
        *refusal = 2;
        return 0;
    }
    struct parallel_moves_formula *of = &memory->formulas[formula];
    return parallel_moves_frame_resolve(
        memory->frame, formula, of->target, of->function, free_units, free_units_length,
        parallel_moves_entry_numbers(entries), parallel_moves_entry_numbers_length(entries),
        of->cache, list, list_length, refusal, &of->position, memory->entries, memory->writers,
        memory->available, memory->sources, memory->edits, memory->slots, memory->diverted,
        memory->marks, memory->carried);
}

/* parallel_moves_frame_resolve_groups of a formula that is open in `memory`, with the tables
 * of `groups`; for another, 2 and no edits. */
static inline size_t parallel_moves_frame_resolve_groups_in(
    struct parallel_moves_frame_memory *memory, struct parallel_moves_groups *groups,
    size_t formula,
    const uint32_t *free_units, size_t free_units_length,
    struct parallel_moves_entry_list entries,
    uint64_t *list, size_t list_length,
    uint8_t *refusal)
{
    if (formula >= memory->opened) {
        *refusal = 2;
        return 0;
    }
    struct parallel_moves_formula *of = &memory->formulas[formula];
    return parallel_moves_frame_resolve_groups(
        memory->frame, formula, of->target, of->function, free_units, free_units_length,
        parallel_moves_entry_numbers(entries), parallel_moves_entry_numbers_length(entries),
        of->cache, list, list_length, refusal, &of->position, memory->units, memory->entries,
        memory->writers, memory->available, memory->sources, memory->edits, memory->slots,
        memory->diverted, memory->marks, memory->carried, groups->owners, groups->labels,
        groups->next, groups->common, groups->work, groups->joined);
}

/* What an asking of a formula leaves to take, as struct parallel_moves_preview. */
struct parallel_moves_frame_preview {
    const struct parallel_moves_frame_memory *memory;
    uint64_t openings;
    size_t formula;
    uint16_t slots[PARALLEL_MOVES_SLOTS];
    uint16_t to;
    uint16_t made;
    uint16_t position;
    uint16_t counter;
    uint64_t stamp;
};

/* parallel_moves_frame_ask of a formula that is open in `memory`; for another, 2 and no
 * edits. For `preview` it is as parallel_moves_ask_in. */
static inline size_t parallel_moves_frame_ask_in(
    struct parallel_moves_frame_memory *memory, size_t formula,
    const uint32_t *free_units, size_t free_units_length,
    struct parallel_moves_entry_list entries,
    uint64_t *list, size_t list_length,
    uint8_t *refusal,
    struct parallel_moves_frame_preview *preview)
{
    if (formula >= memory->opened) {
        *refusal = 2;
        return 0;
    }
    const struct parallel_moves_formula *of = &memory->formulas[formula];
    preview->memory = NULL;
    size_t count = parallel_moves_frame_ask(
        memory->frame, formula, of->target, of->function, free_units, free_units_length,
        parallel_moves_entry_numbers(entries), parallel_moves_entry_numbers_length(entries),
        of->cache, list, list_length, refusal, &preview->to, &preview->made,
        &preview->position, &preview->stamp, &preview->counter, memory->entries,
        memory->writers, memory->available, memory->sources, memory->edits, preview->slots,
        memory->diverted, memory->marks, memory->carried);
    if (*refusal == 0) {
        preview->memory = memory;
        preview->openings = memory->openings;
        preview->formula = formula;
    }
    return count;
}

/* parallel_moves_frame_take of a preview that parallel_moves_frame_ask_in left; 20 also where
 * it has nothing to take, or is of another memory, or of a frame that is open no longer. */
PARALLEL_MOVES_LOOK_AT_IT static inline uint8_t parallel_moves_frame_take_in(
    struct parallel_moves_frame_memory *memory,
    const struct parallel_moves_frame_preview *preview)
{
    if (preview->memory != memory || preview->openings != memory->openings) {
        return 20;
    }
    struct parallel_moves_formula *of = &memory->formulas[preview->formula];
    uint8_t refusal = parallel_moves_frame_take(
        memory->frame, preview->formula, preview->to, preview->stamp, preview->counter,
        preview->slots, of->cache);
    if (refusal == 0) {
        of->position = preview->position;
    }
    return refusal;
}

/* How many emergency slots a formula has made; 0 for one that is not open in `memory`. */
static inline uint16_t parallel_moves_frame_made_in(
    const struct parallel_moves_frame_memory *memory, size_t formula)
{
    return PARALLEL_MOVES_AS(
        uint16_t, formula < memory->opened ? parallel_moves_frame_made(memory->frame, formula) : 0);
}

/* How many emergency slots all formulas of the frame have made. */
static inline uint16_t parallel_moves_frame_total_in(const struct parallel_moves_frame_memory *memory)
{
    unsigned total = 0;
    for (size_t formula = 0; formula < memory->opened; formula++) {
        total += parallel_moves_frame_made(memory->frame, formula);
    }
    return PARALLEL_MOVES_AS(uint16_t, total);
}

/* parallel_moves_examine_formula of a formula that is open in `memory`, with the frame's
 * limit and the tables of `examiner`; for another, 2 with *refusal 2. */
PARALLEL_MOVES_LOOK_AT_IT static inline uint8_t parallel_moves_frame_examine_in(
    const struct parallel_moves_frame_memory *memory, struct parallel_moves_examiner *examiner,
    size_t formula,
    const uint32_t *free_units, size_t free_units_length,
    struct parallel_moves_entry_list entries,
    const uint64_t *words, size_t words_length,
    uint8_t *refusal)
{
    if (formula >= memory->opened) {
        *refusal = 2;
        return 2;
    }
    const struct parallel_moves_formula *of = &memory->formulas[formula];
    return parallel_moves_examine_formula(
        memory->limit, of->target, of->function, free_units, free_units_length,
        parallel_moves_entry_numbers(entries), parallel_moves_entry_numbers_length(entries),
        words, words_length, refusal, examiner->free_units, examiner->entries,
        examiner->writers, examiner->ties, examiner->cells, examiner->start, examiner->held,
        examiner->asked);
}

#ifdef __cplusplus
}
#endif

#endif
