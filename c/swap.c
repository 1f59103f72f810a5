/* Opens a function over a target and has two patches of it resolved, as a
 * compiler does. Prints the L to plan with, the edits, and which build it is. */
#include <stdio.h>
#include <stdlib.h>

#include "parallel_moves.h"
#include "parallel_moves_build.h"

/* Three registers of one unit each, two values, no ordinary slots, and one
 * emergency slot of 2^3 bytes that may be made. Returns how many bytes they have. */
static size_t describe(struct parallel_moves_builder *builder)
{
    uint32_t bank = parallel_moves_add_bank(builder, 3);
    uint32_t registers[3];
    for (uint32_t unit = 0; unit < 3; unit++) {
        registers[unit] = parallel_moves_add_register(builder, bank, &unit, 1);
    }
    uint32_t top = parallel_moves_add_class(builder, bank, true, registers, 3, registers, 3);
    uint32_t stack = parallel_moves_add_class(builder, bank, false, registers, 3, registers, 3);
    parallel_moves_set_top_level_class(builder, bank, top);
    parallel_moves_set_stack_class(builder, bank, stack);
    for (size_t values = 0; values < 2; values++) {
        parallel_moves_add_value(builder, bank);
    }
    parallel_moves_set_emergency_slots(builder, 1);
    return parallel_moves_build(builder);
}

/* Lets registers 0 and 1 change their contents; of the free units the first
 * `count` are given. Returns the number of the refusal, or 0. */
static uint8_t swap(struct parallel_moves_memory *memory, size_t count)
{
    static const uint32_t free_units[] = { 2 };
    const uint32_t r0 = parallel_moves_register(0), r1 = parallel_moves_register(1);
    const struct parallel_moves_entry entries[] = {
        parallel_moves_move(r0, r1, 0),
        parallel_moves_move(r1, r0, 1),
    };
    uint64_t list[PARALLEL_MOVES_MOST_EDITS];
    uint8_t refusal;
    size_t edits = parallel_moves_resolve_in(
        memory, free_units, count, parallel_moves_entries(entries, 2), list,
        PARALLEL_MOVES_MOST_EDITS, &refusal);
    for (size_t i = 0; i < edits; i++) {
        uint16_t to = parallel_moves_to(list[i]), from = parallel_moves_from(list[i]);
        printf("%c%u from %c%u\n",
            parallel_moves_is_register(to) ? 'r' : 's', (unsigned)parallel_moves_number(to),
            parallel_moves_is_register(from) ? 'r' : 's', (unsigned)parallel_moves_number(from));
    }
    return refusal;
}

/* Plans, opens and swaps twice. Returns the number of the refusal, or 0. */
static uint8_t run(struct parallel_moves_memory *memory, const uint8_t *bytes, size_t length)
{
    /* One register may be evicted at a time. */
    uint8_t refusal;
    uint16_t enough = parallel_moves_enough_slots_in(memory, 1, bytes, length, &refusal);
    if (refusal == 0) {
        printf("slots to plan with: %u\n", (unsigned)enough);
        refusal = parallel_moves_open_in(memory, 1, bytes, length);
    }
    for (size_t count = 0; refusal == 0 && count < 2; count++) {
        refusal = swap(memory, count);
    }
    if (refusal == 0) {
        printf("slots made: %u\n", (unsigned)parallel_moves_slots_made(memory->cache));
        puts(PARALLEL_MOVES_BUILD);
    }
    return refusal;
}

int main(void)
{
    struct parallel_moves_builder *builder = calloc(1, sizeof *builder);
    struct parallel_moves_memory *memory = calloc(1, sizeof *memory);
    int status = EXIT_FAILURE;
    if (builder && memory) {
        uint8_t refusal = run(memory, builder->bytes, describe(builder));
        if (refusal != 0) {
            fprintf(stderr, "swap: refused %u: %s\n", (unsigned)refusal, parallel_moves_refusal_text(refusal));
        } else if (fflush(stdout) == 0) {
            status = EXIT_SUCCESS;
        }
    } else {
        fputs("swap: there is no memory\n", stderr);
    }
    free(builder);
    free(memory);
    return status;
}
