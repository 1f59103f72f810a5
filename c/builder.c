/* Reads the numbers of a job on standard input, in base ten, takes its target and function apart,
 * describes them to a builder part by part, and writes the bytes that it makes to standard output.
 * With an argument, the bytes of the target that begins the job in that file stand in the place of
 * the target's parts, as many as the second argument says. Its status is 0 if the function could be
 * opened; 1 if it was refused, and then it says why; 2 if something could not be read or written.
 * With the argument `limits` it tries what a builder cannot hold, and says that all is as said. */
#include <inttypes.h>
#include <stdio.h>
#include <stdlib.h>
#include <string.h>

#include "parallel_moves.h"

enum { OPENED = 0, REFUSED = 1, FAILED = 2 };

static struct parallel_moves_builder *builder;
static struct parallel_moves_memory *memory;
static uint32_t listed[2][PARALLEL_MOVES_MOST_BYTES];

static uint32_t next_number(void)
{
    uint32_t number = 0;
    if (scanf("%" SCNu32, &number) != 1) {
        fputs("builder: a number is missing\n", stderr);
        exit(FAILED);
    }
    return number;
}

/* A count and as many numbers. */
static size_t next_list(uint32_t *list)
{
    size_t count = next_number();
    for (size_t i = 0; i < count && i < PARALLEL_MOVES_MOST_BYTES; i++) list[i] = next_number();
    return count;
}

static void describe_registers(void)
{
    for (uint32_t left = next_number(); left > 0; left--) {
        uint32_t is_memory = next_number(), bank = next_number();
        size_t count = next_list(listed[0]);
        if (is_memory) {
            parallel_moves_add_memory_register(builder, bank, listed[0][0]);
        } else {
            parallel_moves_add_register(builder, bank, listed[0], count);
        }
    }
}

static void describe_classes(void)
{
    for (uint32_t left = next_number(); left > 0; left--) {
        uint32_t bank = next_number(), slots = next_number();
        size_t members = next_list(listed[0]), order = next_list(listed[1]);
        parallel_moves_add_class(builder, bank, slots != 0, listed[0], members, listed[1], order);
    }
}

static void describe_target(void)
{
    uint32_t classes[8][2];
    parallel_moves_set_units(builder, next_number());
    uint32_t banks = next_number();
    for (uint32_t bank = 0; bank < banks && bank < 8; bank++) {
        parallel_moves_add_bank(builder, next_number());
        for (size_t i = 0; i < 2; i++) classes[bank][i] = next_number();
    }
    describe_registers();
    describe_classes();
    for (uint32_t bank = 0; bank < banks && bank < 8; bank++) {
        parallel_moves_set_top_level_class(builder, bank, classes[bank][0]);
        parallel_moves_set_stack_class(builder, bank, classes[bank][1]);
    }
}

static void describe_function(void)
{
    uint32_t values = next_number();
    parallel_moves_set_slots(builder, next_number());
    parallel_moves_set_emergency_slots(builder, next_number());
    for (; values > 0; values--) {
        uint32_t bank = next_number(), cost = next_number();
        if (cost == 0) {
            parallel_moves_add_value(builder, bank);
        } else {
            uint32_t reg_class = next_number();
            parallel_moves_add_remat_value(
                builder, bank, PARALLEL_MOVES_AS(enum parallel_moves_remat_cost, cost), reg_class);
        }
    }
}

/* The target as bytes, from the beginning of a file. */
static void take_target(const char *name, size_t length)
{
    static uint8_t bytes[PARALLEL_MOVES_MOST_BYTES];
    FILE *file = fopen(name, "rb");
    if (!file || length > sizeof bytes || fread(bytes, 1, length, file) != length) {
        fputs("builder: the target was not read\n", stderr);
        exit(FAILED);
    }
    fclose(file);
    parallel_moves_set_target(builder, bytes, length);
}

static uint8_t opened(void)
{
    return parallel_moves_open_in(memory, 1, builder->bytes, parallel_moves_build(builder));
}

/* Begins anew, with the target of swap-full. */
static void begin(void)
{
    memset(builder, 0, sizeof *builder);
    uint32_t bank = parallel_moves_add_bank(builder, 3), all[3];
    for (uint32_t unit = 0; unit < 3; unit++) all[unit] = parallel_moves_add_register(builder, bank, &unit, 1);
    parallel_moves_set_top_level_class(builder, bank, parallel_moves_add_class(builder, bank, true, all, 3, all, 3));
    parallel_moves_set_stack_class(builder, bank, parallel_moves_add_class(builder, bank, false, all, 3, all, 3));
}

static void expect(const char *what, uint8_t number)
{
    uint8_t refusal = opened();
    if (refusal != number) {
        fprintf(stderr, "builder: %s: %u\n", what, PARALLEL_MOVES_AS(unsigned, refusal));
        exit(REFUSED);
    }
}

/* Parts that go past what any job has, one byte at a time and all at once. */
static void too_long(void)
{
    static uint32_t many[PARALLEL_MOVES_MOST_BYTES + 2];
    begin();
    parallel_moves_add_class(builder, 0, true, many, PARALLEL_MOVES_MOST_BYTES + 2, many, 0);
    expect("a class of 65,538 members", PARALLEL_MOVES_NAMES_NOTHING);
    begin();
    for (size_t i = 0; i < 40000; i++) parallel_moves_add_memory_register(builder, 0, 0);
    expect("40,000 registers", PARALLEL_MOVES_NAMES_NOTHING);
    begin();
    for (size_t i = 0; i < 40000; i++) parallel_moves_add_value(builder, 0);
    expect("40,000 values", PARALLEL_MOVES_NAMES_NOTHING);
    begin();
    parallel_moves_add_register(builder, 0, many, PARALLEL_MOVES_MOST_BYTES);
    for (size_t i = 0; i < 9; i++) parallel_moves_add_memory_register(builder, 0, 4000000000u);
    expect("a register of 65,536 units", PARALLEL_MOVES_NAMES_NOTHING);
}

static void limits(void)
{
    begin();
    expect("three registers", 0);
    parallel_moves_set_emergency_slots(builder, 2049);
    expect("2,049 emergency slots", PARALLEL_MOVES_NAMES_NOTHING);
    parallel_moves_set_emergency_slots(builder, 2048);
    expect("2,048 emergency slots", 0);
    parallel_moves_set_emergency_slots(builder, 0);
    expect("no emergency slots", 0);
    parallel_moves_set_slots(builder, 4097);
    expect("4,097 slots", PARALLEL_MOVES_NAMES_NOTHING);
    begin();
    for (size_t i = 0; i < 4096; i++) parallel_moves_add_value(builder, 0);
    expect("4,096 values", 0);
    parallel_moves_add_value(builder, 0);
    expect("4,097 values", PARALLEL_MOVES_NAMES_NOTHING);
    begin();
    for (uint32_t unit = 3; unit < 512; unit++) parallel_moves_add_register(builder, 0, &unit, 1);
    expect("512 registers", 0);
    parallel_moves_add_memory_register(builder, 0, 0);
    expect("513 registers", PARALLEL_MOVES_NAMES_NOTHING);
    begin();
    parallel_moves_add_bank(builder, 3);
    expect("a bank without classes", PARALLEL_MOVES_NAMES_NOTHING);
    for (size_t i = 0; i < 20; i++) parallel_moves_set_stack_class(builder, parallel_moves_add_bank(builder, 3), 0);
    expect("22 banks", PARALLEL_MOVES_NAMES_NOTHING);
    begin();
    parallel_moves_add_remat_value(builder, 0, PARALLEL_MOVES_CHEAPER_THAN_LOAD, 1);
    expect("a value that is rebuilt", 0);
    parallel_moves_add_remat_value(builder, 0, PARALLEL_MOVES_CHEAPER_THAN_MOVE, 2);
    expect("no such class", PARALLEL_MOVES_NAMES_NOTHING);
    too_long();
}

int main(int count, char **given)
{
    builder = PARALLEL_MOVES_AS(struct parallel_moves_builder *, calloc(1, sizeof *builder));
    memory = PARALLEL_MOVES_AS(struct parallel_moves_memory *, calloc(1, sizeof *memory));
    if (!builder || !memory) {
        fputs("builder: there is no memory\n", stderr);
        return FAILED;
    }
    if (count > 1 && strcmp(given[1], "limits") == 0) {
        limits();
        return puts("all as said") < 0 || fflush(stdout) != 0 ? FAILED : OPENED;
    }
    describe_target();
    describe_function();
    if (count > 2) take_target(given[1], strtoul(given[2], NULL, 10));
    size_t length = parallel_moves_build(builder);
    uint8_t refusal = opened();
    if (refusal != 0) {
        fprintf(stderr, "refused %u: %s\n", PARALLEL_MOVES_AS(unsigned, refusal), parallel_moves_refusal_text(refusal));
        return REFUSED;
    }
    if (fwrite(builder->bytes, 1, length, stdout) != length || fflush(stdout) != 0) {
        perror("builder: the bytes were not written");
        return FAILED;
    }
    free(builder);
    free(memory);
    return OPENED;
}
