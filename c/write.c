/* Reads the numbers of a job on standard input, in base ten, and writes the job's bytes
 * to standard output. Its argument, if there is one, is how many bytes are lent, at most
 * 65,536; or it is `shipped`, and the bytes of the shipped target are written. With `opened`
 * before that number, the target and the function are opened, and the job is written of them
 * and the numbers behind. Its status is 0 if the job was written, 1 if it was refused, 2 if
 * it could not be read or printed, and 3 if a byte was changed that is to be left alone. */
#include <inttypes.h>
#include <stdio.h>
#include <stdlib.h>
#include <string.h>

#include "parallel_moves.h"

enum { WRITTEN = 0, REFUSED = 1, FAILED = 2, NOT_LEFT_ALONE = 3 };

/* More numbers than a job of so many bytes can have. */
#define MOST_NUMBERS (PARALLEL_MOVES_MOST_BYTES + 1)

static struct parallel_moves_memory *memory, *before;

/* What a byte is before the call, and one past those lent. */
static uint8_t unwritten(size_t at)
{
    return PARALLEL_MOVES_AS(uint8_t, at % 251 + 1);
}

static size_t read_numbers(uint32_t *numbers)
{
    size_t count = 0;
    while (count < MOST_NUMBERS && scanf("%" SCNu32, &numbers[count]) == 1) {
        count++;
    }
    return count;
}

static int put(const uint8_t *bytes, size_t count)
{
    if (fwrite(bytes, 1, count, stdout) != count || fflush(stdout) != 0) {
        perror("write: the bytes were not written");
        return FAILED;
    }
    return WRITTEN;
}

/* The bytes of numbers, and behind each number how many there are up to it. */
static uint8_t opening[5 * MOST_NUMBERS];
static size_t ends[MOST_NUMBERS];

static void encode(const uint32_t *numbers, size_t length)
{
    size_t end = 0;
    for (size_t i = 0; i < length; i++) {
        uint32_t number = numbers[i];
        for (; number >= 128; number /= 128) opening[end++] = PARALLEL_MOVES_AS(uint8_t, number % 128 + 128);
        opening[end++] = PARALLEL_MOVES_AS(uint8_t, number);
        ends[i] = end;
    }
}

/* Opens the target and the function that the numbers begin with: how many numbers they have,
 * or 0 and the refusal. A shorter beginning is cut off (1), a longer one has bytes left over (8). */
static size_t open_function(const uint32_t *numbers, size_t length, uint8_t *refusal)
{
    size_t least = 1, most = length;
    encode(numbers, length);
    *refusal = 1;
    while (least <= most) {
        size_t middle = least + (most - least) / 2;
        *refusal = parallel_moves_open_in(memory, 1, opening, ends[middle - 1]);
        if (*refusal == 0) {
            return middle;
        } else if (*refusal == 1) {
            least = middle + 1;
        } else if (*refusal == 8) {
            most = middle - 1;
        } else {
            return 0;
        }
    }
    return 0;
}

/* As parallel_moves_write_in, by way of an opened function. */
static size_t write_opened(
    struct parallel_moves_writer *writer, const uint32_t *numbers, size_t length, uint8_t *bytes, size_t lent,
    uint8_t *refusal)
{
    size_t function = open_function(numbers, length, refusal);
    if (function == 0) {
        return 0;
    }
    memcpy(before, memory, sizeof *memory);
    size_t count = parallel_moves_write_opened_in(
        memory, writer, numbers + function, length - function, bytes, lent, refusal);
    if (memcmp(before, memory, sizeof *memory) != 0) {
        fputs("write: the opened function was changed\n", stderr);
        exit(NOT_LEFT_ALONE);
    }
    return count;
}

static int write_job(struct parallel_moves_writer *writer, uint32_t *numbers, uint8_t *bytes, size_t lent, bool opened)
{
    size_t length = read_numbers(numbers);
    if (ferror(stdin)) {
        perror("write: the numbers were not read");
        return FAILED;
    }
    for (size_t i = 0; i <= PARALLEL_MOVES_MOST_BYTES; i++) bytes[i] = unwritten(i);
    uint8_t refusal = 0;
    size_t count = opened ? write_opened(writer, numbers, length, bytes, lent, &refusal)
                          : parallel_moves_write_in(writer, numbers, length, bytes, lent, &refusal);
    for (size_t i = count; i <= PARALLEL_MOVES_MOST_BYTES; i++) {
        if (bytes[i] != unwritten(i)) {
            fputs("write: a byte was changed that is to be left alone\n", stderr);
            return NOT_LEFT_ALONE;
        }
    }
    if (refusal != 0) {
        fprintf(stderr, "refused %u\n", PARALLEL_MOVES_AS(unsigned, refusal));
        return REFUSED;
    }
    return put(bytes, count);
}

int main(int count, char **given)
{
    bool shipped = count > 1 && strcmp(given[1], "shipped") == 0;
    bool opened = count > 1 && strcmp(given[1], "opened") == 0;
    int room = opened ? 2 : 1;
    unsigned long lent = count > room ? strtoul(given[room], NULL, 10) : PARALLEL_MOVES_MOST_BYTES;
    struct parallel_moves_writer *writer = PARALLEL_MOVES_AS(struct parallel_moves_writer *, calloc(1, sizeof *writer));
    uint32_t *numbers = PARALLEL_MOVES_AS(uint32_t *, calloc(MOST_NUMBERS, sizeof *numbers));
    uint8_t *bytes = PARALLEL_MOVES_AS(uint8_t *, calloc(PARALLEL_MOVES_MOST_BYTES + 1, sizeof *bytes));
    memory = PARALLEL_MOVES_AS(struct parallel_moves_memory *, calloc(1, sizeof *memory));
    before = PARALLEL_MOVES_AS(struct parallel_moves_memory *, calloc(1, sizeof *before));
    int status = FAILED;
    if (writer && numbers && bytes && memory && before && lent <= PARALLEL_MOVES_MOST_BYTES) {
        status = shipped ? put(writer->work, parallel_moves_shipped_in(writer))
                         : write_job(writer, numbers, bytes, lent, opened);
    } else {
        fputs("write: there is no such memory\n", stderr);
    }
    free(writer);
    free(numbers);
    free(bytes);
    free(memory);
    free(before);
    return status;
}
