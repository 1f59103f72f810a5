/* try SEED PATCHES M R S L : reads a job on standard input, draws patches of its function
 * and prints what becomes of them at both settings, as the program `try_settings` does.
 * It is C and C++. Also sees that a refused asking leaves both tallies alone. */
#include <inttypes.h>
#include <limits.h>
#include <stdio.h>
#include <stdlib.h>

#include "parallel_moves.h"

static struct parallel_moves_memory memory;
static uint8_t job[PARALLEL_MOVES_MOST_BYTES + 1];
static uint64_t tallies[2][PARALLEL_MOVES_TALLY];

static const uint64_t LEFT_ALONE = 0x5555555555555555;

static void print_row(const char *label, int cell)
{
    printf("%-12s%12" PRIu64 "%12" PRIu64 "\n", label, tallies[0][cell], tallies[1][cell]);
}

/* A number of the arguments; one that is none is outside every range. */
static unsigned long long number(const char *word)
{
    char *end;
    unsigned long long read = strtoull(word, &end, 10);
    return *word >= '0' && *word <= '9' && *end == '\0' ? read : ULLONG_MAX;
}

int main(int count, char **given)
{
    if (count != 7) {
        return EXIT_FAILURE;
    }
    size_t length = fread(job, 1, sizeof job, stdin);
    if (ferror(stdin)) {
        return EXIT_FAILURE;
    }
    unsigned long long seed = number(given[1]), patches = number(given[2]);
    uint32_t prices[PARALLEL_MOVES_PRICES];
    for (int i = 0; i < PARALLEL_MOVES_PRICES; i++) {
        unsigned long long price = number(given[3 + i]);
        prices[i] = PARALLEL_MOVES_AS(uint32_t, price <= UINT32_MAX ? price : UINT32_MAX);
    }
    for (int i = 0; i < PARALLEL_MOVES_TALLY; i++) {
        tallies[0][i] = tallies[1][i] = LEFT_ALONE;
    }
    uint8_t refusal = seed > UINT32_MAX || patches > UINT32_MAX ? PARALLEL_MOVES_AS(uint8_t, 2) : parallel_moves_try_in(
        &memory, job, length, prices, PARALLEL_MOVES_AS(uint32_t, seed), PARALLEL_MOVES_AS(uint32_t, patches),
        tallies[0], tallies[1]);
    if (refusal != 0) {
        for (int i = 0; i < PARALLEL_MOVES_TALLY; i++) {
            if (tallies[0][i] != LEFT_ALONE || tallies[1][i] != LEFT_ALONE) {
                return EXIT_FAILURE;
            }
        }
        unsigned refused = refusal;
        printf("refused %u\n", refused);
        return fflush(stdout) == 0 && !ferror(stdout) ? EXIT_SUCCESS : EXIT_FAILURE;
    }
    printf("seed %llu patches %llu\n", seed, patches);
    printf("%-12s%12d%12d\n", "kept", 1, 2);
    print_row("accepted", PARALLEL_MOVES_ACCEPTED);
    print_row("M", PARALLEL_MOVES_MOVES);
    print_row("R", PARALLEL_MOVES_REMATERIALIZES);
    print_row("S", PARALLEL_MOVES_SPILLS);
    print_row("L", PARALLEL_MOVES_RELOADS);
    print_row("evictions", PARALLEL_MOVES_EVICTIONS);
    print_row("price", PARALLEL_MOVES_TOTAL_PRICE);
    for (int i = 0; i < 256; i++) {
        int cell = PARALLEL_MOVES_REFUSED + i;
        if (tallies[0][cell] != 0 || tallies[1][cell] != 0) {
            char label[16];
            snprintf(label, sizeof label, "refused %d", i);
            print_row(label, cell);
        }
    }
    return fflush(stdout) == 0 && !ferror(stdout) ? EXIT_SUCCESS : EXIT_FAILURE;
}
