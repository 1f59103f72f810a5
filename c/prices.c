/* prices FOLDER : what edits cost, of some trials of the folder and at each limit, the
 * cheaper of two lists, and functions and jobs opened with prices.
 * Prints `all as said`; at the first that differs it says which, and ends with 1. It is
 * C and C++. */
#include <stdio.h>
#include <stdlib.h>
#include <string.h>

#include "parallel_moves.h"

static struct parallel_moves_memory memory;
static uint16_t cache[PARALLEL_MOVES_CACHE];
static uint8_t job[PARALLEL_MOVES_MOST_BYTES];
static uint64_t words[PARALLEL_MOVES_MOST_WORDS];
static uint64_t list[2 * PARALLEL_MOVES_MOST_EDITS];
static unsigned checks;

/* What is found where nothing is to be set. */
static const uint64_t LEFT_ALONE = 99;

static void check(bool holds, const char *what)
{
    checks++;
    if (!holds) {
        fprintf(stderr, "prices: check %u: %s\n", checks, what);
        exit(EXIT_FAILURE);
    }
}

struct edge {
    uint64_t total;
    double runs;
    double product;
};

/* Sees that a call answers as it should: with a refusal, leaving the record alone, or
 * with 0 and the record. */
static void check_edge(uint8_t given, uint8_t refusal, struct edge edge, uint64_t total, uint64_t runs, const char *what)
{
    check(given == refusal, what);
    if (refusal != 0) {
        check(edge.total == LEFT_ALONE && edge.runs == 99.5 && edge.product == -99.5, what);
        return;
    }
    check(edge.total == total, what);
    check(edge.runs == PARALLEL_MOVES_AS(double, runs), what);
    /* To the unit: every whole number up to 2^53 is a double. */
    check(PARALLEL_MOVES_AS(uint64_t, edge.product) == runs * total, what);
    check(edge.product == PARALLEL_MOVES_AS(double, runs * total), what);
}

static void check_patch(
    size_t length, size_t patch, const uint32_t *prices, uint64_t runs, uint8_t refusal, uint64_t total, const char *what)
{
    struct edge edge = { LEFT_ALONE, 99.5, -99.5 };
    uint8_t given = parallel_moves_price(words, length, patch, prices, runs, &edge.total, &edge.runs, &edge.product);
    check_edge(given, refusal, edge, total, runs, what);
}

static void check_edits(
    size_t length, const uint32_t *prices, uint64_t runs, uint8_t refusal, uint64_t total, const char *what)
{
    struct edge edge = { LEFT_ALONE, 99.5, -99.5 };
    uint8_t given = parallel_moves_price_edits(list, length, prices, runs, &edge.total, &edge.runs, &edge.product);
    check_edge(given, refusal, edge, total, runs, what);
}

/* The words of the job in a file of a folder, with 1 kept eviction. */
static size_t answer(const char *folder, const char *name)
{
    char path[4096];
    snprintf(path, sizeof path, "%s/%s.job", folder, name);
    FILE *file = fopen(path, "rb");
    if (!file) {
        perror(path);
        exit(EXIT_FAILURE);
    }
    size_t length = fread(job, 1, sizeof job, file);
    fclose(file);
    uint8_t refusal = 99;
    size_t count = parallel_moves_answer_in(&memory, 1, job, length, words, PARALLEL_MOVES_MOST_WORDS, &refusal);
    check(refusal == 0, name);
    return count;
}

static const uint64_t MOST_RUNS = PARALLEL_MOVES_MOST_RUNS;
static const uint32_t PRICES[] = { 4, 6, 16, 12 };

static void whole_jobs(const char *folder)
{
    size_t length = answer(folder, "swap-full");
    check_patch(length, 1, PRICES, 0, 0, 12, "swap-full");
    check_patch(length, 1, PRICES, 100, 0, 12, "swap-full");
    check_patch(length, 1, PRICES, MOST_RUNS, 0, 12, "swap-full, run most often");
    check_patch(length, 1, PRICES, MOST_RUNS + 1, 19, 0, "swap-full, run too often");
    check_patch(length, 1, PRICES, UINT64_MAX, 19, 0, "swap-full, run too often");
    check_patch(length, 0, PRICES, 0, 2, 0, "patch 0");
    check_patch(length, 2, PRICES, 0, 2, 0, "a patch that there is not");
    check_patch(length, SIZE_MAX, PRICES, 0, 2, 0, "a patch that there is not");
    check_patch(0, 1, PRICES, 0, 2, 0, "no words");
    check_patch(length, 2, PRICES, MOST_RUNS + 1, 19, 0, "19 before 2");
    check_patch(length - 1, 1, PRICES, 0, 2, 0, "a head that counts more than there are");

    length = answer(folder, "slots-swapped");
    check_patch(length, 1, PRICES, 3, 0, 52, "slots swapped");
    length = answer(folder, "rebuild-into-slot");
    check_patch(length, 1, PRICES, 7, 0, 38, "the rebuild into slot 0");
}

static void prices_and_limits(void)
{
    for (size_t i = 0; i < sizeof list / sizeof *list; i++) {
        list[i] = 1;
    }
    const size_t most = PARALLEL_MOVES_MOST_EDITS;
    const uint32_t dear[] = { 65535, 0, 0, 0 };
    check_edits(most, dear, MOST_RUNS, 0, 67107840, "the dearest patch, run most often");
    struct edge edge = { 0, 0, 0 };
    check(parallel_moves_price_edits(list, most, dear, MOST_RUNS, &edge.total, &edge.runs, &edge.product) == 0, "dearest");
    check(PARALLEL_MOVES_AS(uint64_t, edge.product) == 4503530840785920, "the dearest product");
    check_edits(most + 1, dear, 0, 2, 0, "more edits than a patch has");
    check_edits(most + 1, dear, MOST_RUNS + 1, 19, 0, "19 before 2");
    check_edits(0, dear, MOST_RUNS, 0, 0, "no edits");

    /* A head that counts as many as a patch has at most, and one more. */
    memset(words, 0, sizeof words);
    words[0] = 8 * most;
    check_patch(most + 1, 1, dear, 1, 0, 0, "a head of most edits");
    words[0] = 8 * (most + 1);
    check_patch(most + 2, 1, dear, 1, 2, 0, "a head of too many edits");

    /* Each kind has its own price, and each price its own range. */
    static const uint64_t of_kind[] = { 0, 1, 10, 100, 1000, 0, 0, 0 };
    const uint32_t powers[] = { 1, 10, 100, 1000 };
    for (uint64_t kind = 0; kind < 8; kind++) {
        list[0] = 8 * 12345 + kind;
        check_edits(1, powers, 2, 0, of_kind[kind], "the price of a kind");
    }
    for (int i = 0; i < PARALLEL_MOVES_PRICES; i++) {
        uint32_t prices[] = { 0, 0, 0, 0 };
        prices[i] = PARALLEL_MOVES_MOST_PRICE;
        list[0] = PARALLEL_MOVES_AS(uint64_t, i) + 1;
        check_edits(1, prices, 1, 0, 65535, "the greatest price");
        prices[i]++;
        check_edits(1, prices, 1, 19, 0, "a price above the greatest");
        check_edits(0, prices, 1, 19, 0, "the same without edits");
        prices[i] = UINT32_MAX;
        check_edits(1, prices, 1, 19, 0, "the price 2^32 - 1");
    }
}

static uint64_t long_list[PARALLEL_MOVES_MOST_CHOSEN + 1];

/* Sees that the list itself comes back, or 19 with an empty part of the first. */
static void check_cheaper(
    const uint64_t *first, size_t first_length, const uint64_t *second, size_t second_length,
    const uint32_t *prices, int chosen, const char *what)
{
    const uint64_t *cheaper = NULL;
    size_t length = 99;
    uint8_t refusal = parallel_moves_cheaper_list(first, first_length, second, second_length, prices, &cheaper, &length);
    check(refusal == (chosen == 19 ? 19 : 0), what);
    check(cheaper == (chosen == 2 ? second : first), what);
    check(length == (chosen == 2 ? second_length : chosen == 1 ? first_length : 0), what);
    check(parallel_moves_cheaper(first, first_length, second, second_length, prices) == chosen, what);
}

static void cheaper_of_two(void)
{
    const uint64_t moves[] = { 1, 1, 1 }, save_and_reload[] = { 3, 4 }, reload[] = { 4 }, save[] = { 3 };
    const uint64_t six[] = { 1, 0, 1, 5, 1, 7 }, no_edit[] = { 262147 };
    check_cheaper(moves, 3, save_and_reload, 2, PRICES, 1, "12 and 28");
    check_cheaper(save_and_reload, 2, moves, 3, PRICES, 2, "28 and 12");
    check_cheaper(moves, 3, reload, 1, PRICES, 1, "12 and 12");
    check_cheaper(reload, 1, moves, 3, PRICES, 1, "12 and 12");
    check_cheaper(moves, 3, moves, 3, PRICES, 1, "a list and itself");
    check_cheaper(save, 1, six, 6, PRICES, 2, "kinds 0, 5 and 7 cost nothing");
    check_cheaper(no_edit, 1, reload, 1, PRICES, 2, "a slot saved costs what a save does");
    check_cheaper(moves, 0, reload, 0, PRICES, 1, "two empty lists");
    for (size_t i = 0; i <= PARALLEL_MOVES_MOST_CHOSEN; i++) {
        long_list[i] = 1;
    }
    const size_t most = PARALLEL_MOVES_MOST_CHOSEN;
    check_cheaper(long_list, most, long_list + 1, most, PRICES, 1, "the longest lists");
    check_cheaper(long_list, most, save, 1, PRICES, 2, "the longest list and a save");
    check_cheaper(long_list, most, long_list, most + 1, PRICES, 19, "a second list too long");
    check_cheaper(long_list, most + 1, save, 1, PRICES, 19, "a first list too long");
    for (int i = 0; i < PARALLEL_MOVES_PRICES; i++) {
        uint32_t prices[] = { 4, 6, 16, 12 };
        prices[i] = PARALLEL_MOVES_MOST_PRICE + 1;
        check_cheaper(moves, 3, reload, 1, prices, 19, "a price above the greatest");
        check_cheaper(moves, 0, reload, 0, prices, 19, "the same of two empty lists");
    }
}

/* What a function, and a job of it, are refused by when they are opened with prices: both by
 * the same number; or, with 0, the function is open and the job says `patches`. */
static void check_opened(
    uint32_t kept, const uint32_t *prices, size_t function, size_t whole, uint8_t refusal, uint32_t patches, const char *what)
{
    memcpy(cache, memory.cache, sizeof cache);
    check(parallel_moves_open_priced_in(&memory, kept, prices, job, function) == refusal, what);
    check(memory.is_open == (refusal == 0), what);
    check(refusal == 0 || memcmp(cache, memory.cache, sizeof cache) == 0, what);
    check(refusal != 0 || parallel_moves_slots_made(memory.cache) == 0, what);
    uint8_t given = 99;
    check(parallel_moves_priced_job_in(&memory, kept, prices, job, whole, &given) == patches, what);
    check(given == refusal, what);
    check(!memory.is_open, what);
}

/* 19 comes after the target's 7, and before the function's first number. */
static void opened_with_prices(void)
{
    /* swap-full: a target of 39 bytes, a function of 7, a patch count and a patch. */
    static const uint8_t swap_full[] = {
        3, 1, 3, 0, 1, 3, 0, 0, 1, 0, 0, 0, 1, 1, 0, 0, 1, 2, 2, 0, 1, 3, 0, 1, 2, 3, 0, 1, 2,
        0, 0, 3, 0, 1, 2, 3, 0, 1, 2, 2, 0, 1, 0, 0, 0, 0, 1, 0, 2, 0, 1, 3, 0, 0, 3, 1, 1};
    enum { TARGET = 39, FUNCTION = 46, JOB = sizeof swap_full };
    memcpy(job, swap_full, JOB);
    const uint32_t most = PARALLEL_MOVES_MOST_PRICE;
    const uint32_t dearest[] = { most, most, most, most };
    for (int i = 0; i < PARALLEL_MOVES_PRICES; i++) {
        uint32_t too_dear[] = { 4, 6, 16, 12 };
        too_dear[i] = most + 1;
        check_opened(1, dearest, FUNCTION, JOB, 0, 1, "the greatest prices");
        check_opened(2, too_dear, FUNCTION, JOB, 19, 0, "a price above the greatest");
        check_opened(3, too_dear, FUNCTION, JOB, 22, 0, "22 before 19");
        check_opened(1, too_dear, TARGET - 1, TARGET - 1, 1, 0, "a target cut off, before 19");
        check_opened(1, too_dear, TARGET, TARGET, 19, 0, "19 before a function cut off");
        check_opened(1, dearest, TARGET, TARGET, 1, 0, "a function cut off");
        /* A top-level class without slots. */
        job[20] = 0;
        check_opened(1, dearest, FUNCTION, JOB, 7, 0, "a target that is refused by 7");
        check_opened(1, too_dear, FUNCTION, JOB, 7, 0, "7 before 19");
        job[20] = 1;
        /* A bank that there is not, of the first value. */
        job[42] = 9;
        check_opened(1, dearest, FUNCTION, JOB, 2, 0, "a function that is refused by 2");
        check_opened(1, too_dear, FUNCTION, JOB, 19, 0, "19 before the function's 2");
        job[42] = 0;
    }
    /* Of a job the patches are not read, but their count is; of a function nothing is left over. */
    uint8_t given = 99;
    job[FUNCTION] = 3;
    check(parallel_moves_priced_job_in(&memory, 1, PRICES, job, FUNCTION + 1, &given) == 3 && given == 0, "three patches");
    check(parallel_moves_priced_job_in(&memory, 1, PRICES, job, FUNCTION, &given) == 0 && given == 1, "no count");
    job[FUNCTION] = 0;
    check(parallel_moves_priced_job_in(&memory, 1, PRICES, job, JOB, &given) == 0 && given == 2, "no patches");
    check(parallel_moves_open_priced_in(&memory, 1, PRICES, job, JOB) == 8, "bytes left over");
}

int main(int count, char **given)
{
    if (count != 2) {
        return EXIT_FAILURE;
    }
    opened_with_prices();
    whole_jobs(given[1]);
    prices_and_limits();
    cheaper_of_two();
    return puts("all as said") >= 0 && fflush(stdout) == 0 ? EXIT_SUCCESS : EXIT_FAILURE;
}
