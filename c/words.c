/* words KEPT [positions] : reads a job on standard input and prints its answer with
 * KEPT kept evictions from the words, taken apart with the header's functions; or
 * only the position of each patch. It is C and C++. Also sees that a list of words
 * that is too short, and a text, are refused. */
#include <stdio.h>
#include <stdlib.h>

#include "parallel_moves.h"

static struct parallel_moves_memory memory;
static uint8_t job[PARALLEL_MOVES_MOST_BYTES + 1];
static uint64_t words[PARALLEL_MOVES_MOST_WORDS];
static uint64_t less[PARALLEL_MOVES_MOST_WORDS];
static uint8_t text[PARALLEL_MOVES_MOST_TEXT];
static uint32_t kept_evictions;

static const uint64_t LEFT_ALONE = 0x5555555555555555;

static void print_place(uint16_t place)
{
    unsigned number = parallel_moves_number(place);
    printf(" %c%u", parallel_moves_is_register(place) ? 'r' : 's', number);
}

static void print_edit(uint64_t edit)
{
    enum parallel_moves_word_kind kind = parallel_moves_kind(edit);
    putchar(" MRSL"[kind]);
    print_place(parallel_moves_to(edit));
    if (kind != PARALLEL_MOVES_REMATERIALIZE) {
        print_place(parallel_moves_from(edit));
    }
    if (kind == PARALLEL_MOVES_MOVE || kind == PARALLEL_MOVES_REMATERIALIZE) {
        unsigned value = parallel_moves_value(edit);
        printf(" %u", value);
    }
    putchar('\n');
}

/* Whether one word or byte too few is told: with 16 and the first patches, the
 * rest of the list left alone, or with 0. */
static bool short_is_told(size_t length, size_t count, uint8_t refusal)
{
    uint8_t other = 99;
    size_t printed = parallel_moves_text(words, count, refusal, text, sizeof text);
    if (printed == 0 || parallel_moves_text(words, count, refusal, text, printed - 1) != 0) {
        return false;
    }
    if (count == 0) {
        return true;
    }
    for (size_t i = 0; i < count; i++) {
        less[i] = LEFT_ALONE;
    }
    size_t given = parallel_moves_answer_in(
        &memory, kept_evictions, job, length, less, count - 1, &other);
    for (size_t i = 0; i < count; i++) {
        if (less[i] != (i < given ? words[i] : LEFT_ALONE)) {
            return false;
        }
    }
    return given < count && other == 16;
}

int main(int count_of_words, char **given)
{
    bool positions = count_of_words > 2;
    if (count_of_words < 2) {
        return EXIT_FAILURE;
    }
    kept_evictions = PARALLEL_MOVES_AS(uint32_t, strtoul(given[1], NULL, 10));
    uint8_t refusal = 99;
    size_t length = fread(job, 1, sizeof job, stdin);
    if (ferror(stdin)) {
        return EXIT_FAILURE;
    }
    size_t count = parallel_moves_answer_in(
        &memory, kept_evictions, job, length, words, PARALLEL_MOVES_MOST_WORDS, &refusal);
    if (!short_is_told(length, count, refusal)) {
        return EXIT_FAILURE;
    }
    unsigned patch = 0;
    for (size_t at = 0; at < count;) {
        uint64_t head = words[at];
        size_t end = at + 1 + parallel_moves_count(head);
        if (!parallel_moves_is_head(head) || end > count) {
            return EXIT_FAILURE;
        }
        patch++;
        unsigned made = parallel_moves_made(head);
        unsigned position = parallel_moves_position(head);
        if (positions) {
            printf("%u\n", position);
            at = end;
            continue;
        }
        printf("patch %u edits %zu made %u\n", patch, parallel_moves_count(head), made);
        for (at++; at < end; at++) {
            if (parallel_moves_is_head(words[at])) {
                return EXIT_FAILURE;
            }
            print_edit(words[at]);
        }
    }
    if (refusal != 0 && !positions) {
        unsigned number = refusal;
        printf("refused %u\n", number);
    }
    return fflush(stdout) == 0 && !ferror(stdout) ? EXIT_SUCCESS : EXIT_FAILURE;
}
