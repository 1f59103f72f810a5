/* Reads a job on standard input and prints its answer, as the program `resolve`
 * does: its argument, 1 or 2, is the number of kept evictions. Its status is 0 if the job was answered to its end, 1 if it was refused,
 * and 2 if it could not be read, answered or printed. */
#include <stdio.h>
#include <stdlib.h>
#include <string.h>

#include "parallel_moves.h"

enum { ANSWERED = 0, REFUSED = 1, FAILED = 2 };

/* 1 without an argument; 0, which is refused, with others than 1 or 2. */
static uint32_t setting(int count, char **words)
{
    if (count > 2) {
        return 0;
    }
    const char *word = count < 2 ? "1" : words[1];
    return strcmp(word, "1") == 0 ? 1 : strcmp(word, "2") == 0 ? 2 : 0;
}

static int answer(
    struct parallel_moves_memory *memory, uint32_t kept_evictions, uint8_t *job, uint64_t *words, uint8_t *text)
{
    /* A longer job is refused, however long it is. */
    size_t length = fread(job, 1, PARALLEL_MOVES_MOST_BYTES + 1, stdin);
    if (ferror(stdin)) {
        perror("example: the job was not read");
        return FAILED;
    }
    uint8_t refusal = 0;
    size_t count = parallel_moves_answer_in(
        memory, kept_evictions, job, length, words, PARALLEL_MOVES_MOST_WORDS, &refusal);
    length = parallel_moves_text(words, count, refusal, text, PARALLEL_MOVES_MOST_TEXT);
    if (length == 0) {
        fputs("example: there is no room for the text\n", stderr);
        return FAILED;
    }
    if (fwrite(text, 1, length, stdout) != length || fflush(stdout) != 0) {
        perror("example: the answer was not written");
        return FAILED;
    }
    if (refusal != 0) {
        fprintf(stderr, "example: refused %u: %s\n", (unsigned)refusal, parallel_moves_refusal_text(refusal));
        return REFUSED;
    }
    return ANSWERED;
}

int main(int count, char **given)
{
    struct parallel_moves_memory *memory = calloc(1, sizeof *memory);
    uint8_t *job = calloc(PARALLEL_MOVES_MOST_BYTES + 1, sizeof *job);
    uint64_t *words = calloc(PARALLEL_MOVES_MOST_WORDS, sizeof *words);
    uint8_t *text = calloc(PARALLEL_MOVES_MOST_TEXT, sizeof *text);
    int status = FAILED;
    if (memory && job && words && text) {
        status = answer(memory, setting(count, given), job, words, text);
    } else {
        fputs("example: there is no memory\n", stderr);
    }
    free(memory);
    free(job);
    free(words);
    free(text);
    return status;
}
