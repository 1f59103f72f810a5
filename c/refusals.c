/* Prints the number and the text of every refusal, from 0 to 255, a line each. */
#include <stdio.h>

#include "parallel_moves.h"

int main(void)
{
    for (unsigned number = 0; number <= UINT8_MAX; number++) {
        printf("%u %s\n", number, parallel_moves_refusal_text(PARALLEL_MOVES_AS(uint8_t, number)));
    }
    return fflush(stdout) == 0 ? 0 : 1;
}
