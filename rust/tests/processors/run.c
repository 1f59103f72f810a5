/* Runs each list of edits on a state that it reads: registers, then memory with the stack pointer in it. Writes
 * what became of the state. */
#include <stdint.h>
#include <stdio.h>

extern const uint32_t list_count, state_bytes, stack_pointer_at;
extern void (*const lists[])(void);

/* Loads all registers, does the edits with the stack pointer where it is said, and stores all registers. */
extern void run(void (*list)(void), unsigned char *registers, unsigned char *stack_pointer);

static _Alignas(64) unsigned char state[1 << 16];

int main(void)
{
    if (state_bytes > sizeof state) return 2;
    for (uint32_t i = 0; i < list_count; i++) {
        if (fread(state, state_bytes, 1, stdin) != 1) return 3;
        run(lists[i], state, state + stack_pointer_at);
        if (fwrite(state, state_bytes, 1, stdout) != 1) return 4;
    }
    return 0;
}
