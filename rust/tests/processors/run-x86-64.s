# run(list, registers, stack_pointer): a list of edits touches nothing but ymm registers and its frame, and ends
# by a jump to `done`.
.intel_syntax noprefix
.text
.globl run, done
run:
    push rbx
    push rbp
    mov rbx, rsi
    mov rbp, rsp
    .irp number, 0, 1, 2, 3, 4, 5, 6, 7, 8, 9, 10, 11, 12, 13, 14, 15
    vmovups ymm\number, [rbx + 32 * \number]
    .endr
    mov rsp, rdx
    jmp rdi
done:
    mov rsp, rbp
    .irp number, 0, 1, 2, 3, 4, 5, 6, 7, 8, 9, 10, 11, 12, 13, 14, 15
    vmovups [rbx + 32 * \number], ymm\number
    .endr
    vzeroupper
    pop rbp
    pop rbx
    ret
.section .note.GNU-stack, "", %progbits
