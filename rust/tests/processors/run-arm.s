@ run(list, registers, stack_pointer): a list of edits touches nothing but VFP registers, ip and its frame, and
@ ends by a branch to `done`.
.syntax unified
.fpu neon
.arm
.text
.globl run, done
.type run, %function
.type done, %function
run:
    push {r4, r5, r6, lr}
    vpush {d8-d15}
    mov r4, r1
    mov r5, sp
    vldmia r1, {d0-d15}
    mov sp, r2
    bx r0
done:
    mov sp, r5
    vstmia r4, {d0-d15}
    vpop {d8-d15}
    pop {r4, r5, r6, pc}
.section .note.GNU-stack, "", %progbits
