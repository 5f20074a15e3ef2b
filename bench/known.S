/* A program that executes 2,000,004 instructions: bench/run holds the counting plugin to it. Linux, x86-64, no libraries. */
    .globl _start
_start:
    mov $1000000, %ecx
again:
    dec %ecx
    jnz again
    mov $60, %eax
    xor %edi, %edi
    syscall
    .section .note.GNU-stack, "", @progbits
