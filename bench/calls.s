# A guest of 7.4 * 10^7 instructions that is full of calls: the 32nd number of Fibonacci by calls of itself, each with a frame on
# the stack, as compiled code has it. About every fifth instruction is a call or a return. It ends by exit with the low seven bits
# of the number.
#
# Built as loop.elf is, which loop.s says.
    .globl _start
    .text
_start:
    li      a0, 32
    jal     fib
    andi    a0, a0, 127
    li      a7, 93
    ecall

fib:
    li      t0, 2
    bltu    a0, t0, small
    addi    sp, sp, -16
    sw      ra, 12(sp)
    sw      s0, 8(sp)
    sw      s1, 4(sp)
    mv      s0, a0
    addi    a0, s0, -1
    jal     fib
    mv      s1, a0
    addi    a0, s0, -2
    jal     fib
    add     a0, a0, s1
    lw      ra, 12(sp)
    lw      s0, 8(sp)
    lw      s1, 4(sp)
    addi    sp, sp, 16
small:
    ret
