# Adds 1 to a word twenty times, by LR.W and SC.W, and exits with the number of stores that failed. A block of 7 words ends between
# the two; one of 16 has both.
    .section .text.start, "ax", @progbits
    .globl _start
_start:
    .option push
    .option norelax
    la      gp, __global_pointer$
    .option pop
    la      a1, number
    li      s0, 20
    li      a0, 0
again:
    lr.w    t0, (a1)
    addi    t0, t0, 1
    addi    t2, t0, 0
    addi    t2, t0, 0
    addi    t2, t0, 0
    sc.w    t1, t0, (a1)
    add     a0, a0, t1
    bnez    t1, again
    addi    s0, s0, -1
    bnez    s0, again
    li      a7, 93
    ecall

    .data
number:
    .word 0
