# A guest of 8.2 * 10^7 instructions that is full of memory: a sieve over 8,192 bytes, counts of its bytes by halves, and sums of
# words copied from one table to another. More than a third of the instructions are loads and stores. It ends by exit with the
# low seven bits of what it computed.
#
# Built as loop.elf is, which loop.s says.
    .globl _start
    .text
_start:
    li      s11, 1200               # turns of about 68,000 instructions
    li      s10, 0
turn:
    lui     s0, %hi(sieve)
    addi    s0, s0, %lo(sieve)
    li      s1, 8192
    add     s2, s0, s1
    mv      t0, s0
clear:
    sw      zero, 0(t0)
    sw      zero, 4(t0)
    sw      zero, 8(t0)
    sw      zero, 12(t0)
    addi    t0, t0, 16
    bltu    t0, s2, clear
    li      t1, 2
next:
    add     t0, s0, t1
    lbu     t2, 0(t0)
    bnez    t2, crossed
    add     t0, t0, t1
    bgeu    t0, s2, crossed
cross:
    sb      t1, 0(t0)
    add     t0, t0, t1
    bltu    t0, s2, cross
crossed:
    addi    t1, t1, 1
    mul     t3, t1, t1
    bltu    t3, s1, next
    mv      t0, s0
    lui     t5, %hi(copy)
    addi    t5, t5, %lo(copy)
sum:
    lw      t1, 0(t0)
    lh      t2, 2(t0)
    sw      t1, 0(t5)
    sh      t2, 4(t5)
    add     s10, s10, t1
    lhu     t3, 0(t5)
    add     s10, s10, t3
    addi    t0, t0, 4
    addi    t5, t5, 4
    bltu    t0, s2, sum
    addi    s11, s11, -1
    bnez    s11, turn
    andi    a0, s10, 127
    li      a7, 93
    ecall

    .data
    .balign 16
sieve:
    .space  8192
copy:
    .space  8196
