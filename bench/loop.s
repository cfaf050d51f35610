# A guest of about 10^8 instructions: sums, shifts, products, loads and stores of each size, branches
# and calls, as compiled code has them. It ends by exit with the low seven bits of what it computed.
#
# Built in this folder by Debian's gcc-riscv64-unknown-elf:
#   riscv64-unknown-elf-gcc -march=rv32ima -mabi=ilp32 -nostartfiles -nostdlib -T loop.ld \
#       -Wl,-n,--build-id=none -s loop.s -o loop.elf
    .globl _start
    .text
_start:
    lui     s0, %hi(table)
    addi    s0, s0, %lo(table)
    li      s1, 4000000             # turns of 25 or 26 instructions
    li      s2, 0x12345
    li      s3, 0
turn:
    lw      t0, 0(s0)
    add     t0, t0, s2
    slli    t1, t0, 3
    xor     t0, t0, t1
    srli    t1, t0, 5
    add     t0, t0, t1
    sw      t0, 0(s0)
    lbu     t2, 1(s0)
    sb      t2, 5(s0)
    lhu     t3, 4(s0)
    sltu    t4, t3, t0
    add     s2, s2, t4
    mul     t5, t0, s2
    sw      t5, -8(sp)
    lw      t6, -8(sp)
    andi    t6, t6, 4
    beqz    t6, skip
    addi    s3, s3, 1
skip:
    mv      a0, s3
    jal     leaf
    mv      s3, a0
    addi    s1, s1, -1
    bnez    s1, turn
    andi    a0, s3, 127
    li      a7, 93
    ecall

leaf:
    sra     a1, a0, t4
    add     a0, a0, a1
    ret

    .data
    .balign 4
table:
    .word   1, 2, 3, 4
