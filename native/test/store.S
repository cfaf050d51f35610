# Stores into its own text, an instruction that is executed next.
    .text
    .globl  _start
_start:
    la      t0, changed
    lw      t1, 0(t0)
    sw      t1, 0(t0)
changed:
    li      a0, 0
    li      a7, 93
    ecall
