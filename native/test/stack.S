# A firmware whose stack no symbol and no section tells: its startup alone loads sp, with TOP.
    .section .text.reset, "ax", @progbits
    .globl  reset
reset:
    j       start
    .balign 64
start:
#ifdef TOP
    li      t0, TOP - 64
    addi    sp, t0, 64
#endif
    call    run
1:  j       1b
run:
    la      t0, finished
    li      t1, 1
    sw      t1, 0(t0)
    ret

    .section .bss.finished, "aw", @nobits
    .balign 4
    .globl  finished
finished:
    .skip   4
