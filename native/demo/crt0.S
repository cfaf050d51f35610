# The start of a firmware, as a vendor's: the trap vector, first values of data out of flash, zeros, main. With MODEL it
# has no CSR and copies nothing, so that `swic cached` runs it too; `prepare` of demo.c does what is left out.
    .section .text.reset, "ax", @progbits
    .globl  reset
reset:
    .option push
    .option norelax
    la      gp, __global_pointer$
    .option pop
    la      sp, __stack
#ifndef MODEL
    la      t0, trap_entry
    csrw    mtvec, t0
    la      t0, __data
    la      t1, __data_end
    la      t2, __data_in_flash
1:  bgeu    t0, t1, 2f
    lw      t3, 0(t2)
    sw      t3, 0(t0)
    addi    t2, t2, 4
    addi    t0, t0, 4
    j       1b
2:
#endif
    la      t0, __bss
    la      t1, __bss_end
1:  bgeu    t0, t1, 2f
    sw      zero, 0(t0)
    addi    t0, t0, 4
    j       1b
2:  call    main
#ifdef MODEL
    li      a0, 0
    li      a7, 93
    ecall
#else
    csrci   mstatus, 8
    la      t0, finished            # what native/run --until waits for
    li      t1, 1
    sw      t1, 0(t0)
#endif
1:  j       1b

    .section .bss.finished, "aw", @nobits
    .balign 4
    .globl  finished
    .type   finished, @object
    .size   finished, 4
finished:
    .skip   4

#ifdef MODEL
# What the model has in place of the UART: one that is always ready.
    .section .stub.uart, "aw", @progbits
    .byte   0, 0, 0, 0, 0, 0x60, 0, 0
#endif
