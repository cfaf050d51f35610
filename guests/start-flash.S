# Start code for link-flash.ld, in place of start.S: copies .data out of flash where it stands there, and clears what follows it.
# The addresses are set without relaxation, so that code and blocks are the same whether .data is copied or not.

    .section .text.start, "ax", @progbits
    .globl _start
_start:
    .option push
    .option norelax
    la      gp, __global_pointer$
    la      tp, __tls_base
    la      t0, __data_load
    la      t1, __data_begin
    la      t2, __data_end
    la      t3, __bss_end
    .option pop
    beq     t0, t1, 2f
1:  bgeu    t1, t2, 2f
    lw      t4, 0(t0)
    sw      t4, 0(t1)
    addi    t0, t0, 4
    addi    t1, t1, 4
    j       1b
2:  bgeu    t2, t3, 3f
    sw      zero, 0(t2)
    addi    t2, t2, 4
    j       2b
3:  la      s0, __init_array_start
    la      s1, __init_array_end
    bgeu    s0, s1, 5f
4:  lw      t0, 0(s0)               # a constructor
    addi    s0, s0, 4
    jalr    t0
    bltu    s0, s1, 4b
5:  call    main
    call    finish

# Ends with the code in a0. Weak: picolibc.c has one that first does what exit is to do.
    .weak   finish
finish:
    li      a7, 93
    ecall
