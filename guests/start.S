# Start code of the C guests: sets gp and tp, calls the constructors and main, and ends with what main answers.
#
# The machine has set sp; every other register is 0, and so is all memory above sp.
# The addresses come from link.ld. gp has to be set without relaxation: a relaxed
# 'la gp, ..' would be computed from gp itself.

    .section .text.start, "ax", @progbits
    .globl _start
_start:
    .option push
    .option norelax
    la      gp, __global_pointer$
    la      tp, __tls_base
    .option pop
    la      s0, __init_array_start
    la      s1, __init_array_end
    bgeu    s0, s1, 2f
1:  lw      t0, 0(s0)               # a constructor
    addi    s0, s0, 4
    jalr    t0
    bltu    s0, s1, 1b
2:  call    main
    call    finish

# Ends with the code in a0. Weak: picolibc.c has one that first does what exit is to do.
    .weak   finish
finish:
    li      a7, 93
    ecall
