# Start code as vendors' for microcontrollers: gp and sp, a table of vectors, data, zeros, constructors, main.
    .section .init, "ax", @progbits
    .globl  Reset_Handler
Reset_Handler:
    .option push
    .option norelax
    la      gp, __global_pointer$
    .option pop
    la      sp, _estack
    la      t0, vectors
    ori     t0, t0, 1
    csrw    mtvec, t0
    la      a0, _sidata
    la      a1, _sdata
    la      a2, _edata
    j       2f
1:  lw      t0, (a0)
    sw      t0, (a1)
    addi    a0, a0, 4
    addi    a1, a1, 4
2:  bltu    a1, a2, 1b
    la      a0, _sbss
    la      a1, _ebss
    j       4f
3:  sw      zero, (a0)
    addi    a0, a0, 4
4:  bltu    a0, a1, 3b
    la      s0, __init_array_start
    la      s1, __init_array_end
    j       6f
5:  lw      t0, (s0)
    jalr    t0
    addi    s0, s0, 4
6:  bltu    s0, s1, 5b
    call    main
7:  wfi
    j       7b

    .section .vectors, "ax", @progbits
    .balign 256
vectors:
    j       exception_handler
    .rept   2
    j       default_handler
    .endr
    j       software_handler
    .rept   3
    j       default_handler
    .endr
    j       timer_handler
    .rept   4
    j       default_handler
    .endr

    .text
    .weak   exception_handler, software_handler, timer_handler
exception_handler:
software_handler:
timer_handler:
default_handler:
    j       default_handler
