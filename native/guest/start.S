# The start of the runtime on qemu's board, and its way to the host.

    .section .text.start, "ax", @progbits
    .globl  _start
_start:
    la      sp, frame               # the stack's upper end
    csrw    mscratch, sp            # for a trap of the start itself
    la      t0, __bss
    la      t1, __bss_end
1:  sw      zero, 0(t0)
    addi    t0, t0, 4
    bltu    t0, t1, 1b
    la      t0, trap_vector
    csrw    mtvec, t0
    call    board_start             # sets the frame and mepc
    j       trap_resume

# Semihosting (RISC-V Semihosting Specification): a0 the operation, a1 its parameters; the answer in a0. The three
# instructions are uncompressed and stand in one page.
    .option norvc
    .text
    .balign 16
    .globl  semihost
semihost:
    slli    zero, zero, 0x1f
    ebreak
    srai    zero, zero, 7
    ret
