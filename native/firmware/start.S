# The start of the processor, in flash. What runs there is summed first; then the runtime's fast part is copied to its place,
# where start.c sums it, and the rest begins at 0.
#include "../runtime.h"

    .section .swicache.start, "ax", @progbits
    .globl  swicache_start
swicache_start:
    csrw    mie, zero
    la      t0, start_trap
    csrw    mtvec, t0
    csrr    t0, mhartid
1:  bnez    t0, 1b                  # one hart runs the firmware
    la      sp, frame
    call    firmware_check
    la      t0, swicache_fast
    la      t1, swicache_fast_end
    la      t2, swicache_fast_in_flash
1:  lw      t3, 0(t2)
    sw      t3, 0(t0)
    addi    t2, t2, 4
    addi    t0, t0, 4
    bltu    t0, t1, 1b
    la      t0, swicache_data
    la      t1, swicache_data_end
1:  sw      zero, 0(t0)
    addi    t0, t0, 4
    bltu    t0, t1, 1b
    fence.i
    call    firmware_start
    la      t0, frame
    csrw    mscratch, t0
    la      t0, trap_vector
    csrw    mtvec, t0
    tail    trap_resume

# A trap of the start itself, or of a native start: firmware_stop(STOP_RUNTIME, mepc, mcause).
    .balign 4
start_trap:
    la      sp, frame
    li      a0, 7
    csrr    a1, mepc
    csrr    a2, mcause
    tail    firmware_stop

# Of each byte its remainder by the polynomial of CRC-32, bits reversed.
    .balign 4
    .globl  crc_table
crc_table:
    .set    byte, 0
    .rept   256
    .set    remainder, byte
    .rept   8
    .set    remainder, (remainder >> 1) ^ (0xedb88320 & -(remainder & 1))
    .endr
    .word   remainder
    .set    byte, byte + 1
    .endr
