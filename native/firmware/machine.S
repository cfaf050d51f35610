# What the firmware's machine mode needs of the processor.
#include "../runtime.h"

# struct tried machine_try(instruction, value): the instruction is put on the stack, which so has to be executable, and
# traps lead behind it. The runtime has interrupts off here.
    .section .text.slow, "ax", @progbits
    .globl  machine_try
machine_try:
    addi    sp, sp, -16
    li      t0, 0x00008067          # ret
    sw      a0, 0(sp)
    sw      t0, 4(sp)
    sw      ra, 8(sp)
    fence.i
    mv      a0, a1
    li      a1, 1
    csrr    t1, mstatus
    la      t2, 1f
    csrrw   t2, mtvec, t2
    jalr    ra, 0(sp)
    j       2f
    .balign 4
1:  li      a1, 0
    csrw    mstatus, t1             # as before this trap
2:  csrw    mtvec, t2
    lw      ra, 8(sp)
    addi    sp, sp, 16
    ret

# machine_direct(handler, cause): the handler leaves all registers as they were, and ends with MRET. The service sets mepc
# when it ends, and mcause was read when it began.
    .section .text.machine_direct, "ax", @progbits
    .globl  machine_direct
machine_direct:
    csrr    t1, mstatus
    csrw    mcause, a1
    la      t0, 1f
    csrw    mepc, t0
    li      t0, 3 << 11             # MPP: machine mode
    csrs    mstatus, t0
    li      t0, 1 << 7              # MPIE: behind the handler's MRET interrupts stay off
    csrc    mstatus, t0
    mv      t2, sp
    la      t0, frame
    lw      sp, FRAME_X(2)(t0)
    jr      a0
    .balign 4
1:  mv      sp, t2
    csrw    mstatus, t1
    ret
