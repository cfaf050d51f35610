# The trap vector.
#
# All of x1 to x31 are the program's. mscratch holds the address of `frame`, in which the program's registers stand while
# the runtime runs, and the runtime's stack grows down from the frame, so that one register finds both. Only until the
# vector has saved three registers, or all, mscratch holds the program's sp. A trap of the runtime itself so finds the
# frame and ends with its own pc and cause. The C code is built so that it needs neither gp nor tp.
#
# A return whose target is in the memo takes the first path. Another jump over a register to a placed block is served here
# without C too, where its rd is x0 or ra (with SERVE_IN_VECTOR), and fills the memo; so are CSRRS and CSRRC of mstatus by a
# register that holds nothing but MIE (with FIRMWARE). What C serves by a register may read and write any, so all of them
# are saved; for all else those are that a C function may change. The C code, and the proved service (with PROVED), are
# built without a6, a7 and t3 to t6 (native/build, native/chip).

#include "runtime.h"

#ifndef STACK_BYTES
#define STACK_BYTES 2048
#endif

    .section .bss.frame, "aw", @nobits
    .balign 16
    .skip   STACK_BYTES
    .globl  frame
frame:
    .skip   FRAME_BYTES

    .option norvc
    .section .text.trap, "ax", @progbits

# Those that the C code may change, but t0 to t2 and sp.
    .macro  each_scratch op
    .irp    n, 1, 10, 11, 12, 13, 14, 15
    \op     x\n, FRAME_X(\n)(sp)
    .endr
    .endm

    .macro  each_temporary op
    .irp    n, 5, 6, 7
    \op     x\n, FRAME_X(\n)(sp)
    .endr
    .endm

# Those that it leaves as they are.
    .macro  each_saved op
    .irp    n, 3, 4, 8, 9, 16, 17, 18, 19, 20, 21, 22, 23, 24, 25, 26, 27, 28, 29, 30, 31
    \op     x\n, FRAME_X(\n)(sp)
    .endr
    .endm

    .macro  save_scratch
    each_scratch sw
    csrrw   t0, mscratch, sp
    sw      t0, FRAME_X(2)(sp)
    .endm

    .macro  call_service
    mv      a0, sp
    csrr    a1, mepc
    csrr    a2, mcause
    call    service_trap            # (frame, mepc, mcause): where to go on
    .endm

# The entry of the memo for the target in \target, in t0: its address less that of the targets.
    .macro  entry_for target
    andi    t0, \target, 4 * MEMO_ENTRIES - 4
    add     t0, t0, sp
    .endm

# The value of the register in the field rs1 of t1, in t0.
    .macro  read_rs1
    srli    t0, t1, 12
    andi    t0, t0, 31 << 3         # by the 8 bytes of its row below
    la      t2, read_register
    add     t0, t0, t2
    jalr    t2, 0(t0)
    .endm

# Links ra where it is rd; the frame has it when the service in C does the same again.
    .macro  link
    csrr    t0, mepc
    lw      t2, 4(t0)
    andi    t2, t2, 1 << 7
    beqz    t2, 9f
    lw      ra, 8(t0)
9:
    .endm

    .macro  count_service
    lw      t0, FRAME_SERVICES(sp)
    addi    t0, t0, 1
    sw      t0, FRAME_SERVICES(sp)
    .endm

    .globl  trap_vector
    .balign 4
trap_vector:
    csrrw   sp, mscratch, sp
    sw      t0, FRAME_X(5)(sp)
    sw      t1, FRAME_X(6)(sp)
    csrr    t0, mcause
    addi    t0, t0, -CAUSE_BREAKPOINT
    bnez    t0, no_exit
    csrr    t0, mepc
    lw      t1, 4(t0)               # the descriptor
    li      t0, 0x00008067          # ret: JALR x0, 0(ra)
    bne     t1, t0, other_exit
    .globl  return_exit
return_exit:
    entry_for ra
    lw      t1, FRAME_MEMO_TARGETS(t0)
    bne     t1, ra, unknown_return
    lw      t1, FRAME_MEMO_PLACES(t0)
    csrw    mepc, t1
    count_service
    lw      t0, FRAME_X(5)(sp)
    lw      t1, FRAME_X(6)(sp)
    csrrw   sp, mscratch, sp
    .globl  trap_return_short
trap_return_short:
    mret

unknown_return:
    sw      t2, FRAME_X(7)(sp)
#ifdef SERVE_IN_VECTOR
    andi    t1, ra, -2
    sw      t1, FRAME_TARGET(sp)
    andi    t2, t1, 2
    bnez    t2, serve_target

# t1: the target, a multiple of 4, which stands in the frame too
find:
    lw      t2, FRAME_TEXT_BASE(sp)
    sub     t1, t1, t2
    lw      t2, FRAME_TEXT_BYTES(sp)
    bgeu    t1, t2, serve_target
    lw      t2, FRAME_PLACES(sp)
    add     t1, t1, t2
    lw      t1, 0(t1)               # its place
    lw      t0, FRAME_MARKS(sp)
#ifdef BYTE_TABLE
    srli    t2, t1, PLACE_BLOCK_SHIFT
    add     t2, t2, t0
    lbu     t2, 0(t2)               # the number of the block's slot, plus 1
    beqz    t2, serve_target
    lw      t0, FRAME_BLOCK_WORDS(sp)
    mul     t2, t2, t0
#else
    srli    t2, t1, PLACE_BLOCK_SHIFT - 1 # twice the block: the bit below it is 0
    add     t2, t2, t0
    lhu     t2, 0(t2)               # the index of the block's first word, plus 1
    beqz    t2, serve_target
#endif
    andi    t1, t1, PLACE_OFFSET_MASK
    add     t1, t1, t2
    slli    t1, t1, 2
    lw      t2, FRAME_BEFORE_CACHE(sp)
    add     t1, t1, t2
    lw      t2, FRAME_TARGET(sp)
    entry_for t2
    sw      t2, FRAME_MEMO_TARGETS(t0)
    sw      t1, FRAME_MEMO_PLACES(t0)
    sw      sp, FRAME_MEMO_FILLED(sp)

# t1: where it stands
leave:
    csrw    mepc, t1
    count_service
    each_temporary lw
    csrrw   sp, mscratch, sp
    .globl  trap_return_find
trap_return_find:
    mret
#else
    j       serve_jump
#endif

other_exit:
    sw      t2, FRAME_X(7)(sp)
    andi    t2, t1, 3
    beqz    t2, serve_exit          # to an address
#ifdef SERVE_IN_VECTOR
    andi    t2, t1, 7               # of JALR all three bits are set
    addi    t2, t2, -7
    bnez    t2, other_word
    srli    t2, t1, 7
    andi    t2, t2, 30
    bnez    t2, serve_jump          # rd is neither x0 nor ra
    read_rs1
    srai    t1, t1, 20              # the immediate
    add     t1, t1, t0
    andi    t1, t1, -2
    entry_for t1
    lw      t2, FRAME_MEMO_TARGETS(t0)
    bne     t2, t1, 1f
    lw      t1, FRAME_MEMO_PLACES(t0)
    link
    j       leave
1:  andi    t2, t1, 2
    bnez    t2, serve_jump
    sw      t1, FRAME_TARGET(sp)
    link
    j       find

other_word:
#ifdef FIRMWARE
# CSRRS or CSRRC of mstatus (service_mark), of which the lower two bits are set, and not the third: MIE is the processor's
# MPIE here, and all else is the front's.
    addi    t2, t2, 7 - 3
    bnez    t2, serve_jump
    read_rs1
    andi    t2, t0, ~(1 << 3)
    bnez    t2, serve_jump
    slli    t0, t0, 4
    slli    t1, t1, 31 - 12         # of CSRRC bit 12 is set
    bltz    t1, 1f
    csrs    mstatus, t0
    j       2f
1:  csrc    mstatus, t0
2:  csrr    t1, mepc
    addi    t1, t1, 8
    j       leave
#else
    j       serve_jump
#endif

    .macro  read_by instruction:vararg
    \instruction
    jr      t2
    .endm

    .balign 8
read_register:
    read_by li t0, 0
    read_by mv t0, x1
    read_by csrr t0, mscratch       # sp
    read_by mv t0, x3
    read_by mv t0, x4
    read_by lw t0, FRAME_X(5)(sp)
    read_by lw t0, FRAME_X(6)(sp)
    read_by lw t0, FRAME_X(7)(sp)
    .irp    n, 8, 9, 10, 11, 12, 13, 14, 15, 16, 17, 18, 19, 20, 21, 22, 23, 24, 25, 26, 27, 28, 29, 30, 31
    read_by mv t0, x\n
    .endr

#else
    j       serve_jump              # over a register, or a word that the front executes
#endif

serve_target:                       # that of the frame: it has no place, or is no text word
    save_scratch
    mv      a0, sp
    csrr    a1, mepc
    lw      a2, FRAME_TARGET(sp)
    call    service_jump            # (frame, mepc, the target): where to go on
    j       served

serve:
    save_scratch
    call_service
    j       served

serve_exit:
    save_scratch
#ifdef PROVED
    la      a0, service
    csrr    a1, mepc
    mv      a2, t1
    call    chip_exit               # (the service, mepc, the target): where to go on, or why not at once
    andi    t0, a0, 3
    bnez    t0, 1f
    fence.i
    j       served
1:  mv      a1, a0
    csrr    a0, mepc
    call    service_refused         # (mepc, the answer): where to go on
#else
    csrr    a0, mepc
    mv      a1, t1
    call    service_exit            # (mepc, the target): where to go on
#endif
served:
    csrw    mepc, a0
return:
    each_scratch lw
    each_temporary lw
    lw      sp, FRAME_X(2)(sp)
    .globl  trap_return
trap_return:
    mret

serve_jump:
    save_scratch
    each_saved sw
    call_service
    csrw    mepc, a0
return_jump:
    each_saved lw
    j       return

no_exit:
    sw      t2, FRAME_X(7)(sp)
    sw      a7, FRAME_X(17)(sp)     # of a guest's call
    csrr    t0, mcause
    bgez    t0, serve
    .globl  trap_interrupt
trap_interrupt:
    lw      t1, FRAME_DIRECT(sp)
    beqz    t1, serve

# An interrupt with a direct handler: code that ends with MRET and leaves all registers as they were, as GCC's attribute
# `interrupt` makes it. It runs where it stands, on the program's stack, and its MRET leads behind the jump here: the
# program goes on in the cache, which is as it was.
    csrr    t0, mepc
    sw      t0, FRAME_RESUME(sp)
    la      t0, 1f
    csrw    mepc, t0
    li      t0, 1 << 7              # mstatus.MPIE: behind the handler's MRET interrupts stay off
    csrc    mstatus, t0
    csrrw   sp, mscratch, sp
    jr      t1
    .balign 4
1:  csrrw   sp, mscratch, sp
    lw      t0, FRAME_RESUME(sp)
    csrw    mepc, t0
    li      t0, 3 << 11             # mstatus.MPP: machine mode; MRET has set MPIE
    csrs    mstatus, t0
    each_temporary lw
    csrrw   sp, mscratch, sp
    mret

# The way into a program that starts: mepc, mscratch and every register of the frame are set.
    .globl  trap_resume
trap_resume:
    la      sp, frame
    j       return_jump
