# Counts the lines, words and bytes of the input, and the bytes of its longest line.
# A word is a run of bytes above the space. Exits with the number of lines, so the status
# is its low byte; with 255 where a read fails. The counters are kept by atomic operations.

    .equ    READ, 63
    .equ    WRITE, 64
    .equ    EXIT, 93
    .equ    PIECE, 4096

    .section .text.start, "ax", @progbits
    .globl _start
_start:
    .option push
    .option norelax
    la      gp, __global_pointer$
    .option pop
    la      s0, lines
    la      s1, words
    la      s2, bytes
    la      s3, longest
    li      s4, 0                   # 1 inside a word
    li      s5, 0                   # the bytes of the line so far
    li      s6, '\n'
    li      s7, ' '
    li      s8, 1

read_piece:
    li      a0, 0
    la      a1, piece
    li      a2, PIECE
    li      a7, READ
    ecall
    bltz    a0, failed
    beqz    a0, write_counts
    amoadd.w zero, a0, (s2)
    la      t0, piece
    add     t1, t0, a0

next_byte:
    lbu     t2, 0(t0)
    addi    t0, t0, 1
    bgtu    t2, s7, in_word
    li      s4, 0
    beq     t2, s6, end_of_line
    j       in_line
in_word:
    bnez    s4, in_line
    li      s4, 1
    amoadd.w zero, s8, (s1)
in_line:
    addi    s5, s5, 1
    amomaxu.w zero, s5, (s3)
    bne     t0, t1, next_byte
    j       read_piece
end_of_line:
    li      s5, 0
    amoadd.w zero, s8, (s0)
    bne     t0, t1, next_byte
    j       read_piece

write_counts:
    la      a0, lines_name
    lw      a1, 0(s0)
    call    write_count
    la      a0, words_name
    lw      a1, 0(s1)
    call    write_count
    la      a0, bytes_name
    lw      a1, 0(s2)
    call    write_count
    la      a0, longest_name
    lw      a1, 0(s3)
    call    write_count
    lw      a0, 0(s0)
    li      a7, EXIT
    ecall

failed:
    li      a0, 255
    li      a7, EXIT
    ecall

# Writes eight bytes of name from a0, the number a1 in decimal, and a newline.
write_count:
    la      t0, piece + 31
    sb      s6, 0(t0)
    addi    t1, t0, 1               # the end of the line
    li      t2, 10
digit:
    remu    t3, a1, t2
    divu    a1, a1, t2
    addi    t3, t3, '0'
    addi    t0, t0, -1
    sb      t3, 0(t0)
    bnez    a1, digit
    addi    t3, a0, 8
name_byte:
    addi    t3, t3, -1
    lbu     t4, 0(t3)
    addi    t0, t0, -1
    sb      t4, 0(t0)
    bne     t3, a0, name_byte
    li      a0, 1
    mv      a1, t0
    sub     a2, t1, t0
    li      a7, WRITE
    ecall
    ret

    .section .rodata
lines_name:   .ascii "lines   "
words_name:   .ascii "words   "
bytes_name:   .ascii "bytes   "
longest_name: .ascii "longest "

    .bss
    .balign 4
lines:   .space 4
words:   .space 4
bytes:   .space 4
longest: .space 4
piece:   .space PIECE
