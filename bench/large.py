#!/usr/bin/env python3
"""Writes an ELF file whose text is large, for bench/run.

large.py mixed WORDS FILE   a text of so many words: sums, loads, stores, branches and calls in turn
large.py passes FILE        262144 sums and a jump back to the first: with 250000 slots of 3 words each block
                            that comes evicts another, and nearly every exit is linked
"""
import struct
import sys

BASE = 0x10000
# addi a0, a0, 1; lw a1, 0(sp); sw a1, 4(sp); beq a0, a1, +8; auipc a2, 0; jal ra, +8; add a3, a0, a1; jalr zero, 0(ra)
MIXED = (0x00150513, 0x00012583, 0x00B12223, 0x00B50463, 0x00000617, 0x008000EF, 0x00B506B3, 0x00008067)


def jump_back(distance):
    """JAL x0 by -distance bytes."""
    offset = -distance & 0x1FFFFF
    fields = (offset >> 20 & 1) << 31 | (offset >> 1 & 0x3FF) << 21 | (offset >> 11 & 1) << 20 | (offset >> 12 & 0xFF) << 12
    return fields | 0x6F


def elf(words):
    text = struct.pack(f"<{len(words)}I", *words)
    header = b"\x7fELF\x01\x01\x01" + bytes(9)
    header += struct.pack("<HHIIIIIHHHHHH", 2, 243, 1, BASE, 52, 0, 0, 52, 32, 1, 0, 0, 0)
    program = struct.pack("<8I", 1, 84, BASE, BASE, len(text), len(text), 5, 4)
    return header + program + text


def main(arguments):
    if arguments[0] == "mixed":
        count = int(arguments[1])
        words = [MIXED[k % len(MIXED)] for k in range(count)]
    else:
        count = 262144
        words = [0x00150513] * count + [jump_back(4 * count)]
    with open(arguments[-1], "wb") as file:
        file.write(elf(words))


main(sys.argv[1:])
