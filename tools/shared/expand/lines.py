"""Line tables (.debug_line). GNU as advances their addresses by relocations alone, so they follow the code by themselves."""
import struct

from shared.expand import leb128
from shared.expand.objects import Section

EXTENDED, ADVANCE_PC, CONST_ADD_PC, FIXED_ADVANCE_PC = 0, 2, 8, 9


def check(section: Section):
    """Refuses a table that advances its address by constants."""
    at = 0
    try:
        while at + 4 <= len(section.bytes):
            at = check_table(section, at)
    except (IndexError, struct.error):
        section.refuse(at, "a line table that is damaged")


def check_table(section: Section, at: int) -> int:
    """Checks the table of one unit, and tells where the next begins."""
    data = section.bytes
    size, version = struct.unpack_from("<IH", data, at)
    if size >= 0xFFFFFFF0 or not 2 <= version <= 5 or at + 4 + size > len(data):
        section.refuse(at, "a line table of unknown form")
    header = at + 6 + (2 if version >= 5 else 0)  # behind the sizes of addresses
    begin = header + 4 + struct.unpack_from("<I", data, header)[0]
    # behind the length of an instruction, the operations of one from version 4 on, and whether a line begins a statement
    base = header + 4 + (2 if version >= 4 else 1) + 1
    line_range, first_special = data[base + 1], data[base + 2]
    lengths = data[base + 3:base + 2 + first_special]
    check_program(section, begin, at + 4 + size, line_range, lengths)
    return at + 4 + size


def check_program(section: Section, at: int, end: int, line_range: int, lengths: bytes):
    data = section.bytes
    while at < end:
        opcode, begin = data[at], at
        at += 1
        advance = 0
        if opcode > len(lengths):
            advance = (opcode - len(lengths) - 1) // line_range
        elif opcode == EXTENDED:
            size, at = leb128.unsigned(data, at)
            at += size
        elif opcode == FIXED_ADVANCE_PC:
            at += 2
        elif opcode == ADVANCE_PC:
            advance, at = leb128.unsigned(data, at)
        else:
            advance = opcode == CONST_ADD_PC
            at = leb128.skip(data, at, lengths[opcode - 1])
        if advance:
            section.refuse(begin, "the address of a line without a relocation")
