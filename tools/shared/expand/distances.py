"""Distances of labels in less than 32 bits: whether there is still room for them, since the linker cuts them off without a word."""
from typing import Callable

from shared.expand import leb128
from shared.expand import relocations as rel
from shared.expand.objects import Section
from shared.expand.stretching import Code


def check(section: Section, codes: dict[int, Code], label_of: Callable[[rel.Relocation], tuple[int, int]]):
    before = None
    for each in section.relocations:
        if (each.kind in rel.NARROW or each.kind == rel.SUB_ULEB128) and label_of(each)[0] in codes:
            if before is None or before.offset != each.offset or label_of(before)[0] != label_of(each)[0]:
                section.refuse(each.offset, f"{rel.name_of(each.kind)} without its first label")
            check_pair(section, codes[label_of(each)[0]], each, label_of(before)[1], label_of(each)[1])
        before = each


def check_pair(section: Section, code: Code, each: rel.Relocation, first: int, second: int):
    was, now = first - second, code.place_of(first) - code.place_of(second)
    room = room_of(section, each, was)
    if not (0 <= now < room or was < 0 and -room <= now < room):
        section.refuse(each.offset, f"the distance of two labels, {was}, is now {now}: no room for it ({rel.name_of(each.kind)})")


def room_of(section: Section, each: rel.Relocation, was: int) -> int:
    """What a distance has to stay below."""
    if each.kind == rel.SUB_ULEB128:
        return 1 << 7 * (leb128.skip(section.bytes, each.offset) - each.offset)
    bits = rel.NARROW[each.kind]
    if section.is_loaded and -(1 << bits - 1) <= was < 1 << bits - 1:
        bits -= 1  # perhaps read with a sign
    return 1 << bits
