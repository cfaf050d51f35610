"""Call frames (.debug_frame and .eh_frame), whose distances follow the code and get wider where they have to."""
import bisect
import dataclasses
import struct
from typing import Callable

from shared.expand import leb128
from shared.expand import relocations as rel
from shared.expand.objects import Section
from shared.expand.stretching import Code

NAMES = (".debug_frame", ".eh_frame")
SHORT_ADVANCE, RESTORE = 0x40, 0xC0  # DW_CFA instructions of two bits; the third has one number behind it
ADVANCES = {2: 1, 3: 2, 4: 4}  # DW_CFA_advance_loc1, _loc2 and _loc4: the bytes of their distance
OPCODES = {width: opcode for opcode, width in ADVANCES.items()}
# How many LEB128 numbers stand behind the others, and whether the last is the length of a block.
OPERANDS = {0x00: (0, False), 0x05: (2, False), 0x06: (1, False), 0x07: (1, False), 0x08: (1, False), 0x09: (2, False), 0x0A: (0, False),
            0x0B: (0, False), 0x0C: (2, False), 0x0D: (1, False), 0x0E: (1, False), 0x0F: (1, True), 0x10: (2, True), 0x11: (2, False),
            0x12: (2, False), 0x13: (1, False), 0x14: (2, False), 0x15: (2, False), 0x16: (2, True), 0x2D: (0, False), 0x2E: (1, False), 0x2F: (2, False)}
WIDENED = {width: (rel.NUMBERS[f"SET{8 * width}"], rel.NUMBERS[f"SUB{8 * width}"]) for width in OPCODES}
FIRSTS = rel.numbers("SET6 SET8 SET16 SET32 ADD8 ADD16 ADD32")
SECONDS = rel.numbers("SUB6 SUB8 SUB16 SUB32")


@dataclasses.dataclass(frozen=True)
class Common:
    """What a common information entry says of its functions: what an advance is counted in, and whether they have augmentation data."""
    factor: int
    augmented: bool


@dataclasses.dataclass
class Location:
    """The place in the code that an entry's instructions have come to."""
    code: Code
    offset: int


class Frames:
    """The section with its entries made anew; place_of tells where each offset is now."""

    def __init__(self, section: Section, codes: dict[int, Code], label_of: Callable[[rel.Relocation], tuple[int, int]]):
        self.section, self.body, self.codes, self.label_of = section, section.bytes, codes, label_of
        self.relocated: dict[int, list[rel.Relocation]] = {}
        for each in section.relocations:
            if each.kind not in rel.HINTS:
                self.relocated.setdefault(each.offset, []).append(each)
        self.commons: dict[int, Common] = {}
        self.widths: dict[int, int] = {}  # of the distances that got wider, by their old offsets
        self.old: list[int] = []  # where what follows has moved by another distance than what stands before
        self.new: list[int] = []
        self.out = bytearray()
        at = 0
        try:
            while at < len(self.body):
                at = self.copy_entry(at)
        except (IndexError, struct.error):
            section.refuse(at, "call frames that are damaged")

    def here(self, offset: int):
        """An old offset is now where the output has come to."""
        if not self.old or len(self.out) - offset != self.new[-1] - self.old[-1]:
            self.old.append(offset)
            self.new.append(len(self.out))

    def place_of(self, offset: int) -> int:
        k = bisect.bisect_right(self.old, offset) - 1
        return offset + self.new[k] - self.old[k] if self.old else offset

    def copy(self, begin: int, end: int):
        self.here(begin)
        self.out += self.body[begin:end]

    def word(self, at: int) -> int:
        return struct.unpack_from("<I", self.body, at)[0]

    def copy_entry(self, at: int) -> int:
        """Copies an entry, and tells where the next begins."""
        end, start = at + 4 + self.word(at), len(self.out)
        if end - at - 4 >= 0xFFFFFFF0 or end > len(self.body):
            self.section.refuse(at, "call frames of unknown form")
        if end == at + 4:
            self.copy(at, end)
            return end
        if self.is_common(at):
            self.commons[at] = self.read_common(at + 8)
            self.copy(at, end)
        else:
            self.copy_function(at, end)
        self.out += bytes(-(len(self.out) - start) % 4)  # DW_CFA_nop
        struct.pack_into("<I", self.out, start, len(self.out) - start - 4)
        return end

    def is_common(self, at: int) -> bool:
        word = self.word(at + 4)
        return word == 0xFFFFFFFF if self.section.is_debug else word == 0 and at + 4 not in self.relocated

    def read_common(self, at: int) -> Common:
        version, zero = self.body[at], self.body.index(0, at + 1)
        augmentation = self.body[at + 1:zero].decode("latin-1")
        at = zero + 1 + (2 if version >= 4 else 0)
        factor, at = leb128.unsigned(self.body, at)
        at = leb128.skip(self.body, at)
        at = at + 1 if version == 1 else leb128.skip(self.body, at)
        if augmentation.startswith("z"):
            self.check_pointers(augmentation, leb128.skip(self.body, at))
        elif augmentation:
            self.section.refuse(at, f"call frames of unknown form {augmentation}")
        return Common(factor, bool(augmentation))

    def check_pointers(self, augmentation: str, at: int):
        """Sees that addresses of code have four bytes."""
        for letter in augmentation[1:]:
            if letter == "R" and self.body[at] & 0x0F not in (0, 3, 11) or letter not in "RLPSB":
                self.section.refuse(at, f"call frames of unknown form {augmentation}")
            at += {"R": 1, "L": 1, "P": 5}.get(letter, 0)

    def common_of(self, at: int) -> int:
        """The offset of the common entry that a function's entry names."""
        if at + 4 in self.relocated:
            return self.label_of(self.relocated[at + 4][0])[1]
        return self.word(at + 4) if self.section.is_debug else at + 4 - self.word(at + 4)

    def copy_function(self, at: int, end: int):
        common_at = self.common_of(at)
        if common_at not in self.commons:
            self.section.refuse(at, "call frames of a function, without the common ones that they name")
        start, common = len(self.out), self.commons[common_at]
        self.copy(at, at + 16)
        if at + 4 not in self.relocated:
            place = self.place_of(common_at)
            struct.pack_into("<I", self.out, start + 4, place if self.section.is_debug else start + 4 - place)
        location = self.location_of(at + 8)
        if location is None:
            return self.copy(at + 16, end)
        if at + 12 not in self.relocated:
            struct.pack_into("<I", self.out, start + 12, self.distance(location, location.offset + self.word(at + 12)))
        instructions = at + 16
        if common.augmented:
            length, instructions = leb128.unsigned(self.body, instructions)
            instructions += length
        self.copy(at + 16, instructions)
        self.copy_instructions(instructions, end, common.factor, location)

    def location_of(self, at: int) -> Location | None:
        """Where a function begins; None where its code stays as it is, or was left out by a linker, which takes away the relocation too."""
        labels = [self.label_of(each) for each in self.relocated.get(at, ()) if each.kind in rel.FIRST_LABELS]
        return Location(self.codes[labels[0][0]], labels[0][1]) if labels and labels[0][0] in self.codes else None

    def distance(self, location: Location, to: int) -> int:
        return location.code.place_of(to) - location.code.place_of(location.offset)

    def copy_instructions(self, at: int, end: int, factor: int, location: Location):
        while at < end:
            opcode = self.body[at]
            if opcode & 0xC0 == SHORT_ADVANCE or opcode in ADVANCES:
                at = self.copy_advance(at, factor, location)
            elif not opcode and not any(self.body[at:end]):
                return  # the last nops, which fill the entry up
            else:
                after = self.behind(at)
                self.copy(at, after)
                at = after

    def behind(self, at: int) -> int:
        """The offset behind an instruction that is no advance."""
        opcode = self.body[at]
        if opcode & 0xC0:
            return at + 1 if opcode & 0xC0 == RESTORE else leb128.skip(self.body, at + 1)
        if opcode not in OPERANDS:
            self.section.refuse(at, f"instruction {opcode:02x} of call frames")
        count, block = OPERANDS[opcode]
        if not block:
            return leb128.skip(self.body, at + 1, count)
        length, at = leb128.unsigned(self.body, leb128.skip(self.body, at + 1, count - 1))
        return at + length

    def copy_advance(self, at: int, factor: int, location: Location) -> int:
        """Copies an advance of the location, as wide as its distance wants now, or was."""
        width = ADVANCES.get(self.body[at], 0)
        operand = at + 1 if width else at
        value = int.from_bytes(self.body[operand:operand + width], "little") if width else self.body[at] & 0x3F
        pair = self.relocated.get(operand)
        if pair:
            after, distance = self.distance_of(pair, operand, factor)
        else:
            after = location.offset + value * factor
            value = distance = self.distance(location, after) // factor
        location.offset = after
        wanted = max(width, self.width_of(at, distance))
        if wanted > width:
            self.widths[operand] = wanted
            value = 0 if pair else value  # the linker fills it in
        self.here(at)
        self.out.append(OPCODES[wanted] if wanted else SHORT_ADVANCE | value)
        if wanted:
            self.here(operand)
            self.out += value.to_bytes(wanted, "little")
        return operand + max(width, 1)

    def width_of(self, at: int, distance: int) -> int:
        """The bytes that a distance wants, or 0 where the instruction itself has room for it."""
        for width, bits in ((0, 6), (1, 8), (2, 16), (4, 32)):
            if 0 <= distance < 1 << bits:
                return width
        self.section.refuse(at, "an advance to an address before")

    def distance_of(self, pair: list[rel.Relocation], at: int, factor: int) -> tuple[int, int]:
        """The offset to which an advance comes by its relocations, and the distance that it has now."""
        if len(pair) != 2 or pair[0].kind not in FIRSTS or pair[1].kind not in SECONDS or factor != 1:
            self.section.refuse(at, "an advance of call frames of unknown form")
        (section, after), (other, before) = self.label_of(pair[0]), self.label_of(pair[1])
        if section != other:
            self.section.refuse(at, "an advance of call frames into another section")
        code = self.codes.get(section)
        return after, code.place_of(after) - code.place_of(before) if code else after - before

    def moved_relocations(self) -> list[rel.Relocation]:
        return [self.moved(each) for each in self.section.relocations]

    def moved(self, each: rel.Relocation) -> rel.Relocation:
        width = self.widths.get(each.offset)
        if width and each.kind in FIRSTS | SECONDS:
            each = each._replace(kind=WIDENED[width][each.kind in SECONDS])
        return each._replace(offset=self.place_of(each.offset))
