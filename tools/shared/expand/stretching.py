"""Where the items of a section of code stand once each instruction has 32 bits."""
import bisect

from shared.expand import instructions as rv
from shared.expand import relocations as rel
from shared.expand.objects import SECTION, Section, Symbol
from shared.expand.reading import DATA, INSTRUCTION, PADDING, Kinds, Reader


class Code:
    """A section of code, its items, and where each offset of it is now."""

    def __init__(self, section: Section, symbols: list[Symbol], kinds: Kinds, linked: bool = False):
        reader = Reader(section, symbols, kinds, linked)
        self.section, self.symbols, self.marked = section, symbols, reader.marked
        self.items, self.end = reader.read(), len(section.bytes)
        self.offsets = [item.offset for item in self.items]
        self.at = {item.offset: item for item in self.items}
        self.size = 0
        self.relaxed = any(each.kind == rel.ALIGN for each in section.relocations)
        self.alignments = self.kept_alignments()

    def kept_alignments(self) -> dict[int, int]:
        """The alignments that no ALIGN tells. Where a section is aligned to more than 4 and has none, a label, or what stands behind
        nops, keeps the alignment that it has."""
        if self.section.align <= 4 or self.relaxed:
            return {}
        labels = {symbol.value for symbol in self.symbols if symbol.kind != SECTION}
        found = {}
        for before, item in zip(self.items, self.items[1:]):
            if item.kind == INSTRUCTION and item.offset % 8 == 0 and (item.offset in labels or before.word == rv.NOP):
                found[item.offset] = min(item.offset & -item.offset, self.section.align)
        return found

    @property
    def far_branches(self) -> int:
        return sum(item.far for item in self.items)

    def index(self, offset: int) -> int:
        return max(bisect.bisect_right(self.offsets, offset) - 1, 0)

    def aim_linked(self, targets: dict[int, int]):
        """Tells of branches and jumps with relocations where they go in this section, by their offsets."""
        for offset, target in targets.items():
            item = self.at.get(offset)
            if item and item.kind == INSTRUCTION and item.opcode in (rv.BRANCH, rv.JAL):
                item.target = target

    def lay_out(self):
        """Places the items, until no branch is out of its reach."""
        jumping = [item for item in self.items if item.target is not None and item.opcode in (rv.BRANCH, rv.JAL)]
        grown = True
        while grown:
            self.place_items()
            grown = False
            for item in jumping:
                far = self.place_of(item.target) - item.place
                if item.opcode == rv.BRANCH and not item.far and not -rv.BRANCH_REACH <= far < rv.BRANCH_REACH:
                    item.far = grown = True
                elif (item.opcode == rv.JAL or item.far) and not -rv.JUMP_REACH <= far - 4 * item.far < rv.JUMP_REACH:
                    self.section.refuse(item.offset, f"the jump to {item.target:x} reaches no longer")

    def place_items(self):
        at = 0
        for k, item in enumerate(self.items):
            if item.kind == PADDING:
                item.lead, item.place = -at % 4, at
                at += item.lead + max(rel.alignment(item.size) - 4, 0)
            elif item.kind == DATA:
                at += self.before_data(item.offset, at)
                item.place = at
                at += item.size
                if at % 4 and k + 1 < len(self.items) and self.items[k + 1].kind == INSTRUCTION:
                    self.section.refuse(item.offset, f"code behind {item.size} bytes of data")
            else:
                at += -at % self.alignments.get(item.offset, 4)
                item.place = at
                at += 8 if item.far else 4
        self.size = at

    def before_data(self, offset: int, at: int) -> int:
        """The bytes before data, by which it stays aligned as it was."""
        kept = 4 if self.relaxed else max(self.section.align, 4)
        return (offset - at) % kept if offset % 4 == 0 else 0

    def place_of(self, offset: int) -> int:
        """The offset now of an old one."""
        item = self.at.get(offset)
        if item:
            return item.place
        if offset == self.end:
            return self.size
        if not 0 <= offset < self.end:
            self.section.refuse(max(offset, 0), "an address outside the section")
        item = self.items[self.index(offset)]
        if item.kind != DATA:
            self.section.refuse(offset, "an address inside an instruction")
        return item.place + offset - item.offset

    def is_edge(self, offset: int) -> bool:
        """Whether an offset is an instruction's beginning or end, or stands in data."""
        return offset == self.end or offset in self.at or 0 <= offset < self.end and self.items[self.index(offset)].kind == DATA

    def to_bytes(self) -> bytes:
        out = bytearray()
        for item in self.items:
            while len(out) < item.place:
                out += rv.NOP.to_bytes(4, "little")
            if item.kind == INSTRUCTION:
                out += b"".join(word.to_bytes(4, "little") for word in self.words_of(item))
            elif item.kind == DATA:
                out += self.section.bytes[item.offset:item.offset + item.size]
            else:
                out += bytes(item.lead) + rv.NOP.to_bytes(4, "little") * (max(rel.alignment(item.size) - 4, 0) // 4)
        return bytes(out)

    def words_of(self, item) -> list[int]:
        """An instruction's word, aimed at where its target is now; of a branch that is too far two."""
        if item.far:
            jump = rv.JAL if item.linked else rv.JAL | rv.jump_immediate(self.place_of(item.target) - item.place - 4)
            return [item.word & ~rv.BRANCH_BITS ^ rv.INVERT | rv.branch_immediate(8), jump]
        if item.high:
            return [item.word & 0xFFFFF | (self.place_of(item.high.target) - item.high.place & 0xFFF) << 20]
        if item.target is None or item.linked:
            return [item.word]
        distance = self.place_of(item.target) - item.place
        if item.opcode == rv.BRANCH:
            return [item.word & ~rv.BRANCH_BITS | rv.branch_immediate(distance)]
        if item.opcode == rv.JAL:
            return [item.word & ~rv.JUMP_BITS | rv.jump_immediate(distance)]
        return [item.word & 0xFFF | distance + 0x800 & 0xFFFFF000]

    def moved_relocations(self) -> list[rel.Relocation]:
        """The relocations at their places now, of the kind that the instruction has now; what they name stays."""
        return [moved for each in self.section.relocations if each.kind != rel.NONE and (moved := self.moved(each))]

    def moved(self, each: rel.Relocation) -> rel.Relocation | None:
        item = self.at.get(each.offset)
        place = self.place_of(each.offset)
        if each.kind == rel.ALIGN:
            align = rel.alignment(each.addend)
            return each._replace(offset=place + item.lead, addend=align - 4) if align > 4 else None
        kind = rel.UNCOMPRESSED.get(each.kind, each.kind)
        if item and item.far and kind == rel.BRANCH:
            return each._replace(offset=place + 4, kind=rel.JAL)
        return each._replace(offset=place, kind=kind)
