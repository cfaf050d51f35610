"""What stands in a section of code: instructions, padding and data, each with the offset where it stood."""
import bisect
import dataclasses

from shared.expand import instructions as rv
from shared.expand import relocations as rel
from shared.expand.objects import NOTYPE, OBJECT, Section, Symbol

INSTRUCTION, PADDING, DATA = range(3)
FILLED = 16  # bytes up to which a linker script is thought to fill up its section of code


@dataclasses.dataclass(slots=True)
class Item:
    """An instruction as the word of 32 bits that it becomes, the padding of an alignment, or data, which stays as it is."""
    offset: int
    size: int
    kind: int
    word: int = 0
    target: int | None = None  # of a branch, a jump or an auipc: the offset to which it goes in this section
    linked: bool = False  # a relocation fills in the address
    high: "Item | None" = None  # of the instruction that ends the address of an auipc: the auipc
    place: int = 0  # its offset now
    lead: int = 0  # of padding: the bytes that fill up a word of data before it
    far: bool = False  # a branch that has become its inverse over a jump

    @property
    def opcode(self) -> int:
        return self.word & 0x7F


@dataclasses.dataclass(slots=True)
class Span:
    """Bytes that are all code or all data."""
    begin: int
    end: int
    is_data: bool


@dataclasses.dataclass(frozen=True)
class Kinds:
    """Which loads and stores of floats have compressed forms."""
    single: bool = False
    double: bool = False


def mapping_symbol(symbol: Symbol) -> str:
    """Whether a symbol says that code (x) or data (d) begins; else nothing."""
    if symbol.kind != NOTYPE or symbol.name[:2] not in ("$x", "$d"):
        return ""
    rest = symbol.name[2:]
    return symbol.name[1] if not rest or rest[0] == "." or symbol.name.startswith("$xrv") else ""


def spans_of(section: Section, symbols: list[Symbol]) -> tuple[list[Span], bool]:
    """What is code and what is data by the mapping symbols, and whether there are any; else all is code but sized objects."""
    marks = {symbol.value: kind == "d" for symbol in symbols if (kind := mapping_symbol(symbol))}
    if not marks:
        return without_objects([Span(0, section.size, False)], section, symbols), False
    if 0 not in marks:
        section.refuse(0, "no mapping symbol at the beginning")
    begins = sorted(marks)
    ends = [*begins[1:], section.size]
    return [Span(begin, end, marks[begin]) for begin, end in zip(begins, ends) if begin < end], True


def without_objects(spans: list[Span], section: Section, symbols: list[Symbol]) -> list[Span]:
    """The spans, in which the sized objects are data."""
    objects = sorted({(symbol.value, symbol.value + symbol.size) for symbol in symbols if symbol.kind == OBJECT and symbol.size})
    for (_, end), (begin, _) in zip(objects, objects[1:]):
        if begin < end:
            section.refuse(begin, "data objects overlap")
    found = []
    for span in spans:
        at = span.begin
        for begin, end in objects if not span.is_data else ():
            if at <= begin and end <= span.end:
                found += [Span(at, begin, False), Span(begin, end, True)]
                at = end
        found.append(Span(at, span.end, span.is_data))
    return [span for span in found if span.begin < span.end]


class Reader:
    """Reads a section's items one by one."""

    def __init__(self, section: Section, symbols: list[Symbol], kinds: Kinds, linked: bool):
        self.section, self.body, self.kinds, self.linked = section, section.bytes, kinds, linked
        self.spans, self.marked = spans_of(section, symbols)
        self.begins = {span.begin for span in self.spans}
        if linked:  # with constants behind the code, for which there are no mapping symbols
            self.spans, self.marked = without_objects(self.spans, section, symbols), False
        self.relocations: dict[int, list[rel.Relocation]] = {}
        for each in section.relocations:
            self.relocations.setdefault(each.offset, []).append(each)
        self.paddings = {each.offset: each.addend for each in section.relocations if each.kind == rel.ALIGN and each.addend > 0}
        self.starts = sorted(self.paddings)
        self.items: list[Item] = []

    def read(self) -> list[Item]:
        for span in self.spans:
            self.read_span(span)
        self.check_places()
        return self.items

    def read_span(self, span: Span):
        at = max(span.begin, self.items[-1].offset + self.items[-1].size if self.items else 0)
        while at < span.end:
            if at in self.paddings:
                item = self.padding(at)
            elif span.is_data:
                next_padding = self.starts[bisect.bisect_right(self.starts, at):][:1]
                item = Item(at, min([span.end, *next_padding]) - at, DATA)
            else:
                item = self.instruction(at, span.end)
            self.items.append(item)
            at += item.size

    def padding(self, at: int) -> Item:
        if at + self.paddings[at] > len(self.body):
            self.section.refuse(at, "alignment reaches over the end")
        return Item(at, self.paddings[at], PADDING)

    def instruction(self, at: int, end: int) -> Item:
        if at + 2 > end:
            self.section.refuse(at, "half an instruction")
        half = self.body[at] | self.body[at + 1] << 8
        item = self.compressed(at, half) if half & 3 != 3 else self.uncompressed(at, half, end)
        before = self.items[-1] if self.items else None
        if before and before.target is not None and before.opcode == rv.AUIPC and before.kind == INSTRUCTION:
            item.high = before
        self.relocate(item)
        return item

    def compressed(self, at: int, half: int) -> Item:
        if half == 0:
            if filled := self.filled(at):
                at_end = at + filled == len(self.body)  # where constants of a linked file may stand, too
                return Item(at, filled, DATA if self.linked and at_end else INSTRUCTION, rv.UNIMP)
            if self.marked:
                return Item(at, 2, INSTRUCTION, rv.UNIMP)  # c.unimp
        word = rv.expand(half, self.kinds.single, self.kinds.double)
        if word is None:
            self.section.refuse(at, f"{half:04x} is no compressed instruction of RV32C{self.unmarked()}")
        return Item(at, 2, INSTRUCTION, word & 0xFFFFFFFF)

    def filled(self, at: int) -> int:
        """How many zeros fill up the section from here on; in a linked one also up to where the code of another object begins."""
        zeros = len(self.body) - at - len(self.body[at:].lstrip(b"\0"))
        end = at + zeros
        if end == len(self.body):
            return zeros if zeros < (FILLED if self.linked else self.section.align) else 0
        return zeros if self.linked and end in self.begins and zeros < min(end & -end, self.section.align) else 0

    def uncompressed(self, at: int, half: int, end: int) -> Item:
        if half & 0x1C == 0x1C or at + 4 > end:
            self.section.refuse(at, f"{half:04x} begins no 32-bit instruction{self.unmarked()}")
        word = int.from_bytes(self.body[at:at + 4], "little")
        if not self.marked and word & 0x7F not in rv.STANDARD:
            self.section.refuse(at, f"{word:08x} is no standard instruction{self.unmarked()}")
        return Item(at, 4, INSTRUCTION, word)

    def unmarked(self) -> str:
        return "" if self.marked else ", and no mapping symbol says whether it is data"

    def relocate(self, item: Item):
        """Takes out of a word what a relocation fills in; without one notes where it goes."""
        for each in self.relocations.get(item.offset, ()):
            if each.kind not in rel.HINTS:
                self.check_instruction(item, each.kind)
                item.linked = True
        if not item.linked:
            self.aim(item)
        elif item.opcode == rv.BRANCH:
            item.word &= ~rv.BRANCH_BITS
        elif item.opcode == rv.JAL:
            item.word &= ~rv.JUMP_BITS

    def check_instruction(self, item: Item, kind: int):
        if kind in rel.IN_DATA:
            self.section.refuse(item.offset, f"relocation {rel.name_of(kind)}, so data, where code was read")
        if kind not in rel.AT:
            self.section.refuse(item.offset, f"relocation {rel.name_of(kind)} in code")
        if item.opcode not in rel.AT[kind] or item.size != (2 if kind in rel.UNCOMPRESSED else 4):
            self.section.refuse(item.offset, f"relocation {rel.name_of(kind)} at another instruction")

    def aim(self, item: Item):
        if item.opcode == rv.BRANCH:
            item.target = item.offset + rv.branch_offset(item.word)
        elif item.opcode == rv.JAL:
            item.target = item.offset + rv.jump_offset(item.word)
        elif item.opcode == rv.AUIPC:
            item.target = self.target_of_pair(item)

    def target_of_pair(self, item: Item) -> int:
        """Where an auipc goes whose address the assembler has computed: the next instruction has to end it."""
        after, register = item.offset + 4, item.word >> 7 & 31
        low = int.from_bytes(self.body[after:after + 4], "little")
        destination, form = low >> 7 & 31, low & 0x707F
        ends = form == rv.JALR and destination in (0, register) or form == rv.IMMEDIATE and destination == register
        if after + 4 > len(self.body) or after in self.relocations or low >> 15 & 31 != register or not ends:
            self.section.refuse(item.offset, "auipc without a relocation, and no jalr or addi behind it that ends its address")
        return item.offset + rv.signed(item.word & 0xFFFFF000, 32) + rv.signed(low >> 20, 12)

    def check_places(self):
        """Each relocation stands at an instruction's beginning, or is one of data, in data."""
        begins = {item.offset: item for item in self.items if item.kind != DATA}
        data = [item for item in self.items if item.kind == DATA]
        for each in self.section.relocations:
            if each.offset in begins or each.kind in rel.HINTS:
                continue
            if not any(item.offset <= each.offset < item.offset + item.size for item in data):
                self.section.refuse(each.offset, f"relocation {rel.name_of(each.kind)} inside an instruction")
            if each.kind not in rel.IN_DATA:
                self.section.refuse(each.offset, f"relocation {rel.name_of(each.kind)} in data")
