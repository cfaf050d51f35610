"""Code of fixed pitch, as entries of 16 bytes each whose addresses are computed: where it grows it is refused, as far as the object shows it."""
from typing import Callable

from shared.expand import instructions as rv
from shared.expand import relocations as rel
from shared.expand.objects import FUNCTION
from shared.expand.reading import DATA, INSTRUCTION, PADDING, Item
from shared.expand.stretching import Code

ENTRIES = 4  # places at one distance from which on alignments are a pitch
Label = tuple[int, int]  # a section of code, and an old offset in it
LOADED = (-1, 0)  # of a register that was loaded, as from a table of distances, which have relocations


def check(codes: dict[int, Code], label_of: Callable[[rel.Relocation], Label]):
    for k, code in codes.items():
        check_alignments(code)
        Jumps(codes, k, label_of).check()


def linked_places(code: Code) -> list[tuple[int, int]]:
    """Of each item where it stood and where it stands once a linker has made each alignment's padding as short as it may be."""
    was = now = 0
    found = []
    for item in code.items:
        if item.kind == PADDING:
            size = rel.alignment(item.size)
            was, now = was + -was % size, now + -now % size
        found.append((was, now))
        if item.kind != PADDING:
            was, now = was + item.size, now + (item.size if item.kind == DATA else 8 if item.far else 4)
    return found


def check_alignments(code: Code):
    """Refuses places behind alignments that stood at one distance, and don't now, unless functions begin there."""
    functions = {symbol.value for symbol in code.symbols if symbol.kind == FUNCTION}
    linked = linked_places(code)
    places = [(item, *linked[k + 1]) for k, (before, item) in enumerate(zip(code.items, code.items[1:]))
              if before.kind == PADDING and item.kind == INSTRUCTION and item.offset not in functions]
    for first in range(len(places) - ENTRIES + 1):
        run = places[first:first + ENTRIES]
        was, now = ({after[k] - before[k] for before, after in zip(run, run[1:])} for k in (1, 2))
        if len(was) == 1 and now != was:
            code.section.refuse(run[0][0].offset, f"code of fixed pitch: places at distances of {was.pop()} are now at {', '.join(map(str, sorted(now)))}")


class Jumps:
    """Follows labels through the registers of straight code, up to a jump to the sum of one and something that isn't loaded."""

    def __init__(self, codes: dict[int, Code], section: int, label_of: Callable[[rel.Relocation], Label]):
        self.codes, self.section, self.code, self.label_of = codes, section, codes[section], label_of
        self.highs = {each.offset: each for each in self.code.section.relocations if each.kind in (rel.PCREL_HI20, rel.HI20)}
        self.entered = {item.target for item in self.code.items if item.target is not None and item.opcode != rv.AUIPC}
        self.labels: dict[int, Label] = {}  # by the register
        self.sums: dict[int, Label] = {}

    def check(self):
        for item in self.code.items:
            if item.kind != INSTRUCTION or item.offset in self.entered:
                self.labels, self.sums = {}, {}
            if item.kind == INSTRUCTION:
                self.follow(item)

    def follow(self, item: Item):
        word, destination, source = item.word, item.word >> 7 & 31, item.word >> 15 & 31
        if item.opcode == rv.JALR and source in self.sums:
            self.check_target(item, self.sums[source])
        label, total = self.value_of(item, word, source)
        if item.opcode in (rv.JAL, rv.JALR):
            self.labels, self.sums = {}, {}
        elif item.opcode not in (rv.BRANCH, rv.STORE):
            for held, value in (self.labels, label), (self.sums, total):
                held.pop(destination, None)
                if value and destination:
                    held[destination] = value

    def value_of(self, item: Item, word: int, source: int) -> tuple[Label | None, Label | None]:
        """The label that an instruction writes to its register, and the label to which it adds."""
        if item.offset in self.highs:
            section, offset = self.label_of(self.highs[item.offset])
            return ((section, offset), None) if section in self.codes else (None, None)
        if item.opcode == rv.AUIPC and item.target is not None:
            return (self.section, item.target), None
        if item.opcode == rv.LOAD:
            return LOADED, None
        if item.opcode == rv.IMMEDIATE and not word >> 12 & 7:
            return self.labels.get(source), self.sums.get(source)
        if item.opcode == rv.REGISTER and word >> 25 in (0, 16) and word >> 12 & 7 in ((0,) if not word >> 25 else (2, 4, 6)):
            return self.sum_of(source, word >> 20 & 31)
        return None, None

    def sum_of(self, first: int, second: int) -> tuple[Label | None, Label | None]:
        """Of an addition; that of x0 copies."""
        if 0 in (first, second):
            return self.labels.get(first or second), self.sums.get(first or second)
        added = [self.labels.get(each) or self.sums.get(each) for each in (first, second)]
        if LOADED in added:
            return LOADED, None
        return None, next(filter(None, added), None)

    def check_target(self, item: Item, label: Label):
        """Refuses where the code from the label up to its symbol's end, or the next function, grows; where it has alignments, at these."""
        section, offset = label
        code = self.codes[section]
        ends = [symbol.value + symbol.size for symbol in code.symbols if symbol.value == offset and symbol.size]
        ends += [symbol.value for symbol in code.symbols if symbol.value > offset and symbol.kind == FUNCTION]
        inside = range(code.index(offset), code.index(min(ends, default=code.end) - 1) + 1)
        linked = linked_places(code)
        entries = [k for k in inside[1:] if code.items[k - 1].kind == PADDING]
        moved = any(linked[k][0] - linked[inside[0]][0] != linked[k][1] - linked[inside[0]][1] for k in entries)
        if moved or not entries and any(code.items[k].kind == INSTRUCTION and code.items[k].size == 2 for k in inside):
            self.code.section.refuse(item.offset, f"a jump to an address computed from {offset:x} of {code.section.name}, where the code grows: is it of fixed pitch?")
