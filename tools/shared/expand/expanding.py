"""One relocatable object: its code stretched, and all that is computed from its labels brought after."""
import dataclasses
from typing import Callable, Iterator

from shared.expand import architecture, distances, frames, guessing, lines, pitches
from shared.expand import instructions as rv
from shared.expand import relocations as rel
from shared.expand.frames import Frames
from shared.expand.objects import COMPRESSED_CODE, FLOAT_ABI, OTHER_ABI, RELOCATABLE, SECTION, Object, Refused, Section, Symbol, header_of
from shared.expand.reading import DATA, Kinds
from shared.expand.stretching import Code

READING = {rv.LOAD, rv.STORE, rv.FLOAT_LOAD, rv.FLOAT_STORE}


@dataclasses.dataclass(frozen=True)
class Expanded:
    """An object that has no compressed code, how many bytes its code had and has, its far branches, and what is to be told."""
    data: bytes
    before: int = 0
    after: int = 0
    far: int = 0
    warning: str = ""


class Expansion:
    """The work on one object. Where `trusted` is set, sections without mapping symbols hold code alone; `linked` is set for a file that was
    linked, whose mapping symbols don't tell of the constants behind its code."""

    def __init__(self, unit: Object, trusted: bool = False, linked: bool = False):
        self.unit, self.trusted, self.linked = unit, trusted, linked
        self.dropped = ""
        self.frames: dict[int, Frames] = {}
        self.refuse_optimized()
        attributes = self.read_architecture()
        unnamed = not attributes.name and bool(unit.header.flags & FLOAT_ABI)
        self.kinds = Kinds(unnamed or architecture.has(attributes.name, "[fg]"), unnamed or architecture.has(attributes.name, "[dg]"))
        self.codes = self.read_codes()

    def refuse_optimized(self):
        for section in self.unit.sections:
            if section.name.startswith(".gnu.lto_"):
                section.refuse(0, "made for link-time optimization: compile without -flto")

    def read_architecture(self) -> architecture.Attributes:
        found = architecture.Attributes(b"")
        for section in self.unit.sections:
            if section.name == ".riscv.attributes":
                found = architecture.Attributes(section.bytes)
                architecture.check(found.name)
                section.bytes = found.bytes
        return found

    def read_codes(self) -> dict[int, Code]:
        symbols = {}
        for symbol in self.unit.symbols:
            symbols.setdefault(symbol.section, []).append(symbol)
        return {k: Code(section, symbols.get(k, []), self.kinds, self.linked and not self.trusted) for k, section in enumerate(self.unit.sections) if section.is_code}

    def label_of(self, each: rel.Relocation) -> tuple[int, int]:
        """The section and the old offset that a relocation names."""
        symbol = self.unit.symbols[each.symbol]
        return symbol.section, symbol.value + each.addend

    def expand(self) -> Expanded:
        self.lay_out()
        if not self.trusted:
            self.check_unmarked()
        self.check_read_as_data()
        self.check_exceptions()
        pitches.check(self.codes, self.label_of)
        relocated = {k: section for k, section in enumerate(self.unit.sections) if section.relocated_by}
        for k, section in relocated.items():
            if k not in self.codes:
                self.of_data(section, self.prepare, k)
        moved = {k: self.of_data(section, self.moved_relocations, k) or [] for k, section in relocated.items()}
        if self.dropped:
            self.drop_debug_data(moved)
        before, after, far = (sum(getattr(code, field) for code in self.codes.values()) for field in ("end", "size", "far_branches"))
        self.replace(moved)
        other = "for another ABI than ilp32, so swic will refuse it still" if self.unit.header.flags & OTHER_ABI else ""
        return Expanded(self.unit.to_bytes(), before, after, far, "; ".join(filter(None, (other, self.dropped))))

    def of_data(self, section: Section, work: Callable, k: int):
        """Does some work on a section. What can't be done with debug data makes all of that be left out."""
        try:
            return work(k, section) if not (self.dropped and section.is_debug) else None
        except Refused as why:
            if not section.is_debug:
                raise
            self.dropped = f"{why}; debug data left out"

    def lay_out(self):
        for k, code in self.codes.items():
            jumps = ((each, *self.label_of(each)) for each in code.section.relocations if each.kind in rel.JUMPS)
            code.aim_linked({each.offset: target for each, section, target in jumps if section == k})
            code.lay_out()

    def check_unmarked(self):
        """Without mapping symbols, what is neither in a function with a size nor reached from one may be data."""
        entries: dict[int, set[int]] = {k: set() for k, code in self.codes.items() if not code.marked}
        if entries:
            for section, offset in self.addresses():
                entries.get(section, set()).add(offset)
        for k, found in entries.items():
            guessing.check(self.codes[k], found)

    def addresses(self) -> Iterator[tuple[int, int]]:
        """The labels to which something jumps, or whose addresses stand in data."""
        for section in self.unit.sections:
            kinds = rel.JUMPS if section.is_code else rel.JUMPS | rel.FIRST_LABELS
            yield from (self.label_of(each) for each in section.relocations if section.is_loaded and each.kind in kinds)

    def check_read_as_data(self):
        """Refuses a label that is read or written where nothing says that data stands there."""
        for k, code in self.codes.items():
            highs = {each.offset: each for each in code.section.relocations if each.kind == rel.PCREL_HI20}
            for each in code.section.relocations:
                if each.kind not in rel.ABSOLUTE_LOW_PARTS | rel.LOW_PARTS or code.at[each.offset].opcode not in READING:
                    continue
                section, offset = self.label_of(each)
                if each.kind in rel.LOW_PARTS:
                    if section != k or offset not in highs:
                        continue
                    section, offset = self.label_of(highs[offset])
                if section in self.codes:
                    self.check_data_at(self.codes[section], offset)

    @staticmethod
    def check_data_at(code: Code, offset: int):
        if code.items[code.index(offset)].kind != DATA:
            code.section.refuse(offset, "read or written as data, but no symbol says that it is")

    def check_exceptions(self):
        for section in self.unit.sections:
            if section.name.startswith(".gcc_except_table") and section.size and not self.made_by_gnu:
                section.refuse(0, "an exception table that is not from GCC and GNU as, so it may have distances without relocations")

    def prepare(self, k: int, section: Section):
        """Checks a section of data, and makes call frames anew."""
        if section.name in frames.NAMES:
            self.frames[k] = Frames(section, self.codes, self.label_of)
            return
        if section.is_debug and not self.made_by_gnu:
            section.refuse(0, "not from GCC and GNU as, so it may have distances without relocations")
        if section.name == ".debug_line":
            lines.check(section)
        distances.check(section, self.codes, self.label_of)

    @property
    def made_by_gnu(self) -> bool:
        """Whether GCC or GNU as made it. The assembler of LLVM computes a distance itself where no instruction between may shrink."""
        if self._gnu is None:
            told = b"".join(self.unit.named(name) for name in (".comment", ".debug_str", ".debug_info"))
            self._gnu = (b"GCC: " in told or b"GNU AS " in told) and b"clang" not in told and b"LLVM" not in told
        return self._gnu

    _gnu: bool | None = None

    def moved_relocations(self, k: int, section: Section) -> list[rel.Relocation]:
        """A section's relocations at their places now, with addends that name what they did."""
        holder = self.codes.get(k) or self.frames.get(k)
        moved = holder.moved_relocations() if holder else section.relocations
        return [each._replace(addend=self.addend_of(section, each)) if each.addend else each for each in moved]

    def addend_of(self, section: Section, each: rel.Relocation) -> int:
        symbol = self.unit.symbols[each.symbol]
        holder = self.codes.get(symbol.section) or self.frames.get(symbol.section)
        if symbol.section == 0 and each.symbol and each.kind in rel.JUMPS:
            section.refuse(each.offset, f"a jump to another file's {symbol.name}{each.addend:+d}")
        if not holder or each.kind in rel.HINTS or each.kind in rel.LOW_PARTS and symbol.kind != SECTION:
            return each.addend
        # Debug data ends a range a byte before the address to which a call returns: 'label - 1'.
        offset = symbol.value + each.addend
        back = int(not section.is_loaded and isinstance(holder, Code) and not holder.is_edge(offset))
        return holder.place_of(offset + back) - back - holder.place_of(symbol.value)

    def drop_debug_data(self, moved: dict[int, list[rel.Relocation]]):
        """Empties the debug sections; their headers stay, so that the numbers of the others do."""
        dropped = {k: section for k, section in enumerate(self.unit.sections) if section.is_debug}
        for k, section in dropped.items():
            section.bytes, moved[k] = b"", []
            self.frames.pop(k, None)
        for symbol in self.unit.symbols:
            if symbol.section in dropped:
                symbol.value = symbol.size = 0

    def replace(self, moved: dict[int, list[rel.Relocation]]):
        """Puts all that is new into the object."""
        for symbol in self.unit.symbols:
            self.replace_symbol(symbol)
        for k, section in enumerate(self.unit.sections):
            section.relocations = moved.get(k, section.relocations)
            if k in self.codes:
                section.bytes, section.align = self.codes[k].to_bytes(), max(section.align, 4)
            elif k in self.frames:
                section.bytes = bytes(self.frames[k].out)
        self.unit.header = self.unit.header._replace(flags=self.unit.header.flags & ~COMPRESSED_CODE)

    def replace_symbol(self, symbol: Symbol):
        if symbol.name.startswith("$xrv"):
            self.unit.rename(symbol, "$x" + architecture.without_compressed(symbol.name[2:]))
        holder = self.codes.get(symbol.section) or self.frames.get(symbol.section)
        if holder:
            place = holder.place_of(symbol.value)
            symbol.size = holder.place_of(symbol.value + symbol.size) - place if symbol.size else 0
            symbol.value = place


def expand_object(data: bytes, trusted: bool = False) -> Expanded:
    """An object without compressed code; one that has none stays as it is."""
    header = header_of(data)
    if header.kind != RELOCATABLE:
        raise Refused("linked already: give the objects and archives that it was linked from, or see --linked")
    if not header.flags & COMPRESSED_CODE:
        return Expanded(data)
    return Expansion(Object(data), trusted).expand()
