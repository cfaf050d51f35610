"""A linked file that kept its relocations (-Wl,--emit-relocs): an object once more, and a linker script by which it is linked anew.

Its sections stay where they were, or stand behind the code where that has grown over their places."""
import dataclasses
import struct

from shared.expand import relocations as rel
from shared.expand.expanding import Expanded, Expansion
from shared.expand.objects import ABSOLUTE, COMPRESSED_CODE, EXECUTABLE, LOCAL, RELOCATABLE, SPECIAL, THREAD_LOCAL, Object, Refused, Section

LOADED, DYNAMIC, INTERPRETER = 1, 2, 3  # types of segments
THREAD_LOCAL_DATA = 0x400  # a flag of sections
TO_GLOBAL_POINTER, GLOBAL_POINTER = rel.numbers("GPREL_I GPREL_S"), 3
SUMS = {rel.NUMBERS[name + str(8 * width)]: (sign, width) for name, sign in (("ADD", 1), ("SUB", -1)) for width in (1, 2, 4, 8)}
PAGE = 4096


@dataclasses.dataclass(frozen=True)
class Segment:
    """A program header."""
    kind: int
    offset: int
    address: int
    load_address: int
    held: int
    size: int
    flags: int
    align: int

    def holds(self, section: Section) -> bool:
        return self.address <= section.address and section.address + section.size <= self.address + self.size


class Linked:
    """The linked file. Making an object of it may be done once."""

    def __init__(self, data: bytes):
        self.unit = Object(data)
        header = self.unit.header
        if header.kind != EXECUTABLE or not header.flags & COMPRESSED_CODE:
            raise Refused("not a linked file" if header.kind != EXECUTABLE else "no compressed code: swic may take it as it is")
        self.segments = self.read_segments()
        self.loaded = [segment for segment in self.segments if segment.kind == LOADED and segment.size]
        self.entry = self.symbol_at(header.entry)
        self.global_pointer = next((symbol.value for symbol in self.unit.symbols if symbol.name == "__global_pointer$"), 0)
        self.placed = sorted((section for section in self.unit.sections if section.is_loaded and section.size), key=lambda section: section.address)
        self.check()

    def read_segments(self) -> list[Segment]:
        header = self.unit.header
        begins = (header.segments + k * header.segment_size for k in range(header.segment_count))
        try:
            return [Segment(*struct.unpack_from("<8I", self.unit.data, begin)) for begin in begins]
        except struct.error:
            raise Refused("damaged: a table reaches over the end of the file") from None

    def symbol_at(self, address: int) -> str:
        """A symbol of the entry, which other files see."""
        for symbol in self.unit.symbols:
            if symbol.value == address and symbol.binding != LOCAL and 0 < symbol.section < SPECIAL:
                return symbol.name
        raise Refused("no global symbol at the entry")

    def check(self):
        """Refuses what would not be the same file behind another link."""
        for segment in self.segments:
            if segment.kind in (DYNAMIC, INTERPRETER):
                raise Refused("a dynamic file")
            if segment.kind == LOADED and segment.held and segment.load_address != segment.address:
                raise Refused(f"a segment for {segment.address:08x} that is copied there from {segment.load_address:08x}")
        for section in self.unit.sections:
            if section.is_code and not section.relocated_by:
                section.refuse(0, "code without relocations: link with -Wl,--emit-relocs")
            if section.name == ".eh_frame_hdr":
                section.refuse(0, "a table without relocations: link without --eh-frame-hdr")
            self.check_numbers(section)

    def check_numbers(self, section: Section):
        """Refuses a relocation of a symbol that is a number, where that may be an address of the file."""
        first, last = self.placed[0], self.placed[-1]
        for each in section.relocations:
            symbol = self.unit.symbols[each.symbol]
            if symbol.section == ABSOLUTE and first.address < symbol.value <= last.address + last.size:
                raise Refused(f"{symbol.name} is {symbol.value:08x}, a number among the file's addresses: define it within a section")

    def label_of(self, each: rel.Relocation) -> int:
        """The address that a relocation names."""
        return self.unit.symbols[each.symbol].value + each.addend

    def to_object(self) -> Object:
        """The file as one relocatable object, in which addresses are offsets in their sections."""
        for section in self.unit.sections:
            base = section.address if section.is_loaded else 0
            section.bytes = self.without_sums(section, base) if section.relocations else section.bytes
            # Without those of relaxation, the code stays where it is aligned: it is one section now, which the linker can't align in parts.
            section.relocations = [self.unlinked(section, each._replace(offset=each.offset - base)) for each in section.relocations if each.kind not in rel.HINTS]
        self.move_symbols()
        for section in self.unit.sections:
            section.address = 0
        self.unit.header = self.unit.header._replace(kind=RELOCATABLE, entry=0, segments=0, segment_size=0, segment_count=0)
        return self.unit

    def move_symbols(self):
        thread_local = next((section.address for section in self.placed if section.flags & THREAD_LOCAL_DATA), 0)
        for symbol in self.unit.symbols:
            if 0 < symbol.section < SPECIAL and self.unit.sections[symbol.section].is_loaded:
                address = self.unit.sections[symbol.section].address
                symbol.value = symbol.value - address + (thread_local if symbol.kind == THREAD_LOCAL else 0) & 0xFFFFFFFF

    def without_sums(self, section: Section, base: int) -> bytes:
        """The section's bytes without the labels that the linker has added to them or taken from them; it would do so once more."""
        data = bytearray(section.bytes)
        for each in section.relocations:
            if each.kind in SUMS:
                sign, width = SUMS[each.kind]
                held = slice(each.offset - base, each.offset - base + width)
                data[held] = (int.from_bytes(data[held], "little") - sign * self.label_of(each) & (1 << 8 * width) - 1).to_bytes(width, "little")
        return bytes(data)

    def unlinked(self, section: Section, each: rel.Relocation) -> rel.Relocation:
        """A relocation as it was before the linker took the global pointer from its addend."""
        word = int.from_bytes(section.bytes[each.offset:each.offset + 4], "little")
        if each.kind in TO_GLOBAL_POINTER and word >> 15 & 31 == GLOBAL_POINTER:
            return each._replace(addend=rel.signed_word(each.addend + self.global_pointer))
        return each

    def script(self) -> str:
        """The linker script that puts the sections where they were, or behind the code where that has grown over their places."""
        headers = [f"  load{k} PT_LOAD FLAGS({segment.flags});" for k, segment in enumerate(self.loaded)]
        lines, before = [], None
        for section in self.placed:
            k = next((k for k, segment in enumerate(self.loaded) if segment.holds(section)), None)
            if k is None:
                section.refuse(0, "a section that no segment holds")
            free = "." if k == before else f"ALIGN({PAGE})"
            lines.append(f"  . = . > {section.address:#x} ? {free} : {section.address:#x};\n  {section.name} : {{ *({section.name}) }} :load{k}")
            before = k
        return "\n".join([f"ENTRY({self.entry})", "PHDRS\n{", *headers, "}", "SECTIONS\n{", *lines, "}", ""])


def expand(data: bytes, trusted: bool = False) -> tuple[Expanded, str]:
    """The object without compressed code, and its linker script."""
    file = Linked(data)
    script = file.script()
    return Expansion(file.to_object(), trusted, linked=True).expand(), script
