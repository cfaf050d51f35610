"""Relocatable ELF32 objects of RISC-V, read and written: pyelftools reads such files, but writes none."""
import dataclasses
import struct
import zlib
from typing import NamedTuple

from shared.expand.relocations import Relocation

RELOCATABLE, EXECUTABLE = 1, 2  # types of files
RISCV = 243
COMPRESSED_CODE, FLOAT_ABI, OTHER_ABI = 1, 6, 14  # flags of the file; another ABI than ilp32 has float registers, or RV32E's
PROGBITS, SYMTAB, RELA, NOBITS, REL, SYMTAB_SHNDX = 1, 2, 4, 8, 9, 18  # types of sections
ALLOC, EXECINSTR, COMPRESSED_BYTES = 2, 4, 0x800  # flags of sections
NOTYPE, OBJECT, FUNCTION, SECTION, THREAD_LOCAL = 0, 1, 2, 3, 6  # types of symbols
LOCAL = 0  # that other files don't see
ZLIB, MOST_ALIGNED = 1, 1 << 20
SPECIAL, ABSOLUTE = 0xFF00, 0xFFF1  # from here on numbers that are no section's; that of a symbol that is a number


class Refused(Exception):
    """Why an input can't be expanded, with the section and the offset in it."""

    def __init__(self, why: str, section: str = "", offset: int = 0):
        super().__init__(f"{section}+{offset:x}: {why}" if section else why)


@dataclasses.dataclass(slots=True)
class Section:
    """A section's header and its bytes."""
    name: str
    name_at: int
    kind: int
    flags: int
    address: int
    offset: int
    size: int
    link: int
    info: int
    align: int
    entry: int
    bytes: bytes = b""
    relocations: list[Relocation] = dataclasses.field(default_factory=list)
    relocated_by: "Section | None" = None  # the section that holds these relocations

    @property
    def is_code(self) -> bool:
        return self.kind == PROGBITS and bool(self.flags & EXECINSTR) and self.size > 0

    @property
    def is_loaded(self) -> bool:
        return bool(self.flags & ALLOC)

    @property
    def is_debug(self) -> bool:
        """Data that no program reads, so that it can be left out."""
        return not self.flags & ALLOC and self.name.startswith(".debug_")

    def refuse(self, offset: int, why: str):
        raise Refused(why, self.name, offset)

    def decompress(self):
        """Takes away the compression that debug data may have."""
        method, size, align = struct.unpack_from("<III", self.bytes)
        if method != ZLIB:
            self.refuse(0, "compressed in another way than by zlib: compile without -gz")
        try:
            self.bytes = zlib.decompress(self.bytes[12:])
        except zlib.error:
            self.bytes = b""
        if len(self.bytes) != size:
            self.refuse(0, "damaged: compressed bytes")
        self.size, self.align, self.flags = size, align, self.flags & ~COMPRESSED_BYTES


@dataclasses.dataclass(slots=True)
class Symbol:
    name: str
    name_at: int
    value: int
    size: int
    info: int
    other: int
    section: int

    @property
    def kind(self) -> int:
        return self.info & 15

    @property
    def binding(self) -> int:
        return self.info >> 4


def text_at(data: bytes, at: int) -> str:
    return data[at:data.index(b"\0", at)].decode("latin-1")


class Header(NamedTuple):
    """What follows the identification at the beginning of a file."""
    kind: int
    machine: int
    version: int
    entry: int
    segments: int
    sections: int
    flags: int
    size: int
    segment_size: int
    segment_count: int
    section_size: int
    section_count: int
    section_names: int


HEADER, SECTION_HEADER, SYMBOL, RELOCATION = (struct.Struct(form) for form in ("<HHIIIIIHHHHHH", "<10I", "<IIIBBH", "<IIi"))
HEADER_AT, HEADER_END = 16, 52


def header_of(data: bytes) -> Header:
    if len(data) < HEADER_END or data[:6] != b"\x7fELF\x01\x01":
        raise Refused("for 64 bits: build it for RV32" if data[:5] == b"\x7fELF\x02" else "not a little-endian ELF32 file")
    header = Header._make(HEADER.unpack_from(data, HEADER_AT))
    if header.machine != RISCV:
        raise Refused("not for RISC-V")
    return header


class Object:
    """The sections, symbols and relocations of a file, each to be changed; `to_bytes` makes the file again."""

    def __init__(self, data: bytes):
        self.data = data
        self.header = header_of(data)
        try:
            self.sections = self.read_sections()
            self.table = self.only_symbol_table()
            self.strings = bytearray(self.sections[self.table.link].bytes)
            self.symbols = self.read_symbols()
            self.read_relocations()
        except (struct.error, IndexError, ValueError):
            raise Refused("damaged: a table reaches over the end of the file") from None

    def read_sections(self) -> list[Section]:
        header, found = self.header, []
        for at in range(header.sections, header.sections + header.section_count * header.section_size, header.section_size):
            fields = SECTION_HEADER.unpack_from(self.data, at)
            section = Section("", *fields)
            if section.kind not in (0, NOBITS):
                section.bytes = self.data[section.offset:section.offset + section.size]
                if len(section.bytes) != section.size:
                    raise ValueError
            found.append(section)
        names = found[header.section_names].bytes
        for section in found:
            section.name = text_at(names, section.name_at)
            if section.flags & COMPRESSED_BYTES:
                section.decompress()
            if section.align > MOST_ALIGNED or section.align & section.align - 1:
                section.refuse(0, f"aligned to {section.align}")
        return found

    def only_symbol_table(self) -> Section:
        tables = [section for section in self.sections if section.kind == SYMTAB]
        if len(tables) != 1 or any(section.kind == SYMTAB_SHNDX for section in self.sections):
            raise Refused(f"{len(tables)} tables of symbols" if len(tables) != 1 else "more than 65279 sections")
        return tables[0]

    def read_symbols(self) -> list[Symbol]:
        symbols = [Symbol(text_at(self.strings, fields[0]), *fields) for fields in SYMBOL.iter_unpack(self.table.bytes)]
        if any(len(self.sections) <= symbol.section < SPECIAL for symbol in symbols):
            raise Refused("damaged: a symbol of a section that isn't there")
        return symbols

    def read_relocations(self):
        for section in self.sections:
            if section.kind == REL and section.size:
                section.refuse(0, "relocations without addends")
            if section.kind != RELA:
                continue
            target = self.sections[section.info]
            if target.relocated_by:
                section.refuse(0, "a second table of relocations")
            target.relocated_by = section
            target.relocations = [Relocation(offset, info & 0xFF, info >> 8, addend) for offset, info, addend in RELOCATION.iter_unpack(section.bytes)]
            if any(each.symbol >= len(self.symbols) or not 0 <= each.offset - target.address <= target.size for each in target.relocations):
                section.refuse(0, "a relocation of a place or a symbol that isn't there")

    def named(self, name: str) -> bytes:
        """The bytes of a section of this name, or none."""
        return next((section.bytes for section in self.sections if section.name == name), b"")

    def rename(self, symbol: Symbol, name: str):
        symbol.name, symbol.name_at = name, len(self.strings)
        self.strings += name.encode("latin-1") + b"\0"

    def pack_tables(self):
        """Writes the symbols and relocations into their sections."""
        self.table.bytes = b"".join(
            SYMBOL.pack(symbol.name_at, symbol.value, symbol.size, symbol.info, symbol.other, symbol.section) for symbol in self.symbols)
        self.sections[self.table.link].bytes = bytes(self.strings)
        for section in self.sections:
            if section.relocated_by:
                section.relocated_by.bytes = b"".join(RELOCATION.pack(each.offset, each.symbol << 8 | each.kind, each.addend) for each in section.relocations)

    def to_bytes(self) -> bytes:
        """The file, with its sections in their order and the table of headers behind them."""
        self.pack_tables()
        out, table = bytearray(HEADER_END), bytearray()
        for section in self.sections:
            if section.kind:
                out += bytes(-len(out) % max(section.align, 1))
                section.offset = len(out)
            if section.kind != NOBITS:
                section.size = len(section.bytes)
            out += section.bytes
            table += SECTION_HEADER.pack(section.name_at, section.kind, section.flags, section.address, section.offset, section.size,
                                         section.link, section.info, section.align, section.entry)
        out += bytes(-len(out) % 4)
        header = self.header._replace(sections=len(out), section_size=SECTION_HEADER.size)
        out[:HEADER_END] = self.data[:HEADER_AT] + HEADER.pack(*header)
        return bytes(out + table)
