"""A second sight: assembly that a compiler wrote, with C and expanded, and without C, gives objects of the same bytes."""
import pathlib
import re
import struct

from shared.expand import instructions as rv
from shared.expand import relocations as rel
from shared.expand.checks.binutils import PREFIX, Failed, run, tool
from shared.expand.checks.programs import COMPRESSED, EXPAND, GUESTS, PROGRAMS, SOURCES
from shared.expand.objects import Object, Section

LEFT_OUT = {".riscv.attributes", ".comment", ".symtab", ".strtab", ".shstrtab"}  # compared by what they say, or of the assembler's call
SET = {rel.NUMBERS["SET6"]: (0xC0, 1), rel.NUMBERS["SET8"]: (0, 1), rel.NUMBERS["SET16"]: (0, 2)}  # the bits that stay, and how many bytes
COMMUTATIVE = {0, 4, 6, 7}  # add, xor, or, and
MACHINE = re.compile(r"^\s*\.attribute arch.*$", re.M)


def check(name: str, folder: pathlib.Path) -> str:
    """Compares the objects of a program."""
    flags, _ = PROGRAMS[name]
    source = folder / f"{name}.s"
    compiler = PREFIX + ("g++" if name.endswith(".cc") else "gcc")
    run(compiler, *COMPRESSED, "--specs=picolibc.specs", *flags, "-S", "-I", GUESTS, SOURCES / name, "-o", source)
    source.write_text(MACHINE.sub("", source.read_text()))
    made = folder / f"{name}.assembled"
    made.mkdir()
    for machine, out in (("rv32imac", made / "object.o"), ("rv32ima", made / "direct.o")):
        relax = ["-mno-relax"] if "-mno-relax" in flags else []
        tool("as", f"-march={machine}", "-mabi=ilp32", *relax, source, "-o", out)
    run(EXPAND, made / "object.o", "-o", made / "expanded")
    expanded, direct = (Object(path.read_bytes()) for path in (made / "expanded/object.o", made / "direct.o"))
    return compare(name, expanded, direct)


def compare(name: str, expanded: Object, direct: Object) -> str:
    first, second = ({section.name: section for section in unit.sections if not section.name.startswith(".rela")} for unit in (expanded, direct))
    if list(first) != list(second):
        raise Failed(f"{name}: sections {list(first)}, without C {list(second)}")
    size = 0
    for section in first:
        if section not in LEFT_OUT and content(first[section]) != content(second[section]):
            raise Failed(f"{name}: the bytes of {section}")
        if relocations(expanded, first[section]) != relocations(direct, second[section]):
            raise Failed(f"{name}: the relocations of {section}")
        size += len(first[section].bytes)
    if symbols(expanded) != symbols(direct):
        raise Failed(f"{name}: the symbols {symbols(expanded) ^ symbols(direct)}")
    return f"{size} bytes"


def content(section: Section) -> list[int] | bytes:
    """The bytes, and of code the words, without what a relocation fills in."""
    if not section.is_code:
        data = bytearray(section.bytes)
        for each in section.relocations:
            kept, width = SET.get(each.kind, (0, 0))
            for at in range(each.offset, each.offset + width):
                data[at] &= kept
        return bytes(data)
    linked = {each.offset for each in section.relocations}
    words = [normal(word, offset in linked) for offset, (word,) in zip(range(0, section.size, 4), struct.iter_unpack("<I", section.bytes))]
    while words and words[-1] == 0:  # what fills the section up
        words.pop()
    return words


def normal(word: int, linked: bool) -> int:
    """A word, without what the assembler has a choice in: mv is an addi or an add, the sources of a sum may change places, an illegal
    instruction may be 0, and where a relocation fills in a branch's offset it may stand there before."""
    if word == rv.UNIMP:
        return 0
    first, second = word >> 15 & 31, word >> 20 & 31
    if word & 0xFE00007F == rv.REGISTER and word >> 12 & 7 in COMMUTATIVE:
        if word >> 12 & 7 == 0 and first == 0:
            return rv.word_of("addi", [word >> 7 & 31, second, 0])
        return word & ~(0x3FF << 15) | min(first, second) << 15 | max(first, second) << 20
    if linked and word & 0x7F in (rv.BRANCH, rv.JAL):
        return word & ~(rv.BRANCH_BITS if word & 0x7F == rv.BRANCH else rv.JUMP_BITS)
    return word


def relocations(unit: Object, section) -> list[tuple]:
    """What the relocations say: of a symbol its section, and its place there."""
    return [(each.offset, each.kind, unit.symbols[each.symbol].name, unit.sections[number].name if (number := unit.symbols[each.symbol].section) < len(unit.sections)
             else number, unit.symbols[each.symbol].value + each.addend) for each in section.relocations]


def symbols(unit: Object) -> set[tuple]:
    return {(each.name, each.value, each.size, each.info, each.section) for each in unit.symbols if not each.name.startswith("$x")}
