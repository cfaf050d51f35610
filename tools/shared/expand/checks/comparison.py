"""Objects and archives before and behind tools/expand, instruction by instruction, with their relocations, source lines and call frames."""
import bisect
import itertools
import pathlib
import re

from shared.expand.checks.binutils import JUMPS, Failed, Row, row_of, tool

RENAMED = {"RVC_BRANCH": "BRANCH", "RVC_JUMP": "JAL", "RVC_LUI": "HI20"}
INVERSE = {"beq": "bne", "bne": "beq", "blt": "bge", "bge": "blt", "bltu": "bgeu", "bgeu": "bltu"}
FILLING = ("unimp", "c.unimp")


def check(old: pathlib.Path, new: pathlib.Path) -> str:
    """Compares two archives, or objects."""
    before, after = read(old), read(new)
    if list(before) != list(after):
        raise Failed(f"{old}: other sections behind")
    for name in before:
        compare(f"{old.name}, {name}", tidy(before[name]), tidy(after[name]))
    rows = list(itertools.chain(*before.values()))
    if any(row.size != 4 for rows in after.values() for row in rows):
        raise Failed(f"{new}: an instruction of 16 bits is left")
    return f"{len(rows)} instructions, {sum(row.line != '' for row in rows)} with a source line"


def read(path: pathlib.Path, lines: bool = True) -> dict[str, list[Row]]:
    """The instructions of each section of code, by its member and its name; with the source lines, unless they are not asked for."""
    found: dict[str, list[Row]] = {}
    member, line, rows = "", "", []
    for text in tool("objdump", "-drl" if lines else "-dr", "-M", "no-aliases", path).splitlines():
        if row := row_of(text):
            row.line = line
            rows.append(row)
        elif relocation := re.match(r"\s+[0-9a-f]+: R_RISCV_(\S+)\s*(.*)", text):
            kind = RENAMED.get(relocation[1], relocation[1])
            rows[-1].relocations.append(f"{kind} {relocation[2]}" if kind != "ALIGN" else kind)
        elif named := re.match(r"(\S+):\s+file format", text):
            member = named[1].rpartition("/")[2] if "(" not in named[1] else named[1]
        elif named := re.match(r"Disassembly of section (\S+):", text):
            rows, line = found.setdefault(f"{member.removesuffix(path.name)}{named[1]}", []), ""
        elif source := re.match(r"(\S+:\d+)( \(discriminator \d+\))?$", text):
            line = source[1]
    return found


def tidy(rows: list[Row]) -> list[Row]:
    """The rows without alignment's nops and what fills the section up; an inverse branch over a jump counts as the branch."""
    kept = [row for row in rows if not (row.name == "addi" and row.arguments[0] == "zero" and set(row.relocations) <= {"ALIGN"})]
    while kept and kept[-1].shown in FILLING:
        kept.pop()
    found, skip = [], False
    for row, following in itertools.zip_longest(kept, kept[1:]):
        if skip:
            skip = False
            continue
        skip = is_over_jump(row, following)
        found.append(branch_of(row, following) if skip else row)
    for row in found:
        row.relocations = [each for each in row.relocations if each != "ALIGN"]
    return found


def is_over_jump(row: Row, following: Row | None) -> bool:
    return (following is not None and row.name in INVERSE and not row.relocations and following.name == "jal"
            and following.arguments[0] == "zero" and row.target == following.address + following.size)


def branch_of(row: Row, jump: Row) -> Row:
    relocations = [each.replace("JAL", "BRANCH") for each in jump.relocations]
    return Row(row.address, row.size, row.shown, INVERSE[row.name], [*row.arguments[:-1], jump.arguments[-1]], relocations, row.line)


def compare(name: str, before: list[Row], after: list[Row]):
    if len(before) != len(after):
        raise Failed(f"{name}: {len(before)} and {len(after)} instructions")
    places = [{row.address: k for k, row in enumerate(rows)} for rows in (before, after)]
    for old, new in zip(before, after):
        if facts(old, places[0]) != facts(new, places[1]):
            raise Failed(f"{name}: {old} became {new}")


def facts(row: Row, places: dict[int, int]) -> tuple:
    """What has to stay: targets without a relocation count in instructions; where there is one, it says all."""
    arguments = list(row.arguments)
    if row.name in JUMPS:
        arguments[-1] = "" if row.relocations else f"row {places.get(row.target)}"
    elif any("_HI20" in each or "HI20 " in each or "CALL" in each for each in row.relocations):
        arguments[-1] = ""
    return row.name, arguments, row.relocations, row.line


def check_frames(old: pathlib.Path, new: pathlib.Path, folder: pathlib.Path) -> str:
    """Compares the call frames of two archives, linked whole, row by row; addresses count in instructions."""
    before, after = (frames_of(path, folder / f"whole{k}.elf") for k, path in enumerate((old, new)))
    if len(before) != len(after):
        raise Failed(f"{old.name}: call frames of {len(before)} and {len(after)} functions")
    for first, second in zip(before, after):
        if first != second:
            raise Failed(f"{old.name}: call frames {first} became {second}")
    return f"call frames of {len(before)} functions"


def frames_of(archive: pathlib.Path, linked: pathlib.Path) -> list[tuple]:
    """For each function that the call frames describe its first and last instruction and its rows."""
    from elftools.dwarf.callframe import FDE
    from elftools.elf.elffile import ELFFile
    tool("ld", "-melf32lriscv", "--no-relax", "-z", "muldefs", "--unresolved-symbols=ignore-all", "--defsym=__global_pointer$=0", "--noinhibit-exec",
         "-e", "0", "--whole-archive", archive, "-o", linked)
    addresses = sorted(row.address for rows in read(linked, lines=False).values() for row in tidy(rows) if row.shown not in FILLING)
    index = lambda address: bisect.bisect_left(addresses, address)
    found = []
    with open(linked, "rb") as file:
        information = ELFFile(file).get_dwarf_info()
        for entry in (*information.CFI_entries(), *(information.EH_CFI_entries() if information.has_EH_CFI() else ())):
            if isinstance(entry, FDE):
                begin = entry["initial_location"]
                rows = [(index(row.pop("pc")), str(sorted(row.items(), key=str))) for row in map(dict, entry.get_decoded().table)]
                found.append((index(begin), index(begin + entry["address_range"]), rows))
    return found
