"""Every value of 16 bits that is no 32-bit instruction's beginning: what it becomes, beside what binutils say."""
import pathlib
import struct

from shared.expand import instructions
from shared.expand.checks.binutils import JUMPS, MEANINGS, Row, row_of, tool, Failed

HALVES = [half for half in range(1 << 16) if half & 3 != 3]
SINGLE = {"c.flw", "c.fsw", "c.flwsp", "c.fswsp"}
DOUBLE = {"c.fld", "c.fsd", "c.fldsp", "c.fsdsp"}


def check(folder: pathlib.Path) -> str:
    shown = disassembled(folder)
    wanted = assembled(folder, shown)
    for single, double in ((False, False), (True, False), (True, True)):
        for half in HALVES:
            left_out = (SINGLE if not single else set()) | (DOUBLE if not double else set())
            want = None if shown[half].shown in left_out else wanted.get(half)
            is_now = instructions.expand(half, single, double)
            if is_now is not None and is_now & 0xFFFFFFFF != want or is_now is None and want is not None:
                raise Failed(f"{half:04x}, {shown[half].shown}: {is_now and hex(is_now)}, by binutils {want and hex(want)}")
    return f"{len(HALVES)} values, {len(wanted)} with a meaning"


def disassembled(folder: pathlib.Path) -> dict[int, Row]:
    """What the disassembler says of each value; they stand four bytes apart, with a c.nop behind each."""
    held = folder / "halves"
    held.write_bytes(b"".join(struct.pack("<HH", half, 1) for half in HALVES))
    text = tool("objdump", "-D", "-M", "no-aliases", "-b", "binary", "-m", "riscv:rv32", held)
    rows = (row for line in text.splitlines() if (row := row_of(line)) and row.address % 4 == 0)
    found = {HALVES[row.address // 4]: row for row in rows}
    if len(found) != len(HALVES):
        raise Failed(f"binutils show {len(found)} of {len(HALVES)} values")
    return found


def has_meaning(row: Row) -> bool:
    """Whether RV32C has an instruction: not where 0 is reserved, nor a shift of 32 or more, though the disassembler shows those too."""
    if row.shown not in MEANINGS:
        return False
    if row.name in ("srli", "srai", "slli"):
        return int(row.arguments[2], 0) < 32
    return row.shown != "c.addi16sp" or int(row.arguments[2]) != 0


def assembled(folder: pathlib.Path, shown: dict[int, Row]) -> dict[int, int]:
    """The words of the assembler for what each value stands for."""
    known = {half: row for half, row in shown.items() if has_meaning(row)}
    source, made, linked, held = (folder / f"words.{end}" for end in ("S", "o", "elf", "bin"))
    source.write_text(".option norelax\n" + "".join(assembly(row) + "\n" for row in known.values()))
    tool("as", "-march=rv32imafd", "-mabi=ilp32", source, "-o", made)
    # linked, since a branch's offset would stand in a relocation
    tool("ld", "-melf32lriscv", "--no-relax", "-Ttext=0x1000000", "-e", "0", made, "-o", linked)
    tool("objcopy", "-O", "binary", "-j", ".text", linked, held)
    return dict(zip(known, (word for word, in struct.iter_unpack("<I", held.read_bytes()))))


def assembly(row: Row) -> str:
    arguments = list(row.arguments)
    if row.name in JUMPS:
        distance = row.target - row.address
        arguments[-1] = f".{distance - (1 << 32) if distance >= 1 << 31 else distance:+d}"
    return f"{row.name} {','.join(arguments)}"
