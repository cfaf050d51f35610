"""RV32 instructions: the immediates of their formats, and the 32-bit instruction that each compressed one stands for."""
import dataclasses
import functools
import re

NOP = 0x00000013
UNIMP = 0xC0001073
EBREAK = 0x00100073
ENDS = {EBREAK, UNIMP, 0x30200073, 0x10200073}  # behind which control doesn't go on: ebreak, unimp, mret, sret

LOAD, FLOAT_LOAD, IMMEDIATE, AUIPC, STORE, FLOAT_STORE = 0x03, 0x07, 0x13, 0x17, 0x23, 0x27
REGISTER, LUI, BRANCH, JALR, JAL, SYSTEM = 0x33, 0x37, 0x63, 0x67, 0x6F, 0x73
# The opcodes that the standard gives to instructions of 32 bits: also fences, atomics and the arithmetic of floats.
STANDARD = {LOAD, FLOAT_LOAD, 0x0F, IMMEDIATE, AUIPC, STORE, FLOAT_STORE, 0x2F, REGISTER, LUI, 0x43, 0x47, 0x4B, 0x4F, 0x53, BRANCH, JALR, JAL, SYSTEM}

INVERT = 0x1000  # the bit in which a branch and its inverse differ
BRANCH_REACH, JUMP_REACH = 1 << 12, 1 << 20

# What the compressed instructions stand for: format, opcode, funct3, and further bits.
BASE = {
    "addi": ("I", IMMEDIATE, 0, 0), "slli": ("I", IMMEDIATE, 1, 0), "srli": ("I", IMMEDIATE, 5, 0), "srai": ("I", IMMEDIATE, 5, 1 << 30),
    "andi": ("I", IMMEDIATE, 7, 0), "jalr": ("I", JALR, 0, 0), "ebreak": ("I", SYSTEM, 0, 1 << 20),
    "lw": ("I", LOAD, 2, 0), "flw": ("I", FLOAT_LOAD, 2, 0), "fld": ("I", FLOAT_LOAD, 3, 0),
    "sw": ("S", STORE, 2, 0), "fsw": ("S", FLOAT_STORE, 2, 0), "fsd": ("S", FLOAT_STORE, 3, 0),
    "add": ("R", REGISTER, 0, 0), "sub": ("R", REGISTER, 0, 1 << 30), "xor": ("R", REGISTER, 4, 0), "or": ("R", REGISTER, 6, 0),
    "and": ("R", REGISTER, 7, 0), "beq": ("B", BRANCH, 0, 0), "bne": ("B", BRANCH, 1, 0), "lui": ("U", LUI, 0, 0), "jal": ("J", JAL, 0, 0),
}

# The forms of RV32C as the standard's tables have them, from the highest bit to the lowest: bits, registers of 5 bits or (rd') of 3,
# and immediates with the places of their bits. A field whose name begins with nz may not be 0. Behind the line stands the instruction
# of 32 bits, its destination first. The first form that fits is the one.
FORMS = """
000 nzuimm[5:4|9:6|2|3] rd' 00              | addi rd' sp nzuimm
010 uimm[5:3] rs1' uimm[2|6] rd' 00         | lw rd' rs1' uimm
110 uimm[5:3] rs1' uimm[2|6] rs2' 00        | sw rs2' rs1' uimm
000 imm[5] rd imm[4:0] 01                   | addi rd rd imm
001 imm[11|4|9:8|10|6|7|3:1|5] 01           | jal ra imm
010 imm[5] rd imm[4:0] 01                   | addi rd zero imm
011 nzimm[9] 00010 nzimm[4|6|8:7|5] 01      | addi sp sp nzimm
011 nzimm[17] rd nzimm[16:12] 01            | lui rd nzimm
100 0 00 rd' uimm[4:0] 01                   | srli rd' rd' uimm
100 0 01 rd' uimm[4:0] 01                   | srai rd' rd' uimm
100 imm[5] 10 rd' imm[4:0] 01               | andi rd' rd' imm
100 0 11 rd' 00 rs2' 01                     | sub rd' rd' rs2'
100 0 11 rd' 01 rs2' 01                     | xor rd' rd' rs2'
100 0 11 rd' 10 rs2' 01                     | or rd' rd' rs2'
100 0 11 rd' 11 rs2' 01                     | and rd' rd' rs2'
101 imm[11|4|9:8|10|6|7|3:1|5] 01           | jal zero imm
110 imm[8|4:3] rs1' imm[7:6|2:1|5] 01       | beq rs1' zero imm
111 imm[8|4:3] rs1' imm[7:6|2:1|5] 01       | bne rs1' zero imm
000 0 rd uimm[4:0] 10                       | slli rd rd uimm
010 uimm[5] nzrd uimm[4:2|7:6] 10           | lw nzrd sp uimm
100 0 nzrs1 00000 10                        | jalr zero nzrs1
100 0 rd nzrs2 10                           | add rd zero nzrs2
100 1 00000 00000 10                        | ebreak
100 1 nzrs1 00000 10                        | jalr ra nzrs1
100 1 rd nzrs2 10                           | add rd rd nzrs2
110 uimm[5:2|7:6] rs2 10                    | sw rs2 sp uimm
"""
SINGLE_FORMS = """
011 uimm[5:3] rs1' uimm[2|6] rd' 00         | flw rd' rs1' uimm
111 uimm[5:3] rs1' uimm[2|6] rs2' 00        | fsw rs2' rs1' uimm
011 uimm[5] rd uimm[4:2|7:6] 10             | flw rd sp uimm
111 uimm[5:2|7:6] rs2 10                    | fsw rs2 sp uimm
"""
DOUBLE_FORMS = """
001 uimm[5:3] rs1' uimm[7:6] rd' 00         | fld rd' rs1' uimm
101 uimm[5:3] rs1' uimm[7:6] rs2' 00        | fsd rs2' rs1' uimm
001 uimm[5] rd uimm[4:3|8:6] 10             | fld rd sp uimm
101 uimm[5:3|8:6] rs2 10                    | fsd rs2 sp uimm
"""


def signed(value: int, bits: int) -> int:
    return value - (1 << bits) if value >> bits - 1 & 1 else value


def branch_immediate(offset: int) -> int:
    return (offset >> 12 & 1) << 31 | (offset >> 5 & 0x3F) << 25 | (offset >> 1 & 0xF) << 8 | (offset >> 11 & 1) << 7


def jump_immediate(offset: int) -> int:
    return (offset >> 20 & 1) << 31 | (offset >> 1 & 0x3FF) << 21 | (offset >> 11 & 1) << 20 | (offset >> 12 & 0xFF) << 12


BRANCH_BITS, JUMP_BITS = branch_immediate(-1), jump_immediate(-1)


def branch_offset(word: int) -> int:
    return signed((word >> 31) << 12 | (word >> 7 & 1) << 11 | (word >> 25 & 0x3F) << 5 | (word >> 8 & 0xF) << 1, 13)


def jump_offset(word: int) -> int:
    return signed((word >> 31) << 20 | (word >> 12 & 0xFF) << 12 | (word >> 20 & 1) << 11 | (word >> 21 & 0x3FF) << 1, 21)


def word_of(name: str, operands: list[int]) -> int:
    """The word of an instruction with these operands, in the order of FORMS."""
    form, opcode, funct3, more = BASE[name]
    word = more | funct3 << 12 | opcode
    first, second, third = (*operands, 0, 0, 0)[:3]
    match form:
        case "I":
            word |= (third & 0xFFF) << 20 | second << 15 | first << 7
        case "S":
            word |= (third >> 5 & 0x7F) << 25 | first << 20 | second << 15 | (third & 0x1F) << 7
        case "R":
            word |= third << 20 | second << 15 | first << 7
        case "B":
            word |= branch_immediate(third) | second << 20 | first << 15
        case "U":
            word |= second & 0xFFFFF000 | first << 7
        case "J":
            word |= jump_immediate(second) | first << 7
    return word


@dataclasses.dataclass
class Field:
    """A register or an immediate of a form: for each bit of it, the bit of the 16 where it stands and the one that it is."""
    name: str
    bits: list[tuple[int, int]] = dataclasses.field(default_factory=list)

    def value(self, half: int) -> int | None:
        """What it is in a value of 16 bits; None where it may not be 0, and is."""
        found = sum((half >> at & 1) << to for at, to in self.bits)
        if self.name.startswith("nz") and not found:
            return None
        if self.name.endswith("imm"):
            return found if "u" in self.name else signed(found, max(to for _, to in self.bits) + 1)
        return found + 8 if self.name.endswith("'") else found


class Form:
    """A line of FORMS."""

    def __init__(self, line: str):
        pattern, meaning = line.rsplit(" | ", 1)
        self.name, *self.operands = meaning.split()
        self.mask = self.match = 0
        self.fields: dict[str, Field] = {}
        top = 16
        for part in pattern.split():
            top = self.literal(part, top) if re.fullmatch("[01]+", part) else self.field(part, top)
        assert top == 0, line

    def literal(self, part: str, top: int) -> int:
        low = top - len(part)
        self.mask |= (1 << len(part)) - 1 << low
        self.match |= int(part, 2) << low
        return low

    def field(self, part: str, top: int) -> int:
        name, _, places = part.rstrip("]").partition("[")
        held = self.fields.setdefault(name, Field(name))
        width = 3 if name.endswith("'") else 5
        for span in places.split("|") if places else [f"{width - 1}:0"]:
            high, _, low = span.partition(":")
            for bit in range(int(high), int(low or high) - 1, -1):
                top -= 1
                held.bits.append((top, bit))
        return top

    def expand(self, half: int) -> int | None:
        values = {"zero": 0, "ra": 1, "sp": 2} | {name: field.value(half) for name, field in self.fields.items()}
        return None if None in values.values() else word_of(self.name, [values[each] for each in self.operands])


def read_forms(table: str) -> list[Form]:
    return [Form(line) for line in table.strip().splitlines()]


@functools.cache
def forms(single: bool, double: bool) -> list[Form]:
    return read_forms(FORMS) + (read_forms(SINGLE_FORMS) if single else []) + (read_forms(DOUBLE_FORMS) if double else [])


@functools.cache
def expand(half: int, single: bool = False, double: bool = False) -> int | None:
    """The 32-bit instruction that a compressed one stands for, or None: loads and stores of floats are there with F and D alone."""
    for form in forms(single, double):
        if half & form.mask == form.match:
            word = form.expand(half)
            if word is not None:
                return word
    return None
