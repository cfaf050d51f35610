"""The relocations of RISC-V: their numbers, and at which instructions they may stand."""
from typing import NamedTuple

from shared.expand import instructions as rv


class Relocation(NamedTuple):
    offset: int
    kind: int
    symbol: int  # its index
    addend: int


# The psABI's numbers. GPREL and TPREL_I, TPREL_S are internal ones of GNU ld, which it leaves in a file that keeps its relocations.
NUMBERS = dict(
    NONE=0, ABS32=1, BRANCH=16, JAL=17, CALL=18, CALL_PLT=19, GOT_HI20=20, TLS_GOT_HI20=21, TLS_GD_HI20=22, PCREL_HI20=23, PCREL_LO12_I=24,
    PCREL_LO12_S=25, HI20=26, LO12_I=27, LO12_S=28, TPREL_HI20=29, TPREL_LO12_I=30, TPREL_LO12_S=31, TPREL_ADD=32, ADD8=33, ADD16=34, ADD32=35,
    ADD64=36, SUB8=37, SUB16=38, SUB32=39, SUB64=40, GOT32_PCREL=41, ALIGN=43, RVC_BRANCH=44, RVC_JUMP=45, RVC_LUI=46, GPREL_I=47, GPREL_S=48,
    TPREL_I=49, TPREL_S=50, RELAX=51, SUB6=52, SET6=53, SET8=54, SET16=55, SET32=56, PCREL32=57, PLT32=59, SET_ULEB128=60, SUB_ULEB128=61)
NAMES = {number: name for name, number in NUMBERS.items()}


def numbers(names: str) -> set[int]:
    return {NUMBERS[name] for name in names.split()}


NONE, ABS32, BRANCH, JAL, PCREL_HI20, HI20, ALIGN = (NUMBERS[name] for name in "NONE ABS32 BRANCH JAL PCREL_HI20 HI20 ALIGN".split())
HINTS = numbers("NONE RELAX ALIGN")  # that say nothing of an address
JUMPS = numbers("BRANCH JAL CALL CALL_PLT RVC_BRANCH RVC_JUMP")
LOW_PARTS = numbers("PCREL_LO12_I PCREL_LO12_S")  # whose symbol is the label of the auipc
ABSOLUTE_LOW_PARTS = numbers("LO12_I LO12_S")
IN_DATA = numbers("ABS32 ADD8 ADD16 ADD32 ADD64 SUB8 SUB16 SUB32 SUB64 SUB6 SET6 SET8 SET16 SET32 PCREL32 PLT32 SET_ULEB128 SUB_ULEB128 GOT32_PCREL")
# The bits of a distance of labels: the relocation that takes away the second label.
NARROW = {NUMBERS["SUB6"]: 6, NUMBERS["SUB8"]: 8, NUMBERS["SUB16"]: 16}
SUB_ULEB128 = NUMBERS["SUB_ULEB128"]
FIRST_LABELS = numbers("ABS32 ADD32 SET32 PCREL32")  # of an address or a distance in 32 bits
UNCOMPRESSED = {NUMBERS["RVC_BRANCH"]: BRANCH, NUMBERS["RVC_JUMP"]: JAL, NUMBERS["RVC_LUI"]: HI20}

READS, STORES = {rv.IMMEDIATE, rv.LOAD, rv.JALR, rv.FLOAT_LOAD}, {rv.STORE, rv.FLOAT_STORE}
# The opcodes of the instructions at which a relocation may stand.
AT = {number: opcodes for names, opcodes in (
    ("BRANCH RVC_BRANCH", {rv.BRANCH}), ("JAL RVC_JUMP", {rv.JAL}), ("HI20 TPREL_HI20 RVC_LUI", {rv.LUI}), ("TPREL_ADD", {rv.REGISTER}),
    ("CALL CALL_PLT GOT_HI20 TLS_GOT_HI20 TLS_GD_HI20 PCREL_HI20", {rv.AUIPC}),
    ("PCREL_LO12_I LO12_I TPREL_LO12_I GPREL_I TPREL_I", READS), ("PCREL_LO12_S LO12_S TPREL_LO12_S GPREL_S TPREL_S", STORES),
) for number in numbers(names)}


def signed_word(value: int) -> int:
    return rv.signed(value & 0xFFFFFFFF, 32)


def name_of(kind: int) -> str:
    return NAMES.get(kind, f"of unknown type {kind}")


def alignment(padding: int) -> int:
    """The alignment that an ALIGN with so many bytes of padding asks for: the power of two behind them."""
    return 1 << padding.bit_length()
