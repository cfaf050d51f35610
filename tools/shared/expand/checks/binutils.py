"""What the GNU binutils for RISC-V say of files: the oracle of the checks of tools/expand."""
import dataclasses
import pathlib
import re
import subprocess

Word = str | pathlib.Path  # of a command
PREFIX = "riscv64-unknown-elf-"
# The 32-bit instruction that each compressed one stands for, as assembly; written from the standard's chapter on C.
MEANINGS = {
    "c.addi4spn": "addi {0},sp,{2}", "c.lw": "lw {0},{1}", "c.sw": "sw {0},{1}", "c.lwsp": "lw {0},{1}", "c.swsp": "sw {0},{1}",
    "c.flw": "flw {0},{1}", "c.fsw": "fsw {0},{1}", "c.fld": "fld {0},{1}", "c.fsd": "fsd {0},{1}", "c.flwsp": "flw {0},{1}",
    "c.fswsp": "fsw {0},{1}", "c.fldsp": "fld {0},{1}", "c.fsdsp": "fsd {0},{1}", "c.nop": "addi zero,zero,{0}", "c.addi": "addi {0},{0},{1}",
    "c.jal": "jal ra,{0}", "c.j": "jal zero,{0}", "c.li": "addi {0},zero,{1}", "c.addi16sp": "addi sp,sp,{1}", "c.lui": "lui {0},{1}",
    "c.srli": "srli {0},{0},{1}", "c.srai": "srai {0},{0},{1}", "c.slli": "slli {0},{0},{1}", "c.andi": "andi {0},{0},{1}",
    "c.srli64": "srli {0},{0},0", "c.srai64": "srai {0},{0},0", "c.slli64": "slli {0},{0},0", "c.sub": "sub {0},{0},{1}",
    "c.xor": "xor {0},{0},{1}", "c.or": "or {0},{0},{1}", "c.and": "and {0},{0},{1}", "c.add": "add {0},{0},{1}",
    "c.beqz": "beq {0},zero,{1}", "c.bnez": "bne {0},zero,{1}", "c.jr": "jalr zero,0({0})", "c.jalr": "jalr ra,0({0})",
    "c.mv": "add {0},zero,{1}", "c.ebreak": "ebreak",
}
JUMPS = {"beq", "bne", "blt", "bge", "bltu", "bgeu", "jal"}


@dataclasses.dataclass
class Row:
    """An instruction as the disassembler shows it, a compressed one as the one that it stands for."""
    address: int
    size: int
    shown: str  # the name that the disassembler gave it
    name: str
    arguments: list[str]
    relocations: list[str]
    line: str = ""

    @property
    def target(self) -> int:
        """Where a branch or a jump goes."""
        return int(self.arguments[-1], 16)


class Failed(Exception):
    """What a check found wrong."""


def run(*words: Word) -> str:
    done = subprocess.run(words, capture_output=True, text=True, errors="replace")
    if done.returncode:
        raise Failed(f"{' '.join(map(str, words))}: status {done.returncode}: {done.stderr.strip()[-2000:]}")
    return done.stdout


def tool(name: str, *words: Word) -> str:
    return run(PREFIX + name, *words)


def meaning(name: str, arguments: list[str]) -> tuple[str, list[str]]:
    form = MEANINGS.get(name)
    if form is None:
        return name, arguments
    base, _, rest = form.format(*(arguments or ["0"])).partition(" ")
    return base, rest.split(",") if rest else []


def row_of(text: str) -> Row | None:
    """The instruction of a line of the disassembler, if it is one."""
    found = re.match(r"\s*([0-9a-f]+):\t((?:[0-9a-f]{4}){1,2})\s+\t?(\S+)\s*(.*)", text)
    if not found:
        return None
    shown = re.sub(r"\s*(#|<).*", "", found[4])
    name, arguments = meaning(found[3], shown.split(",") if shown else [])
    return Row(int(found[1], 16), len(found[2]) // 2, found[3], name, arguments, [])
