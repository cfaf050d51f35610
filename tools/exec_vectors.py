#!/usr/bin/env python3
"""Prints the tables of crates/swi_exec/src/tests.rt.

Each row is an instruction that GNU as encodes and qemu-riscv32 executes, with the operands beside it
and what they left. Needs riscv64-unknown-elf-gcc and qemu-riscv32 (Debian: gcc-riscv64-unknown-elf,
qemu-user). Usage: tools/exec_vectors.py > rows.txt
"""
import sys

if sys.version_info < (3, 11):
    sys.exit("exec_vectors.py: Python 3.11 or newer is needed")
import pathlib
import struct
import subprocess
import tempfile

DATA = 0x20000  # where the memory of each row lies: 12 bytes
MEMORY = (0x8CB4A596, 0x7F01FE80, 0x00000000)

PAIRS = [
    (0x80000000, 0xFFFFFFFF),
    (0xFFFFFFFF, 0xFFFFFFFF),
    (0x80000000, 0x80000000),
    (0x7FFFFFFF, 0x00000001),
    (0x00000007, 0x00000000),
    (0xFFFFFFF9, 0x00000002),
    (0x00000001, 0xFFFFFFFF),
    (0x80000000, 0x00000004),
    (0x89ABCDEF, 0x1234563F),
]
OPS = "add sub sll slt sltu xor srl sra or and mul mulh mulhsu mulhu div divu rem remu".split()
IMMEDIATES = "addi slti sltiu xori ori andi".split()
SHIFTS = "slli srli srai".split()
BRANCHES = "beq bne blt bge bltu bgeu".split()
AMOS = "swap add xor and or min max minu maxu".split()


class Row:
    """One instruction with rd x3, rs1 x1, rs2 x2, and what stands before and after it."""

    def __init__(self, text, a=0, b=0, jumps=False, reserve=None):
        self.text, self.a, self.b, self.jumps, self.reserve = text, a, b, jumps, reserve


def values():
    for op in OPS:
        for a, b in PAIRS:
            yield Row(f"{op} x3, x1, x2", a, b)
    for op in IMMEDIATES:
        for a, imm in [(0x7FFFFFFF, 1), (0x80000000, -1), (0xFFFFFFFF, -2048), (5, 2047)]:
            yield Row(f"{op} x3, x1, {imm}", a)
    for op in SHIFTS:
        for a, imm in [(0x80000001, 31), (0x89ABCDEF, 4), (0x7FFFFFFF, 0)]:
            yield Row(f"{op} x3, x1, {imm}", a)
    yield Row("lui x3, 0x80000")
    yield Row("lui x3, 0x12345")
    yield Row("fence")


def jumps():
    for op in BRANCHES:
        for a, b in [(5, 5), (0x80000000, 1), (1, 0x80000000), (0xFFFFFFFF, 0xFFFFFFFF), (2, 3)]:
            yield Row(f"{op} x1, x2, TARGET", a, b, jumps=True)
    # not taken: that the target isn't a multiple of 4 is no fault
    yield Row("bne x0, x0, .+2", jumps=True)
    yield Row("jal x3, TARGET", jumps=True)
    yield Row("jal x0, TARGET", jumps=True)
    yield Row("jalr x3, 0(x1)", "TARGET", jumps=True)
    yield Row("jalr x3, 1(x1)", "TARGET", jumps=True)
    yield Row("jalr x1, -4(x1)", "TARGET + 4", jumps=True)
    yield Row("auipc x3, 0x80000")
    yield Row("auipc x3, 0x12")


def memory():
    for op in "lb lh lw lbu lhu".split():
        for offset in (0, 5):
            yield Row(f"{op} x3, {offset}(x1)", DATA)
        yield Row(f"{op} x3, -4(x1)", DATA + 4)
    for op in "sb sh sw".split():
        for offset in (0, 3):
            yield Row(f"{op} x2, {offset}(x1)", DATA, 0x12345678)
    yield Row("lr.w x3, (x1)", DATA)
    yield Row("lr.w.aqrl x3, (x1)", DATA + 4)
    yield Row("sc.w x3, x2, (x1)", DATA, 0x12345678)
    yield Row("sc.w x3, x2, (x1)", DATA, 0x12345678, reserve=DATA)
    yield Row("sc.w x3, x2, (x1)", DATA, 0x12345678, reserve=DATA + 4)
    yield Row("sc.w x2, x2, (x1)", DATA + 4, 0x12345678, reserve=DATA + 4)
    for op in AMOS:
        for a, b in [(DATA, 0x7F01FE80), (DATA + 4, 0x8CB4A596)]:
            yield Row(f"amo{op}.w x3, x2, (x1)", a, b)
    yield Row("amoadd.w x2, x2, (x1)", DATA, 0x80000000)


def assembly(rows):
    out = [".globl _start", ".text", "_start:", "la x30, results"]
    for k, row in enumerate(rows):
        a = row.a if isinstance(row.a, int) else row.a.replace("TARGET", f"target{k}")
        out.append(f"li x29, {DATA}")
        for i, word in enumerate(MEMORY):
            out += [f"li x28, {word}", f"sw x28, {4 * i}(x29)"]
        # what was reserved before is not reserved any more
        out += ["la x28, spare", "sc.w x27, x28, (x28)"]
        if row.reserve is not None:
            out += [f"li x28, {row.reserve}", "lr.w x27, (x28)"]
        out += [f"la x1, {a}" if isinstance(a, str) else f"li x1, {a}"]
        out += ["sw x1, 0(x30)", f"li x2, {row.b}", "li x3, 0x55"]
        out += [f"la x28, row{k}", "sw x28, 4(x30)", "li x28, 0"]
        out += [f".option push", f".option norelax", f"row{k}: " + row.text.replace("TARGET", f"target{k}")]
        out += [f"j behind{k}", f"target{k}: li x28, 1", ".option pop", f"behind{k}: sw x28, 8(x30)"]
        out += ["sw x1, 12(x30)", "sw x2, 16(x30)", "sw x3, 20(x30)"]
        for i in range(3):
            out += [f"lw x27, {4 * i}(x29)", f"sw x27, {24 + 4 * i}(x30)"]
        out += [f"lw x27, row{k}", "sw x27, 36(x30)", "addi x30, x30, 40"]
    out += ["li a7, 64", "li a0, 1", "la a1, results", f"li a2, {40 * len(rows)}", "ecall"]
    out += ["li a7, 93", "li a0, 0", "ecall"]
    out += [".bss", ".balign 4", "spare: .space 4", f"results: .space {40 * len(rows)}"]
    return "\n".join(out) + "\n"


def run(rows):
    with tempfile.TemporaryDirectory() as folder:
        source, program = pathlib.Path(folder, "rows.s"), pathlib.Path(folder, "rows")
        source.write_text(assembly(rows))
        subprocess.run(
            ["riscv64-unknown-elf-gcc", "-march=rv32ima", "-mabi=ilp32", "-nostdlib", "-static", "-Wl,--no-relax",
             "-Wl,-Ttext=0x10000000", "-Wl,-Tbss=0x11000000", f"-Wl,--section-start=.room={DATA:#x}", "-x", "assembler",
             str(source), "-x", "assembler", "-", "-o", str(program)],
            input=b'.section .room, "aw", @nobits\n.space 4096\n', check=True)
        held = subprocess.run(["qemu-riscv32", str(program)], check=True, capture_output=True).stdout
    return [struct.unpack_from("<10I", held, 40 * k) for k in range(len(rows))]


def hexes(word, *left):
    return f"(0x{word:08X}, " + ", ".join(f"0x{w:X}" if w else "0" for w in left) + "),"


def main():
    for name, make in [("VALUES", values), ("JUMPS", jumps), ("MEMORY", memory)]:
        rows = list(make())
        print(f"{name} {len(rows)}")
        last = None
        for row, (a, pc, jumped, x1, x2, x3, m0, m1, m2, word) in zip(rows, run(rows)):
            if name == "VALUES":
                line = hexes(word, a, row.b, x3)
            elif name == "JUMPS":
                # the target lies 8 bytes behind the instruction
                line = hexes(word, pc, a, row.b, pc + 4 + 4 * jumped, x1, x3)
            else:
                assert m2 == 0
                line = hexes(word, row.reserve or 0, a, row.b, x2, x3, m0, m1)
            if row.text.split()[0] != last:
                last = row.text.split()[0]
                print(f"    // {last}")
            print(f"    {line}")


main()
