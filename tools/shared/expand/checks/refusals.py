"""What can't be expanded safely: refused by one line with section and offset, and nothing is written."""
import pathlib
import subprocess

from shared.expand.checks.binutils import PREFIX, Failed, run, tool
from shared.expand.checks.programs import COMPRESSED, EXPAND
from shared.expand.objects import Object

ODD = "f: c.li a0,1\n c.j 1f\n.word 0x12345678\n.half 3\n1: ret\n"
# For each the source, what the line says behind the name of the file, and whether the mapping symbols are taken away.
OBJECTS = {
    "odd-data": (ODD, ".text+4: code behind 6 bytes of data", False),
    "odd-data-unmarked": (ODD, ".text+a: an address inside an instruction", True),
    "data-reached-by-none": (".globl f\nf: lui a1,%hi(t)\n lw a0,%lo(t)(a1)\n ret\n .balign 4\nt: .word 0x00450505\n", ".text+c: no function, not reached", True),
    "data-in-function": (".globl f\n.type f,@function\nf: lui a1,%hi(t)\n lw a0,%lo(t)(a1)\n ret\nt: .half 0x505,0x45\n.size f,.-f\n",
                         ".text+a: read or written as data", True),
    "bare-auipc": ("f: auipc t0,0\n c.nop\n addi t0,t0,14\n jr t0\n", ".text+0: auipc without a relocation", False),
    "zero-unmarked": (".globl f\nf: c.li a0,0\n .half 0\n ret\n", ".text+2: 0000 is no compressed instruction", True),
    "table-of-bytes": ("f: beqz a0,2f\n .rept 50\n c.addi a0,1\n .endr\n2: ret\n .section .rodata\n .byte 2b-f\n",
                       ".rodata+0: the distance of two labels, 102, is now 204: no room for it (SUB8)", False),
    "half-way": ("f: ret\n ret\n .section .rodata\n .word f+1\n", ".text+1: an address inside an instruction", False),
    "far-jump": ("f: j 9f\n .rept 300000\n c.addi a0,1\n .endr\n9: ret\n", ".text+0: the jump to 927c4 reaches no longer", False),
    "offset-in-another-file": ("f: j g+2\n", ".text+0: a jump to another file's g+2", False),
    "zcb": (".globl f\n.type f,@function\nf: .half 0x8150\n ret\n.size f,.-f\n", ".text+0: 8150 is no compressed instruction", True),
    "zcmp": (".attribute arch,\"rv32imac\"\nf: ret\n", ".riscv.attributes+0: for rv32i2p0_zcmp1p0_c2p0: zcmp has compressed instructions that are not known here", False),
    "exceptions": ("f: ret\n .section .gcc_except_table,\"a\"\n .word 1\n", ".gcc_except_table+0: an exception table that is not from GCC", False),
    "pitch-by-alignment": ("f: .rept 4\n .balign 8\n c.addi a0,1\n c.addi a0,1\n ret\n .endr\n",
                           ".text+6: code of fixed pitch: places at distances of 8 are now at 16", False),
    "pitch-by-jump": ("f: la t0,t\n slli t1,a0,3\n c.add t0,t1\n jr t0\n t: .rept 2\n c.addi a0,1\n c.addi a0,1\n c.nop\n ret\n .endr\n",
                      ".text+e: a jump to an address computed from 10 of .text, where the code grows", False),
    "of-48-bits": ("f: .half 0x1f,0,0\n ret\n", ".text+0: 001f begins no 32-bit instruction", True),
}


# Entries with room, a table of jumps without C, and a table of distances: expanded.
PITCHES = """
f:      la t0,t
        slli t1,a0,6
        c.add t0,t1
        jr t0
        .balign 64
t:      .rept 4
        .balign 64
        c.addi a0,1
        ret
        .endr
g:      la t0,u
        slli t1,a0,2
        c.add t0,t1
        jr t0
        .option push
        .option norvc
u:      .rept 4
        j f
        .endr
        .size u,.-u
        .option pop
h:      la a1,v
        slli a0,a0,2
        c.add a0,a1
        lw a0,0(a0)
        c.add a0,a1
        jr a0
        .section .rodata
        .balign 4
v:      .word f-v,g-v
"""


def check(folder: pathlib.Path) -> str:
    run(EXPAND, assemble(folder, "pitches", PITCHES, False), "-o", folder / "kept")
    for name, (source, said, unmarked) in OBJECTS.items():
        refuse(folder, [assemble(folder, name, source, unmarked)], [said])
    others = optimized(folder), thin(folder), bsd(folder), linked(folder)
    for path, said in others:
        refuse(folder, [path], [said])
    good = assemble(folder, "good", "f: ret\n", False)
    refuse(folder, [good, folder / "zcb.o", folder / "half-way.o"], [OBJECTS["zcb"][1], OBJECTS["half-way"][1]])
    tool("ar", "rc", folder / "library.a", good, folder / "bare-auipc.o")
    refuse(folder, [folder / "library.a"], ["(bare-auipc.o): " + OBJECTS["bare-auipc"][1]])
    copy = folder / "copy"
    copy.mkdir()
    refuse(folder, [good, copy / good.name], ["several inputs are called good.o"])
    check_debug(folder)
    return f"{len(OBJECTS) + len(others) + 3} refused"


def check_debug(folder: pathlib.Path):
    """Debug data that may have distances without relocations is left out, and that is told."""
    made = assemble(folder, "debug", "f: ret\n .section .debug_info,\"\",@progbits\nd: .word f, d\n", False)
    done = subprocess.run([EXPAND, made, "-o", folder / "warned"], capture_output=True, text=True)
    unit = Object((folder / "warned/debug.o").read_bytes())
    if done.returncode or ".debug_info+0: not from GCC" not in done.stderr or unit.named(".debug_info"):
        raise Failed(f"{made}: status {done.returncode}, {done.stderr}")


def assemble(folder: pathlib.Path, name: str, source: str, unmarked: bool) -> pathlib.Path:
    held, made = folder / f"{name}.S", folder / f"{name}.o"
    held.write_text(source)
    run(PREFIX + "gcc", *COMPRESSED, "-c", held, "-o", made)
    if unmarked:
        tool("objcopy", "-w", "--strip-symbol=$[xd]*", made)
    if name == "zcmp":  # which this assembler doesn't know; a name of the same length
        made.write_bytes(made.read_bytes().replace(b"rv32i2p0_m2p0_a2p0_c2p0", b"rv32i2p0_zcmp1p0_c2p0\0\0").replace(b"rv32i2p1_m2p0_a2p1_c2p0", b"rv32i2p0_zcmp1p0_c2p0\0\0"))
    return made


def optimized(folder: pathlib.Path) -> tuple[pathlib.Path, str]:
    source, made = folder / "lto.c", folder / "lto.o"
    source.write_text("int f(int x) { return x + 1; }\n")
    run(PREFIX + "gcc", *COMPRESSED, "-O2", "-flto", "-c", source, "-o", made)
    return made, "made for link-time optimization"


def thin(folder: pathlib.Path) -> tuple[pathlib.Path, str]:
    made = folder / "thin.a"
    tool("ar", "rcT", made, folder / "zcb.o")
    return made, "a thin archive: give its members"


def bsd(folder: pathlib.Path) -> tuple[pathlib.Path, str]:
    made = folder / "bsd.a"
    made.write_bytes(b"!<arch>\n" + b"#1/4".ljust(16) + b"0".ljust(12) + b"0     0     644     " + b"8".ljust(10) + b"`\nf.o\0data")
    return made, "an archive of BSD's form"


def linked(folder: pathlib.Path) -> tuple[pathlib.Path, str]:
    made = folder / "linked.elf"
    tool("ld", "-melf32lriscv", "-e", "0", folder / "zcb.o", "-o", made)
    return made, "linked already"


def refuse(folder: pathlib.Path, inputs: list[pathlib.Path], said: list[str]):
    """Calls the script, which has to write one line for each refusal, and no file."""
    out = folder / "refused"
    done = subprocess.run([EXPAND, *inputs, "-o", out], capture_output=True, text=True)
    lines = done.stderr.splitlines()
    if done.returncode != 1 or out.exists() or len(lines) != len(said) or not all(each in line for each, line in zip(said, lines)):
        raise Failed(f"{', '.join(each.name for each in inputs)}: status {done.returncode}, {done.stderr}, where {said} is right")
