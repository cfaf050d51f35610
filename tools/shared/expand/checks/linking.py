"""The two ways by a whole program: the command of a link, and a file that was linked already and kept its relocations."""
import pathlib
import subprocess

from shared.expand.checks.binutils import PREFIX, Failed, run, tool
from shared.expand.checks.programs import COMPRESSED, EXPAND, GUESTS, SOURCES, Programs, outcome

LOADED = "-Wl,--emit-relocs"
# A program that ends with the low byte of a constant, which would decode as two instructions.
SMALL = ".globl _start\n_start: lui a1,%hi(number)\n lw a0,%lo(number)(a1)\n li a7,93\n ecall\n c.nop\n .section .rodata\n .balign 4\nnumber: .word 0x00450505\n"
# A program that calls a function behind its first two and its first three instructions, by offsets of its label, and ends with 4 + 8 + 8.
OFFSETS = (".globl _start\n_start: li a0,0\n lui a1,%hi(f+4)\n addi a1,a1,%lo(f+4)\n jalr a1\n la a1,table\n lw a1,4(a1)\n jalr a1\n li a7,93\n ecall\n"
           "f: c.addi a0,1\n c.addi a0,2\n c.addi a0,4\n c.addi a0,8\n ret\n .section .rodata\n .balign 4\ntable: .word f,f+6\n")
TEXT = "SECTIONS { . = 0x10000; .text : { *(.text) } .rodata : { *(.rodata) } %s }\n"
# For each the linker script behind TEXT, words of the linker, and what is said.
REFUSED = {
    "no-relocations": ("", [], ".text+0: code without relocations"),
    "copied": (".data 0x20000 : AT(0x10100) { LONG(1) }", ["-q"], "copied there from 00010100"),
    "a-number": ("number = 0x10008;", ["-q"], "number is 00010008, a number among the file's addresses"),
    "no-entry": ("", ["-q", "-e", "0x10002"], "no global symbol at the entry"),
}


def check_command(tried: Programs) -> str:
    """Links by the driver, from sources and with a library, and by the linker itself; a compressed input that is left is told."""
    folder = tried.folder / "link"
    folder.mkdir()
    sources = [GUESTS / "start.S", GUESTS / "picolibc.c", SOURCES / "printf.c"]
    flags = [*COMPRESSED, "-w", "--specs=picolibc.specs", "-nostartfiles", "-T", tried.script, "-I", GUESTS]
    run(EXPAND, "--link", "--", PREFIX + "gcc", *flags, *sources, "-o", folder / "driver.elf")
    same(outcome("qemu-riscv32", folder / "driver.elf"), outcome("qemu-riscv32", tried.folder / "printf.c.new.elf"))
    (folder / "offsets.S").write_text(OFFSETS)
    run(EXPAND, "--link", "--", PREFIX + "gcc", *COMPRESSED, "-nostdlib", folder / "offsets.S", "-o", folder / "offsets.elf")
    same(outcome("qemu-riscv32", folder / "offsets.elf")[0], 20)
    (folder / "small.S").write_text(SMALL)
    tool("as", "-march=rv32imac", folder / "small.S", "-o", folder / "small.o")
    tool("ar", "rc", folder / "libsmall.a", folder / "small.o")
    (folder / "words").write_text(f"-melf32lriscv -u _start -L {folder} -l small -o {folder}/linker.elf")
    run(EXPAND, "--link", "--", PREFIX + "ld", f"@{folder}/words")
    same(outcome("qemu-riscv32", folder / "linker.elf")[0], 5)
    (folder / "script.ld").write_text(f"INPUT({folder}/small.o)\n" + TEXT % "")
    fails([EXPAND, "--link", "--", PREFIX + "ld", "-melf32lriscv", "-T", folder / "script.ld", "-o", folder / "left.elf"], f"that of {folder}/small.o")
    fails([EXPAND, "--link", "--", PREFIX + "gcc", *COMPRESSED, "-c", folder / "small.S", "-o", folder / "small.o"], "called no linker")
    if (folder / "left.elf").exists():
        raise Failed("a file with compressed code is left")
    return "5 links"


def check_linked(tried: Programs, name: str) -> str:
    """Links a program with its constants apart, expands that, and links it anew."""
    folder = tried.folder / f"{name}.linked"
    folder.mkdir()
    apart = folder / "apart.ld"
    apart.write_text(tried.script.read_text().replace("    *(.rodata", "  } :text\n  .rodata :\n  {\n    *(.rodata", 1))
    objects = sorted((tried.folder / f"{name}.compressed").glob("*.o"), key=lambda path: path.name != "start.o")
    old = folder / "old.elf"
    for flags in (["-Wl,--no-relax"], []):
        run(PREFIX + "gcc", *COMPRESSED, "-nostdlib", "-nostartfiles", "-T", apart, LOADED, *flags, *objects,
            "-Wl,--start-group", *tried.libraries.compressed, "-Wl,--end-group", "-o", old)
        run(EXPAND, "--linked", old, "-o", folder / "expanded")
        tool("ld", "-melf32lriscv", "-T", folder / "expanded/old.ld", folder / "expanded/old.o", "-o", folder / "new.elf")
        same(outcome("qemu-riscv32", folder / "new.elf"), outcome("qemu-riscv32", old))
        if tried.swic:
            same(outcome(tried.swic, "plain", folder / "new.elf"), outcome("qemu-riscv32", old))
    return "2 files linked anew"


def check_refused(folder: pathlib.Path) -> str:
    source, made, script, linked = (folder / f"whole.{end}" for end in ("S", "o", "ld", "elf"))
    for more, words, said in REFUSED.values():
        source.write_text(SMALL if "number =" not in more else SMALL.replace("number: ", ""))
        script.write_text(TEXT % more)
        tool("as", "-march=rv32imac", source, "-o", made)
        tool("ld", "-melf32lriscv", "-T", script, *words, made, "-o", linked)
        fails([EXPAND, "--linked", linked, "-o", folder / "none"], said)
    source.write_text(SMALL)
    script.write_text("SECTIONS { . = 0x10000; .text : { *(.text) *(.rodata) } }\n")
    tool("as", "-march=rv32imac", source, "-o", made)
    tool("ld", "-melf32lriscv", "-T", script, "-q", made, "-o", linked)
    fails([EXPAND, "--linked", linked, "-o", folder / "none"], "read or written as data")
    return f"{len(REFUSED) + 1} refused"


def same(is_now, wanted):
    if is_now != wanted:
        raise Failed(f"{is_now}, where {wanted} is right")


def fails(words: list, said: str):
    done = subprocess.run(words, capture_output=True, text=True)
    if done.returncode != 1 or said not in done.stderr:
        raise Failed(f"{' '.join(map(str, words))}: status {done.returncode}, {done.stderr}, where {said} is right")
