"""Functions by their names: as a reader knows them, and as lines of a linker script."""
import re
import shutil
import subprocess

FILTERS = ["c++filt", *(f"{tools}c++filt" for tools in ("riscv64-unknown-elf-", "riscv32-unknown-elf-", "riscv-none-elf-", "riscv64-linux-gnu-", "llvm-"))]
FRAGMENT = """\
/* {what}
   INCLUDE this file in SECTIONS, behind the section that holds the reset code and before .text. ram and flash are the names of the
   memories. The start code copies the words from __hot_in_flash to __hot, up to __hot_end, and executes fence.i. */
  .hot :
  {{
    __hot = .;
{lines}    . = ALIGN(4);
    __hot_end = .;
  }} >ram AT>flash
  __hot_in_flash = LOADADDR(.hot);
"""


def readable(names):
    """Each name with what it is in C++, where there is a c++filt; else the name itself."""
    found, mangled = {name: name for name in names}, [name for name in names if name.startswith("_Z")]
    tool = next(filter(None, map(shutil.which, FILTERS)), None) if mangled else None
    if tool:
        told = subprocess.run([tool], input="\n".join(mangled) + "\n", capture_output=True, text=True, errors="replace").stdout.splitlines()
        if len(told) == len(mangled):
            found |= zip(mangled, told)
    return found


def lines_of(functions):
    """The lines of a linker script by which functions, each of one or more names, stand one behind the other; those of libgcc are named by
    their members."""
    for name in dict.fromkeys(name for names in functions for name in names if re.fullmatch(r"[\w.$]+", name)):
        yield f"    *(.text.{name} .text.*.{name})\n"
        if name.startswith("__"):
            members = ["save-restore"] if name.startswith("__riscv_") else [name[1:], name[2:]]
            yield from (f"    *libgcc.a:{member}.o(.text)\n" for member in members)


def fragment(what, functions):
    """A piece of a linker script that takes these functions into a section of fast RAM."""
    return FRAGMENT.format(what=what, lines="".join(lines_of(functions)))
