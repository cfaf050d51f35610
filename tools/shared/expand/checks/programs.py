"""Programs of compressed objects and libraries: expanded they do on each machine what they did before."""
import pathlib
import re
import subprocess

from shared import runs
from shared.expand.checks.binutils import PREFIX, Failed, Word, run, tool

SOURCES = pathlib.Path(__file__).parent / "programs"
GUESTS = runs.TOP / "guests"
EXPAND = runs.TOP / "tools/expand"
COMPRESSED, DIRECT = ["-march=rv32imac", "-mabi=ilp32"], ["-march=rv32im", "-mabi=ilp32"]
CACHES = [], ["--cache", "1024", "--block", "16"]
INPUT = b"one two three four\nfive"
# The flags of each program: of the compiler, and of the linker.
PROGRAMS = {
    "printf.c": (["-Os", "-g"], []), "sort.c": (["-O2", "-msave-restore"], []), "heap.c": (["-O3", "-funroll-loops"], []), "jumps.c": (["-O0", "-falign-functions=16"], []),
    "floats.c": (["-O2", "-mcmodel=medany"], []), "switch.c": (["-O2", "-fPIC"], ["-Wl,--no-relax"]),
    "constructors.c": (["-Os", "-ffunction-sections", "-fdata-sections"], ["-Wl,--gc-sections"]),
    "shapes.cc": (["-O2", "-fno-exceptions", "-fno-rtti", "-fno-threadsafe-statics"], []), "fixed.c": (["-O2", "-mno-relax"], []),
    "unwind.c": (["-O2", "-fasynchronous-unwind-tables"], []),
}


class Libraries:
    """The C library and libgcc for compressed code, the same expanded, and those for code without C."""

    def __init__(self, folder: pathlib.Path):
        self.compressed, self.direct = self.found(COMPRESSED), self.found(DIRECT)
        run(EXPAND, *self.compressed, "-o", folder)
        self.expanded = [folder / library.name for library in self.compressed]

    @staticmethod
    def found(flags: list[str]) -> list[pathlib.Path]:
        """The C library in the folders that the compiler gives to the linker, and libgcc."""
        asked = subprocess.run([PREFIX + "gcc", *flags, "--specs=picolibc.specs", "-###", "none.o"], capture_output=True, text=True).stderr
        folders = [pathlib.Path(folder) for folder in re.findall(r"-L(\S*?)\"?\s", asked)]
        library = next((folder / "libc.a" for folder in folders if (folder / "libc.a").is_file()), None)
        if not library:
            raise Failed(f"no picolibc for {flags}")
        return [library.resolve(), pathlib.Path(run(PREFIX + "gcc", *flags, "-print-libgcc-file-name").strip())]


class Programs:
    """Builds and runs the programs; `swic` is None where it isn't built."""

    def __init__(self, folder: pathlib.Path, libraries: Libraries, swic: pathlib.Path | None):
        self.folder, self.libraries, self.swic = folder, libraries, swic
        self.script = folder / "link.ld"
        text = (GUESTS / "link.ld").read_text().replace("*(.eh_frame .eh_frame_hdr)", "*(.eh_frame_hdr)")
        frames = "  .eh_frame : { __eh_frame_begin = .; KEEP(*(.eh_frame)) LONG(0) } :text\n"
        self.script.write_text(text.replace("  . = ALIGN(4096);\n", f"{frames}  . = ALIGN(4096);\n", 1))

    def check(self, name: str) -> str:
        flags, link_flags = PROGRAMS[name]
        objects = self.objects(name, COMPRESSED, flags, "compressed")
        expanded = self.folder / f"{name}.expanded"
        run(EXPAND, *objects, "-o", expanded)
        old = self.link(f"{name}.old", COMPRESSED, objects, self.libraries.compressed, link_flags)
        new = self.link(f"{name}.new", DIRECT, [expanded / each.name for each in objects], self.libraries.expanded, link_flags)
        direct = self.link(f"{name}.direct", DIRECT, self.objects(name, DIRECT, flags, "direct"), self.libraries.direct, link_flags)
        wanted = outcome("qemu-riscv32", old)
        for words in self.ways(new, direct):
            if (is_now := outcome(*words)) != wanted:
                raise Failed(f"{' '.join(map(str, words))}: {is_now}, where {wanted} is right")
        sizes = [text_size(each) for each in (old, new, direct)]
        if not 0.98 < sizes[1] / sizes[2] < 1.02:
            raise Failed(f"{name}: text of {sizes[1]} bytes, built for rv32im {sizes[2]}")
        return "text {} -> {} bytes, built for rv32im {}".format(*sizes)

    def ways(self, new: pathlib.Path, direct: pathlib.Path) -> list[list[Word]]:
        own = [[self.swic, "plain", new], *([self.swic, "cached", new, *cache] for cache in CACHES)] if self.swic else []
        return [["qemu-riscv32", new], ["qemu-riscv32", direct], *own]

    def objects(self, name: str, machine: list[str], flags: list[str], kind: str) -> list[pathlib.Path]:
        folder = self.folder / f"{name}.{kind}"
        folder.mkdir()
        found = []
        for source in (GUESTS / "start.S", GUESTS / "picolibc.c", SOURCES / name):
            found.append(folder / f"{source.stem}.o")
            compiler = "g++" if source.suffix == ".cc" else "gcc"
            own = flags if source.suffix == pathlib.Path(name).suffix else ["-O2"]
            run(PREFIX + compiler, *machine, "--specs=picolibc.specs", *own, "-I", GUESTS, "-c", source, "-o", found[-1])
        return found

    def link(self, name: str, machine: list[str], objects: list[pathlib.Path], libraries: list[pathlib.Path], flags: list[str]) -> pathlib.Path:
        out = self.folder / f"{name}.elf"
        run(PREFIX + "gcc", *machine, "-nostdlib", "-nostartfiles", "-T", self.script, *flags, *objects,
            "-Wl,--start-group", *libraries, "-Wl,--end-group", "-o", out)
        return out


def outcome(*words: Word) -> tuple[int, bytes, bytes]:
    done = subprocess.run(words, input=INPUT, capture_output=True, timeout=100)
    return done.returncode, done.stdout, done.stderr


def text_size(path: pathlib.Path) -> int:
    return sum(int(size, 16) for size in re.findall(r" \.text\s+PROGBITS\s+\S+ \S+ (\S+)", tool("readelf", "-SW", path)))
