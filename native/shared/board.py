"""Boards, ELF files and rewritten files."""
import dataclasses
import os
import pathlib
import struct
import subprocess
import tomllib

from shared.words import Wrong

HERE = pathlib.Path(__file__).resolve().parent.parent
BOARDS = HERE / "boards"
IMAGE_HEADER = 0x6C434953  # the type of the program header that has a rewritten file's image
SYMBOL_TABLE = 2
ALLOCATED, EXECUTABLE = 2, 4  # flags of a section
PLACE_BLOCK_SHIFT = 13  # runtime.h


@dataclasses.dataclass(frozen=True)
class Board:
    """A folder of native/boards: its linker script, and what its board.toml says."""
    folder: pathlib.Path
    flash: int
    flash_bytes: int
    reset: int
    ram: range
    qemu: list

    @property
    def script(self):
        return self.folder / "board.ld"

    def sources(self):
        return sorted(self.folder.glob("*.[cS]"))


def read_board(name):
    """A board by its name in native/boards, or by the path of a folder elsewhere."""
    folder = BOARDS / name if (BOARDS / name).is_dir() else pathlib.Path(name)
    try:
        held = tomllib.loads((folder / "board.toml").read_text(encoding="utf-8"))
        ram = range(held["ram"], held["ram"] + held["ram_bytes"])
        return Board(folder, held["flash"], held["flash_bytes"], held["reset"], ram, held.get("qemu", []))
    except OSError:
        known = ", ".join(sorted(path.parent.name for path in BOARDS.glob("*/board.toml")))
        raise Wrong(f"no board {name}: there are {known}, or the path of a folder with a board.toml", 250) from None
    except (KeyError, TypeError, tomllib.TOMLDecodeError) as error:
        raise Wrong(f"{folder}/board.toml: {error}", 250) from None


@dataclasses.dataclass(frozen=True)
class Segment:
    """A loaded segment: where it stands in flash, its bytes there, and where the program sees it."""
    physical: int
    held: bytes
    address: int
    size: int


@dataclasses.dataclass(frozen=True)
class Section:
    """A section that is loaded."""
    name: str
    address: int
    size: int
    is_code: bool


class Elf:
    """What is read of an ELF file for RV32."""

    def __init__(self, path):
        try:
            self.data = pathlib.Path(path).read_bytes()
        except OSError as error:
            raise Wrong(f"no file {path} that can be read: {error.strerror}", 248) from None
        if self.data[:6] != b"\x7fELF\1\1" or self.data[16:20] != b"\2\0\xf3\0":
            raise Wrong(f"{path} is no program for RV32", 243)
        try:
            self.read()
        except (struct.error, IndexError, ValueError):
            raise Wrong(f"{path} is a damaged ELF file", 243) from None

    def read(self):
        self.entry, table, sections = struct.unpack_from("<3I", self.data, 24)
        size, count, section_size, section_count = struct.unpack_from("<4H", self.data, 42)
        self.segments, self.image = [], None
        for at in range(table, table + size * count, size):
            kind, offset, address, physical, held, total, *_ = struct.unpack_from("<8I", self.data, at)
            if kind == 1 and total:
                self.segments.append(Segment(physical, self.data[offset : offset + held], address, total))
            elif kind == IMAGE_HEADER:
                self.image = self.data[offset : offset + held]
        at = range(sections, sections + section_size * section_count, section_size) if section_count else ()
        headers = [struct.unpack_from("<10I", self.data, it) for it in at]
        self.symbols = dict(self.read_symbols(headers))
        self.sections = list(self.read_sections(headers))

    def text_at(self, at):
        return self.data[at : self.data.index(b"\0", at)].decode(errors="replace")

    def read_sections(self, headers):
        names = headers[struct.unpack_from("<H", self.data, 50)[0]][4] if headers else 0
        for name, _, flags, address, _, size, *_ in headers:
            if flags & ALLOCATED:
                yield Section(self.text_at(names + name), address, size, bool(flags & EXECUTABLE))

    def read_symbols(self, sections):
        """The symbols that are defined, with their values."""
        for _, kind, _, _, offset, length, link, *_ in sections:
            for at in range(offset, offset + length, 16) if kind == SYMBOL_TABLE else ():
                begin, value, _, _, _, section = struct.unpack_from("<IIIBBH", self.data, at)
                names = sections[link][4]
                if section:
                    yield self.text_at(names + begin), value

    def words_at(self, address, count):
        """The words that a segment of the file has from an address on, at most so many."""
        for it in self.segments:
            if it.address <= address < it.address + len(it.held):
                held = it.held[address - it.address :][: 4 * count]
                return struct.unpack(f"<{len(held) // 4}I", held[: len(held) // 4 * 4])
        return ()

    def symbol(self, name):
        """The address of a symbol, or the number that stands in its place."""
        if name in self.symbols:
            return self.symbols[name]
        try:
            return int(name, 16)
        except ValueError:
            raise Wrong(f"no symbol {name} in the program, and no hexadecimal address", 250) from None


class Image:
    """The image of a rewritten file: its numbers, and where each text word stands."""

    def __init__(self, data):
        self.data = data
        _, self.version, self.block_words, self.blocks, self.text_words, self.base = struct.unpack_from("<6I", data)
        self.starts = self.table(6, self.blocks)
        self.offsets = self.table(6 + self.version * self.blocks, self.text_words)

    def table(self, first, count):
        return struct.unpack_from(f"<{count}I", self.data, 4 * first)

    def places(self):
        """The table that service_fill_places makes: of each text word its block and its offset in one word."""
        found, block, starts = [], -1, set(self.starts)
        for word, offset in enumerate(self.offsets):
            block += word in starts
            found.append(block << PLACE_BLOCK_SHIFT | offset)
        return struct.pack(f"<{len(found)}I", *found)


def build():
    """Builds what is missing of the runtime, or older than its sources."""
    if subprocess.run([HERE / "build"], check=False).returncode:
        raise Wrong("native/build has failed", 254)


def hint(*words):
    """Says what tools/hints says of a file, or of a line of swic, where it says something: before the line that refuses it."""
    script = HERE.parent / "tools/hints"
    if script.exists() and not os.environ.get("SWIC_QUIET"):
        subprocess.run([script, *words], stdin=subprocess.DEVNULL, check=False)


def program_named():
    """The program swic, built or not; SWIC names another."""
    return pathlib.Path(os.environ.get("SWIC") or HERE.parent / "crates/swic/out/swic")


def built_program():
    """The program swic that is built; SWIC names another."""
    path = program_named()
    if not os.access(path, os.X_OK):
        raise Wrong(f"no program {path}: ./swic --prove proves and builds it, in 20 to 25 minutes; SWIC names another", 254)
    return path
