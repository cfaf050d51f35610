"""ELF files that swic accepts: their text, their functions, and copies with the text moved."""
import collections
import dataclasses
import struct

from shared.runs import Wrong, remedy

IMAGE = 0x6C434953  # the type of the program header that marks the blocks of a rewritten file
NOP = struct.pack("<I", 0x13)
BRANCH, JUMP = 0x63, 0x6F  # the low 7 bits of a branch, and of a JAL
CALL, GOES, GOES_BY_REGISTER = 0x0EF, 0x06F, 0x067  # the low 12 bits of a JAL that links ra, one that links nothing, and a JALR that links nothing


@dataclasses.dataclass(frozen=True)
class Segment:
    """A program header, with where it stands in the file."""
    header: int
    kind: int
    offset: int
    address: int
    held: int
    size: int
    flags: int


class Elf:
    """What is read of an ELF32 file that swic accepts."""

    def __init__(self, data):
        self.data = data
        (self.entry, table), count = struct.unpack_from("<2I", data, 24), struct.unpack_from("<H", data, 44)[0]
        self.segments = []
        for header in range(table, table + 32 * count, 32):
            kind, offset, address, _, held, size, flags, _ = struct.unpack_from("<8I", data, header)
            self.segments.append(Segment(header, kind, offset, address, held, size, flags))
        self.loaded = [segment for segment in self.segments if segment.kind == 1 and segment.size]
        self.executed = next(segment for segment in self.loaded if segment.flags & 1)
        skipped = -self.executed.address % 4
        self.text = self.executed.address + skipped  # the address of the first text word
        self.text_bytes = (self.executed.held - skipped) // 4 * 4

    def word(self, address):
        return struct.unpack_from("<I", self.data, self.executed.offset + address - self.executed.address)[0]

    def image_bytes(self):
        return next((segment.held for segment in self.segments if segment.kind == IMAGE), None)

    def moved(self, words):
        """The same program with so many words before its text, which nothing executes: addresses stay, and blocks are cut elsewhere."""
        segment, more = self.executed, 4 * words
        if segment.address < more:
            raise Wrong("no address is free below the text")
        if any(other.address < segment.address and other.address + other.size > segment.address - more for other in self.loaded):
            raise Wrong("another segment stands right below the text")
        data = bytearray(self.data) + bytes(-len(self.data) % 4)
        struct.pack_into("<IIIII", data, segment.header + 4, len(data), segment.address - more, segment.address - more, segment.held + more, segment.size + more)
        return bytes(data + NOP * words + self.data[segment.offset:segment.offset + segment.held])

    def image_blocks(self):
        """How many blocks a rewritten file has."""
        image = next(segment for segment in self.segments if segment.kind == IMAGE)
        return struct.unpack_from("<I", self.data, image.offset + 12)[0]

    def functions(self):
        """The functions of the text as (address, name), ascending: symbols of functions, and labels that other files see."""
        return [(address, name) for address, _, name in self.extents()]

    def extents(self):
        """The same with the bytes of each, up to the next; those of the last by its symbol, since constants may stand behind it."""
        found = {}
        for name, address, size, info in self.symbols():
            kind, bound = info & 15, info >> 4
            if kind == 2 or kind == 0 and bound:
                # at one address a function goes before a label, and what others see before what is local
                found[address] = min(found.get(address, (9, 9, "", 0)), (kind == 0, bound == 0, name, size))
        begins = sorted(found)
        ends = [*begins[1:], self.text + self.text_bytes]
        sizes = [end - begin for begin, end in zip(begins, ends)]
        if begins and found[begins[-1]][3]:
            sizes[-1] = found[begins[-1]][3]
        return [(begin, size, found[begin][2]) for begin, size in zip(begins, sizes)]

    def aliases(self):
        """All names of each function by its address, since a section may have any of them."""
        found = collections.defaultdict(list)
        for name, address, _, info in self.symbols():
            if info & 15 == 2 or info & 15 == 0 and info >> 4:
                found[address].append(name)
        return found

    def pieces(self):
        """The same of a file that names no functions: a piece begins where a call leads, and behind a jump where no other jump or branch
        leads across."""
        end, begins, across = self.text + self.text_bytes, {self.text, self.entry}, collections.Counter()
        for address in range(self.text, end, 4):
            word = self.word(address)
            target = address + (jump_of(word) if word & 0x7F == JUMP else branch_of(word) if word & 0x7F == BRANCH else 0)
            if target % 4 or not self.text <= target < end:
                continue
            if word & 0xFFF == CALL:
                begins.add(target)
            else:
                across[min(address, target) + 4] += 1
                across[max(address, target) + 4] -= 1
        crossing = 0
        for address in range(self.text, end, 4):
            crossing += across[address]
            if address > self.text and not crossing and self.word(address - 4) & 0xFFF in (GOES, GOES_BY_REGISTER):
                begins.add(address)
        begins = sorted(begins)
        return [(begin, after - begin, f"{begin:08x}") for begin, after in zip(begins, [*begins[1:], end])]

    def symbols(self):
        """The symbols of the text; none where sections or names are damaged, which swic ignores."""
        try:
            return list(self.read_symbols())
        except (struct.error, IndexError, ValueError):
            return []

    def read_symbols(self):
        table, size, count = struct.unpack_from("<I", self.data, 32)[0], *struct.unpack_from("<HH", self.data, 46)
        sections = [struct.unpack_from("<10I", self.data, table + size * k) for k in range(count if table else 0)]
        for _, kind, _, _, offset, length, link, *_ in sections:
            if kind != 2:
                continue
            names = sections[link][4]
            for at in range(offset, offset + length, 16):
                begin, address, bytes_of, info, _, section = struct.unpack_from("<IIIBBH", self.data, at)
                end = self.data.index(b"\0", names + begin)
                name = self.data[names + begin:end].decode(errors="replace")
                if name and section and self.text <= address < self.text + self.text_bytes:
                    yield name, address, bytes_of, info


def jump_of(word):
    """How far the JAL that a word is leads."""
    distance = word >> 31 << 20 | (word >> 12 & 255) << 12 | (word >> 20 & 1) << 11 | (word >> 21 & 1023) << 1
    return distance - (distance >> 20 << 21)


def branch_of(word):
    """How far the branch that a word is leads."""
    distance = word >> 31 << 12 | (word >> 7 & 1) << 11 | (word >> 25 & 63) << 5 | (word >> 8 & 15) << 1
    return distance - (distance >> 12 << 13)


def program_of(runner, path, name):
    """The file of a program, which `swic check` takes for one that has no blocks of its own."""
    run = runner.run([str(runner.program), "check", str(path)], "/dev/null")
    if run.status in (0, 244, 245):
        raise Wrong(f"{name} was rewritten and has its own blocks: take the file that it was made of")
    if run.status != 252:
        raise Wrong(f"{name} can't be run: {run.line}{remedy(run.line, path, name)}")
    return read_elf(path, name)


def read_elf(path, name):
    data = path.read_bytes()
    if len(data) < 52 or data[:4] != b"\x7fELF":
        raise Wrong(f"{name} is no ELF file")
    try:
        return Elf(data)
    except (struct.error, StopIteration, IndexError, ValueError):
        raise Wrong(f"{name} is no program that swic accepts") from None
