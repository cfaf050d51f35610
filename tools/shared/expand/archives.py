"""Archives of objects (ar), in the form that GNU and LLVM share."""
import dataclasses
import struct

from shared.expand.objects import Refused

MAGIC, THIN = b"!<arch>\n", b"!<thin>\n"
HEADER = 60
NAMES, SYMBOLS, SYMBOLS_64 = "//", "/", "/SYM64/"


@dataclasses.dataclass
class Member:
    place: int  # of its header in the archive
    header: bytes
    label: str  # as its header has it
    data: bytes
    name: str = ""

    @property
    def is_object(self) -> bool:
        return self.label not in (NAMES, SYMBOLS)


def read(data: bytes) -> list[Member]:
    members, at = [], len(MAGIC)
    while at < len(data):
        header = data[at:at + HEADER]
        label, size = header[:16].decode("latin-1").rstrip(), header[48:58].strip()
        if len(header) < HEADER or header[58:] != b"`\n" or not size.isdigit() or at + HEADER + int(size) > len(data):
            raise Refused(f"a damaged archive: no member at {at:x}")
        if label.startswith(("#1/", "__.SYMDEF")):
            raise Refused("an archive of BSD's form: make it anew by ar of GNU or LLVM")
        if label == SYMBOLS_64:
            raise Refused("an archive with a table of symbols of 64 bits")
        members.append(Member(at, header, label, data[at + HEADER:at + HEADER + int(size)]))
        at += HEADER + int(size) + int(size) % 2
    name_members(members)
    return members


def name_members(members: list[Member]):
    """A long name stands in a table, by its offset."""
    table = next((member.data for member in members if member.label == NAMES), b"")
    for member in members:
        name = member.label
        if name[:1] == "/" and name[1:].isdigit():
            start = int(name[1:])
            name = table[start:table.find(b"\n", start)].decode("latin-1")
        member.name = name.rstrip("/")


def to_bytes(members: list[Member]) -> bytes:
    """The archive, whose table of symbols has the offsets of the members now."""
    places, at = {}, len(MAGIC)
    for member in members:
        places[member.place] = at
        at += HEADER + len(member.data) + len(member.data) % 2
    out = bytearray(MAGIC)
    for member in members:
        data = moved_symbols(member.data, places) if member.label == SYMBOLS else member.data
        out += member.header[:48] + str(len(data)).ljust(10).encode() + member.header[58:] + data + b"\n" * (len(data) % 2)
    return bytes(out)


def moved_symbols(data: bytes, places: dict[int, int]) -> bytes:
    try:
        count = struct.unpack_from(">I", data)[0]
        offsets = [places[offset] for offset in struct.unpack_from(f">{count}I", data, 4)]
    except (struct.error, KeyError):
        raise Refused("a damaged archive: its table of symbols") from None
    return struct.pack(f">{count + 1}I", count, *offsets) + data[4 + 4 * count:]
