"""The names of architectures, and the section .riscv.attributes that holds one."""
import re
import struct

from shared.expand import leb128
from shared.expand.objects import Refused, text_at

ARCHITECTURE = 5  # the tag of its name
UNKNOWN_FORMS = ("zcb", "zce", "zcmp", "zcmt", "zcmop")  # parts of C beyond the table in instructions.py
COMPRESSED = re.compile(r"(c|zca|zcf|zcd)(\d+(p\d+)?)?")


def parts_of(name: str) -> list[str]:
    """rv32imac_zicsr as rv32, i, m, a, c, zicsr; versions stay with their parts."""
    first, *more = name.split("_")
    letters = re.findall(r"[a-z](?:\d+(?:p\d+)?)?", first[4:])
    return [first[:4], *letters, *more]


def without_compressed(name: str) -> str:
    """The name without C and its parts, written as the name was."""
    first, *more = name.split("_")
    head, *letters = parts_of(first)
    kept = [part for part in more if not COMPRESSED.fullmatch(part)]
    return "_".join([head + "".join(letter for letter in letters if letter[0] != "c"), *kept])


def has(name: str, part: str) -> bool:
    """Whether a part is named, in whatever version."""
    return any(re.fullmatch(part + r"(\d+(p\d+)?)?", each) for each in parts_of(name))


def check(name: str):
    for part in UNKNOWN_FORMS:
        if has(name, part):
            raise Refused(f"for {name}: {part} has compressed instructions that are not known here", ".riscv.attributes")


class Attributes:
    """The section with the name of the architecture, and the same without C."""

    def __init__(self, data: bytes):
        self.name = ""
        self.data = data
        if not data:
            self.bytes = b""
            return
        try:
            self.bytes = self.read()
        except (IndexError, ValueError, struct.error):
            raise Refused("damaged", ".riscv.attributes") from None

    def read(self) -> bytes:
        if self.data[0] != ord("A"):
            raise Refused("unknown form", ".riscv.attributes")
        out, at = bytearray(b"A"), 1
        while at < len(self.data):
            size = struct.unpack_from("<I", self.data, at)[0]
            vendor, _, rest = self.data[at + 4:at + size].partition(b"\0")
            rest = self.of_vendor(rest) if vendor == b"riscv" else rest
            out += struct.pack("<I", len(vendor) + 5 + len(rest)) + vendor + b"\0" + rest
            at += max(size, 5)
        return bytes(out)

    def of_vendor(self, data: bytes) -> bytes:
        """The tables of attributes, of which the one of the file is the only one in use."""
        out, at = b"", 0
        while at < len(data):
            size = struct.unpack_from("<I", data, at + 1)[0]
            made = self.of_table(data[at + 5:at + size])
            out += data[at:at + 1] + struct.pack("<I", len(made) + 5) + made
            at += max(size, 5)
        return out

    def of_table(self, data: bytes) -> bytes:
        out, at = b"", 0
        while at < len(data):
            begin = at
            tag, at = leb128.unsigned(data, at)
            if tag & 1:  # a text
                text = text_at(data, at)
                if tag == ARCHITECTURE:
                    self.name = text
                out += data[begin:at] + (without_compressed(text) if tag == ARCHITECTURE else text).encode("latin-1") + b"\0"
                at += len(text) + 1
            else:
                at = leb128.skip(data, at)
                out += data[begin:at]
        return out
