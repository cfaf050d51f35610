"""The numbers of DWARF that take as many bytes as they need."""


def unsigned(data: bytes, at: int) -> tuple[int, int]:
    """The number at an offset, and the offset behind it."""
    value = shift = 0
    while True:
        byte = data[at]
        value |= (byte & 0x7F) << shift
        shift += 7
        at += 1
        if not byte & 0x80:
            return value, at


def skip(data: bytes, at: int, count: int = 1) -> int:
    """The offset behind so many numbers, with a sign or without."""
    for _ in range(count):
        while data[at] & 0x80:
            at += 1
        at += 1
    return at
