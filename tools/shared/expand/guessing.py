"""Where no mapping symbols say what is code: refuses what may as well be data."""
from shared.expand import instructions as rv
from shared.expand.objects import FUNCTION, LOCAL, NOTYPE
from shared.expand.reading import DATA, INSTRUCTION
from shared.expand.stretching import Code


def entries_of(code: Code) -> set[int]:
    """Where control comes to a section for sure: its functions, the labels that other files see, and its own jumps."""
    found = {symbol.value for symbol in code.symbols if symbol.kind == FUNCTION or symbol.kind == NOTYPE and symbol.binding != LOCAL}
    return found | {item.target for item in code.items if item.target is not None}


def goes_on(item) -> bool:
    """Whether control goes on behind an item: not behind data, a jump or an instruction that ends."""
    return item.kind != DATA and not (item.kind == INSTRUCTION and (item.word & 0xFFF in (rv.JAL, rv.JALR) or item.word in rv.ENDS))


def reached(code: Code, entries: set[int]) -> set[int]:
    """The offsets of the items to which control comes from the entries, straight on."""
    seen: set[int] = set()
    indices = [code.index(entry) for entry in entries if entry in code.at]
    while indices:
        k = indices.pop()
        if k < len(code.items) and code.items[k].offset not in seen:
            seen.add(code.items[k].offset)
            if goes_on(code.items[k]):
                indices.append(k + 1)
    return seen


def check(code: Code, entries: set[int]):
    """Refuses an instruction that stands in no function with a size, and that is not reached."""
    seen = reached(code, entries | entries_of(code))
    inside = bytearray(code.end)
    for symbol in code.symbols:
        if symbol.kind == FUNCTION and symbol.size:
            inside[symbol.value:symbol.value + symbol.size] = b"\1" * symbol.size
    for item in code.items:
        if item.kind == INSTRUCTION and item.offset not in seen and not inside[item.offset] and item.word not in (rv.NOP, rv.UNIMP):
            code.section.refuse(item.offset, "no function, not reached from one, and no mapping symbol: code or data? (--code says that it is code)")
