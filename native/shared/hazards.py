"""What in a firmware would go wrong in the cache, though each word of it is rendered: told before it is packed."""
import bisect
import struct

from shared.words import Wrong

SEQUENCE_WORDS = 16  # the most instructions of a constrained LR/SC loop, by the standard
STARTUP_WORDS = 256  # how far a startup is followed
STACKS = "__stack _stack _estack __stack_top _stack_top __StackTop _sp __sp __initial_sp _eusrstack _stack_end __stack_end __stack_end__ metal_segment_stack_end __freertos_irq_stack_top".split()
SP = 2
LUI, AUIPC, ADDI, JAL, JALR, BRANCH, STORE, FENCE = 0x37, 0x17, 0x13, 0x6F, 0x67, 0x63, 0x23, 0x0F


def is_load_reserved(word):
    return word & 0xF9F0707F == 0x1000202F


def is_store_conditional(word):
    return word & 0xF800707F == 0x1800202F


def name_at(elf, address):
    """An address, and the nearest symbol before it."""
    named = sorted((value, name) for name, value in elf.symbols.items() if value <= address and name[:1] not in "$." and name)
    if not named:
        return f"{address:08x}"
    value, name = named[-1]
    return f"{address:08x} ({name}+{address - value:#x})" if address - value else f"{address:08x} ({name})"


def store_behind(words, load):
    """The index of the SC.W of an LR.W; None where none stands near, or another LR.W is before it."""
    for k in range(load + 1, min(load + SEQUENCE_WORDS, len(words))):
        if is_store_conditional(words[k]):
            return k
        if is_load_reserved(words[k]):
            return None
    return None


def check_reservations(elf, image):
    """Refuses an LR.W and its SC.W in two blocks, between which a processor may end the reservation each time; answers warnings."""
    words, warnings = elf.words_at(image.base, image.text_words), []
    for load in (k for k, word in enumerate(words) if is_load_reserved(word)):
        place, store = name_at(elf, image.base + 4 * load), store_behind(words, load)
        if store is None:
            warnings.append(f"the LR.W at {place} has no SC.W within {SEQUENCE_WORDS - 1} words: an SC.W in another block may fail each time")
        elif bisect.bisect_right(image.starts, load) != bisect.bisect_right(image.starts, store):
            raise Wrong(f"no room: the LR.W at {place} and its SC.W don't fit in one block of {image.block_words} words: take longer blocks (--block)", 247)
    return warnings


def after(known, pc, word):
    """What the registers hold behind an instruction, as far as it is known, and the next address; None where nothing is followed further."""
    opcode, rd, rs1 = word & 127, word >> 7 & 31, word >> 15 & 31
    immediate = (word >> 20) - (word >> 31 << 12)
    target = pc + 4
    value = {LUI: word & 0xFFFFF000, AUIPC: pc + (word & 0xFFFFF000)}.get(opcode)
    if opcode == ADDI and word >> 12 & 7 == 0 and rs1 in known:
        value = known[rs1] + immediate
    if opcode == JAL:
        target = pc + (word >> 20 & 0x7FE | word >> 9 & 0x800 | word & 0xFF000) - (word >> 31 << 20)
    if opcode == JALR:
        target = known.get(rs1, None) if rd == 0 else None
        target = target and target + immediate
    if opcode not in (BRANCH, STORE, FENCE) and rd:
        known = {number: held for number, held in known.items() if number != rd} | ({} if value is None else {rd: value % 2**32})
    return known, None if opcode == JAL and rd or target is None else target % 2**32


def stack_of_startup(elf):
    """The last value that the startup gives sp before its first call, straight on from the entry; None where it isn't known."""
    known, pc, found = {0: 0}, elf.entry, None
    for _ in range(STARTUP_WORDS):
        word = elf.words_at(pc, 1)
        if not word:
            break
        known, pc = after(known, pc, word[0])
        found = known.get(SP, found)
        if pc is None:
            break
    return found


def check_stack(board, elf, runtime):
    """Refuses a stack that begins in the runtime's RAM, where no section of the firmware has it; answers a warning where none is found."""
    found = {name: elf.symbols[name] for name in STACKS if elf.symbols.get(name, 0) in board.ram or elf.symbols.get(name) == board.ram.stop}
    begun = stack_of_startup(elf)
    if begun is not None:
        found["the startup's sp"] = begun
    for name, at in found.items():
        for region in ("swicache_ram", "swicache_cache_ram"):
            begin, end = runtime.symbols[region], runtime.symbols[f"{region}_end"]
            if begin < at <= end:
                raise Wrong(f"the firmware's stack begins at {at:08x} ({name}), and the runtime has the RAM from {begin:08x} to {end:08x}: let the linker script end the firmware's RAM before it", 247)
    return [] if found else ["no stack was found, neither by a symbol nor in the startup: see that it stays out of the runtime's RAM"]


def check_sections(board, elf, image):
    """Refuses text that is copied to RAM before it runs; answers a warning for other code in RAM."""
    warnings = []
    for it in elf.sections:
        if not (it.is_code and it.size and it.address in board.ram):
            continue
        if it.address <= image.base + 4 * image.text_words - 1 and image.base < it.address + it.size:
            raise Wrong(f"the section {it.name} is linked to RAM, {it.address:08x}, and copied there from flash: link it to where it stands in flash", 243)
        warnings.append(f"the section {it.name} has code in RAM, from {it.address:08x} on, whose call is a fetch fault: link it to flash, a handler that may not wait between __native and __native_end")
    return warnings
