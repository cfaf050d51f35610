"""For gdb: a firmware that runs in the cache, at its original addresses.

native/run --firmware FILE --gdb PORT tells the words by which gdb begins with this file. `original` tells where the firmware stands: the
original address of a pc in the cache, its function and line, and the callers. `original-break LOCATION` stops where the instruction of a
location, as a function or FILE:LINE, is executed in the cache. It takes two hardware breakpoints: one goes with the block to the slot where it
stands, the other stops for a moment where a block is copied, and so sees to that.
"""
import gdb

EBREAK = 0x00100073
SLOT_BYTES = 8  # struct slot of runtime.h, whose first word is the block
BLOCK_BYTES = 4  # of the proved service, which has the slots' blocks in a row


def address_of(symbol):
    return int(gdb.parse_and_eval(f"(unsigned int)&{symbol}"))


def service(field):
    """A number that the service keeps; the firmware may have such names too."""
    return int(gdb.parse_and_eval(f"'{'chip' if IS_PROVED else 'service'}.c'::service.{field}"))


def is_proved():
    """Whether the runtime has the proved service."""
    try:
        gdb.parse_and_eval("'chip.c'::service.next")
    except gdb.error:
        return False
    return True


def word(address):
    return int.from_bytes(gdb.selected_inferior().read_memory(address, 4).tobytes(), "little")


class Image:
    """The image in flash, as image.c reads it."""

    def __init__(self):
        at = address_of("swicache_image")
        _, version, self.block_words, self.blocks, self.text_words, self.base = (word(at + 4 * k) for k in range(6))
        self.starts = at + 24
        self.offsets = self.starts + 4 * version * self.blocks
        self.words = self.offsets + 4 * self.text_words
        self.ends = self.starts + 4 * self.blocks
        self.cache, self.cache_end = address_of("swicache_cache"), address_of("swicache_cache_end")

    @property
    def slots(self):
        return (self.cache_end - self.cache) // (4 * self.block_words)

    def block_in(self, slot):
        return word(address_of("swicache_tables") + (BLOCK_BYTES if IS_PROVED else SLOT_BYTES) * slot)

    def start(self, block):
        return word(self.starts + 4 * block) if block < self.blocks else self.text_words

    def offset(self, text_word):
        return word(self.offsets + 4 * text_word)

    def begin(self, block):
        """The address in flash of a block's first word."""
        return self.words + 4 * (word(self.ends + 4 * (block - 1)) if block else 0)

    def block_of(self, text_word):
        """The last block that starts at or before a text word."""
        low, count = 0, self.blocks
        while count > 1:
            half = count // 2
            low, count = (low + half if self.start(low + half) <= text_word else low), count - half
        return low

    def original(self, pc):
        """The original address of a pc in the cache; that of the target, where the pc is on its way there; None elsewhere."""
        if not self.cache <= pc < self.cache + 4 * self.slots * self.block_words:
            return None
        slot, offset = divmod((pc - self.cache) // 4, self.block_words)
        block = self.block_in(slot)
        at = self.begin(block) + 4 * offset
        if word(at) == EBREAK and word(at + 4) % 4 == 0:
            return word(at + 4)
        text_word = self.start(block)
        while text_word + 1 < self.start(block + 1) and self.offset(text_word + 1) <= offset:
            text_word += 1
        return self.base + 4 * text_word


class Original(gdb.Command):
    """original: where a firmware in the cache stands, and who has called."""

    def __init__(self):
        super().__init__("original", gdb.COMMAND_STACK)

    def invoke(self, *_):
        pc = int(gdb.parse_and_eval("(unsigned int)$pc"))
        at = Image().original(pc)
        if at is None:
            print(f"{pc:08x} is not in the cache")
            return
        print(f"in the cache at {pc:08x}, original {at:08x}")
        gdb.execute(f"set $pc = {at}")
        try:
            gdb.execute("backtrace")
        finally:
            gdb.execute(f"set $pc = {pc}")


class SlotBreak(gdb.Breakpoint):
    """Stops in one slot, where the block stands in it."""

    def __init__(self, image, slot, block, offset, named):
        self.image, self.slot, self.block, self.named = image, slot, block, named
        address = image.cache + 4 * (slot * image.block_words + offset)
        super().__init__(f"*{address:#x}", type=gdb.BP_HARDWARE_BREAKPOINT, internal=True)
        self.silent = True

    def stop(self):
        return self.image.block_in(self.slot) == self.block


class CopyBreak(gdb.Breakpoint):
    """Stops where the service is about to copy a block, or to take its slot for another; then its SlotBreak is set or deleted."""
    known = []

    def __init__(self, image, block, offset, named):
        self.image, self.block, self.offset, self.named = image, block, offset, named
        super().__init__("*&'swi_chip::serving::fill'" if IS_PROVED else "*&'service.c'::miss", type=gdb.BP_HARDWARE_BREAKPOINT, internal=True)
        self.silent = True
        self.commands = "silent\npython CopyBreak.follow()\ncontinue"  # a breakpoint may not be set within `stop`
        self.known.append(self)
        self.there = None
        for slot in range(self.filled()):
            if image.block_in(slot) == block:
                self.put(slot)

    def filled(self):
        """How many slots have a block."""
        if IS_PROVED:
            return service("filled")
        return self.image.slots if service("is_full") else service("next_slot")

    @staticmethod
    def next_slot():
        return service("next" if IS_PROVED else "next_slot")

    def put(self, slot):
        self.there = SlotBreak(self.image, slot, self.block, self.offset, self.named)

    def is_copied(self):
        return int(gdb.parse_and_eval("(unsigned int)$a1" if IS_PROVED else "(unsigned int)$a0")) == self.block

    def stop(self):
        return self.is_copied() or self.there is not None and self.there.slot == self.next_slot()

    @classmethod
    def follow(cls):
        for each in cls.known:
            if each.stop():
                if each.there is not None:
                    each.there.delete()
                    each.there = None
                if each.is_copied():
                    each.put(cls.next_slot())


class OriginalBreak(gdb.Command):
    """original-break LOCATION: stops where the instruction there is executed in the cache."""

    def __init__(self):
        super().__init__("original-break", gdb.COMMAND_BREAKPOINTS, gdb.COMPLETE_LOCATION)

    def invoke(self, named, _):
        image = Image()
        try:
            _, found = gdb.decode_line(named)
        except gdb.error as error:
            raise gdb.GdbError(str(error)) from None
        for pc in sorted({each.pc for each in found}): # an inlined function has several places
            text_word = (pc - image.base) // 4
            if not 0 <= text_word < image.text_words:
                raise gdb.GdbError(f"{named}, {pc:08x}, is not in the text")
            CopyBreak(image, image.block_of(text_word), image.offset(text_word), named)
            print(f"stops at {named}, {pc:08x}")


def tell(event):
    """The location of a breakpoint that was met."""
    for met in getattr(event, "breakpoints", ()):
        if isinstance(met, SlotBreak) and met.stop(): # at one address there may be those of two blocks
            print(f"stopped at {met.named}")


IS_PROVED = is_proved()
Original()
OriginalBreak()
gdb.events.stop.connect(tell)
