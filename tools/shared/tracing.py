"""The steps of a program from the lines of `swic trace`, and the cache followed over them.

`Walk` keeps what the cache service keeps (places, links), by its policy: first in, first out; an exit is linked after a service where
its block is still there and a JAL reaches. So it tells of each miss and each service where it comes from, which the stats do not,
and has their counts for a comparison. `Course` keeps the order of what is executed, which is the same for every cache.
"""
import array
import collections
import dataclasses
import itertools
import re
import struct
import subprocess

from shared import runs
from shared.optimum import MEMO
from shared.runs import Counts, Wrong

LINE = re.compile(rb"([0-9a-f]{8}) ([0-9a-f]{8}|--------) ")
SPENT = re.compile(rb"spent: [0-9]+ steps, pc ([0-9a-f]{8})\n")
BATCH = 1 << 18  # lines between two looks at the clock
PLAIN, BRANCH, JUMP, REGISTER = range(4)
RETURN = 0x00008067  # JALR x0, 0(ra)
KINDS = {0x63: BRANCH, 0x6F: JUMP, 0x67: REGISTER}
# What leads to a service. A call is a JAL that links.
SERVED = ["jumps over registers", "branches", "jumps and calls", "ends of blocks", "the boot"]
BY_REGISTER, BY_BRANCH, BY_JUMP, BY_END, BY_BOOT = range(5)


def signed(value, bits):
    return value - (value >> bits - 1 << bits)


class Text:
    """The words of a program's text by their index: what kind each is, and where its exit leads."""

    def __init__(self, elf):
        self.base, self.count = elf.text, elf.text_bytes // 4
        begin = elf.executed.offset + elf.text - elf.executed.address
        self.words = struct.unpack_from(f"<{self.count}I", elf.data, begin)
        self.kind = [KINDS.get(word & 0x7F, PLAIN) for word in self.words]
        self.target = [self.target_of(k) for k in range(self.count)]
        # the machine instructions that stand for a word: AUIPC takes two, and a JAL that links two more than one that does not
        self.cost = [2 if word & 0x7F == 0x17 else 3 if word & 0x7F == 0x6F and word & 0xF80 else 1 for word in self.words]

    def is_return(self, k):
        return 0 <= k < self.count and self.words[k] == RETURN

    def jumps(self, executed):
        """How many steps are jumps over registers, and how many of these are returns, where each word was executed so often."""
        registers = sum(times for kind, times in zip(self.kind, executed) if kind == REGISTER)
        return registers, sum(times for word, times in zip(self.words, executed) if word == RETURN)

    def target_of(self, k):
        """The index that a branch or a JAL leads to."""
        word = self.words[k]
        if self.kind[k] == BRANCH:
            return k + signed(word >> 31 << 12 | (word >> 7 & 1) << 11 | (word >> 25 & 63) << 5 | (word >> 8 & 15) << 1, 13) // 4
        if self.kind[k] == JUMP:
            return k + signed(word >> 31 << 20 | (word >> 12 & 255) << 12 | (word >> 20 & 1) << 11 | (word >> 21 & 1023) << 1, 21) // 4
        return None


class Blocks:
    """The blocks of a text, as `swic list` writes them."""

    def __init__(self, runner, file, text, words):
        self.of = [0] * text.count  # the block of each text word
        self.offset = [0] * text.count
        self.length, self.first = [], []
        listed = runner.start([str(runner.program), "list", str(file), "--block", str(words)], stdout=subprocess.PIPE, stderr=subprocess.PIPE)
        last = None
        for line in listed.stdout:
            block, offset, _, address, _ = line.split(b" ", 4)
            k = (int(address, 16) - text.base) // 4
            if int(block) == len(self.length):
                self.length.append(0)
                self.first.append(k)
            self.length[-1] += 1
            if k != last:
                self.of[k], self.offset[k], last = int(block), int(offset), k
        if listed.wait():
            raise Wrong(f"the blocks can't be listed: {listed.stderr.read().decode(errors='replace').strip()}")
        self.count = len(self.length)


class Lines:
    """The lines of a trace: which text word each is of. What the program itself writes to the errors stands between them."""

    def __init__(self, text):
        self.text, self.known = text, {}
        self.outside = 0
        self.ending = b""

    def look(self, line):
        """The index of a line that is not known yet; None where it is no step, or one beside the text."""
        for found in reversed(list(LINE.finditer(line))):
            address, word = found.groups()
            k, rest = divmod(int(address, 16) - self.text.base, 4)
            if word == b"--------":
                if line.endswith(b"-------- outside\n"):
                    self.outside += 1
                    return None
            elif rest == 0 and 0 <= k < self.text.count and self.text.words[k] == int(word, 16):
                self.known[line[found.start():]] = k
                return k
        self.ending = line
        return None

    def pc(self):
        """The index that a run has come to whose steps were spent."""
        found = SPENT.search(self.ending)
        if not found:
            return None
        k, rest = divmod(int(found[1], 16) - self.text.base, 4)
        return k if rest == 0 and 0 <= k < self.text.count else None


class Walk:
    """The cache over the steps of a run."""

    def __init__(self, text, blocks, cache):
        self.text, self.blocks, self.cache = text, blocks, cache
        self.lines = Lines(text)
        self.far = cache.size > runs.REACH
        # an exit is known by the word that it belongs to, and one behind a block by the number of words and its block
        self.linked = bytearray(text.count + blocks.count)
        self.passed = [0] * (text.count + blocks.count)
        self.into = [set() for _ in range(blocks.count)]
        self.out = [set() for _ in range(blocks.count)]
        self.first = [None] * blocks.count  # the word of the cache where each block stands
        self.held = collections.deque()
        self.used, self.next = bytearray(cache.size // 4), 0
        self.ran = collections.defaultdict(int)  # how often each run of words was executed without a break, by its first and last
        self.served, self.missed, self.made = collections.Counter(), collections.Counter(), collections.Counter()
        self.pushed, self.evicted, self.undone = collections.Counter(), collections.Counter(), collections.Counter()
        self.memo, self.found = {}, collections.Counter()  # of targets of jumps over registers; the returns outside it, by their word
        self.last = None  # the word executed last
        # behind each word the one that follows without an exit
        end = [text.kind[k] in (JUMP, REGISTER) or k + 1 == text.count or blocks.of[k + 1] != blocks.of[k] for k in range(text.count)]
        self.quiet = [-1 if end[k] else k + 1 for k in range(text.count)]

    def follow(self, stream, tell):
        """Takes all lines of a trace."""
        known, quiet, linked, kind, of = self.lines.known.get, self.quiet, self.linked, self.text.kind, self.blocks.of
        ran, passed, behind = self.ran, self.passed, self.text.count
        begin = last = expected = None
        taken, line = 0, b""
        while line is not None:
            line = None
            for line in itertools.islice(stream, BATCH):
                k = known(line)
                if k == expected is not None:
                    expected, last = quiet[k], k
                    continue
                if k is None:
                    k = self.lines.look(line)
                    if k is None:
                        continue
                    if k == expected:
                        expected, last = quiet[k], k
                        continue
                if last is None:
                    self.arrive(k, BY_BOOT, None)
                else:
                    ran[begin, last] += 1
                    if kind[last] == REGISTER:
                        self.serve(k, BY_REGISTER, last)
                    else:
                        out = behind + of[last] if k == last + 1 and kind[last] != JUMP else last
                        passed[out] += 1
                        if not linked[out]:
                            self.cross(k, out, last)
                begin = last = k
                expected = quiet[k]
            taken += BATCH
            tell(taken)
        if last is not None:
            self.finish(begin, last)

    def finish(self, begin, last):
        """The last step, whose target no line tells."""
        self.ran[begin, last] += 1
        self.last = last
        pc = self.lines.pc()
        if pc is None:
            return
        if self.text.kind[last] == REGISTER:
            self.serve(pc, BY_REGISTER, last)
        elif leads(self.text, last, pc):
            self.passed[last] += 1
            if not self.linked[last]:
                self.cross(pc, last, last)

    def serve(self, k, how, source):
        self.served[how, source] += 1
        if how == BY_REGISTER and self.text.words[source] >> 7 & 30 == 0:
            self.look_up(k, source)
        self.arrive(k, how, source)

    def arrive(self, k, how, source):
        """Control comes to a word: its block is copied where it isn't there, and the oldest leave where there is no room."""
        block = self.blocks.of[k]
        if self.first[block] is not None:
            return
        self.missed[how, source, k] += 1
        first = self.ring_place(k) if self.cache.ring else self.slot_place(k)
        self.first[block] = first
        self.held.append(block)

    def look_up(self, k, source):
        """A jump over a register, whose target the runtime's memo may have; where its block is there, it has it then."""
        entry = (self.text.base // 4 + k) % MEMO
        if self.memo.get(entry) != k:
            self.found[source] += self.text.is_return(source)
            if self.first[self.blocks.of[k]] is not None:
                self.memo[entry] = k

    def slot_place(self, k):
        if len(self.held) < self.cache.slots:
            return len(self.held) * self.cache.block
        return self.push_out(k)

    def ring_place(self, k):
        """Behind the block that was placed last, or at the front where it would not fit there."""
        length = self.blocks.length[self.blocks.of[k]]
        first = self.next if self.next + length <= len(self.used) else 0
        while any(self.used[first:first + length]):
            self.push_out(k)
        self.next = first + length
        self.used[first:self.next] = b"\1" * length
        return first

    def push_out(self, k):
        """The oldest block leaves, with the links into it and out of it; answers where it stood."""
        self.memo.clear()
        block = self.held.popleft()
        first, length = self.first[block], self.blocks.length[block]
        self.pushed[block, self.blocks.of[k]] += 1
        self.evicted[k] += 1
        self.first[block] = None
        self.used[first:first + length] = bytes(length)
        for out in self.into[block]:
            self.linked[out] = 0
            owner = self.owner(out)
            if owner != block:
                self.undone[k] += 1
                self.out[owner].discard(out)
        self.into[block].clear()
        for out in self.out[block]:
            if self.linked[out]:
                self.linked[out] = 0
                self.into[self.leads_to(out)].discard(out)
        self.out[block].clear()
        return first

    def owner(self, out):
        return self.blocks.of[out] if out < self.text.count else out - self.text.count

    def leads_to(self, out):
        return self.blocks.of[self.text.target[out]] if out < self.text.count else out - self.text.count + 1

    def cross(self, k, out, source):
        """A service of an exit whose target is known, which is linked where its block is still there and a JAL reaches."""
        how = BY_END if out >= self.text.count else BY_BRANCH if self.text.kind[source] == BRANCH else BY_JUMP
        owner = self.blocks.of[source]
        self.serve(k, how, source)
        # the exit's own block may have left for its target
        if self.first[owner] is None or self.far and not self.reaches(k, out, source):
            return
        self.linked[out] = 1
        self.made[source] += 1
        self.into[self.blocks.of[k]].add(out)
        self.out[owner].add(out)

    def reaches(self, k, out, source):
        """Whether the target stands within the reach of a JAL, in a cache that is larger."""
        owner, block = self.blocks.of[source], self.blocks.of[k]
        offset = self.blocks.length[owner] - 2 if out != source else self.blocks.offset[source] + (1 if self.text.kind[source] == BRANCH else self.text.cost[source] - 1)
        distance = 4 * (self.first[block] + self.blocks.offset[k] - self.first[owner] - offset)
        return -runs.REACH <= distance < runs.REACH

    def executed(self):
        """How often each word of the text was executed."""
        return executed(self.ran, self.text.count)

    def machine(self, executed):
        """The machine instructions that belong to each word: its own, and those of its exit; one behind a block belongs to its last word."""
        found = [times * cost for times, cost in zip(executed, self.text.cost)]
        for out, times in enumerate(self.passed):
            if out >= self.text.count:
                found[self.end_of(out - self.text.count)] += times
            elif self.text.kind[out] == BRANCH:
                found[out] += times
        return found

    def end_of(self, block):
        """The last text word of a block."""
        return (self.blocks.first[block + 1] if block + 1 < self.blocks.count else self.text.count) - 1

    def outside(self):
        """The machine instructions of steps beside the text, and of the step that led there."""
        if not self.lines.outside:
            return 0
        return self.lines.outside + (self.last is not None and self.text.kind[self.last] in (PLAIN, BRANCH))

    def counts(self):
        """The nine counts, as the stats have them."""
        made = self.executed()
        machine = 1 + sum(self.machine(made)) + self.outside()
        services, misses, evictions = (sum(counter.values()) for counter in (self.served, self.missed, self.pushed))
        links, unlinks = sum(self.made.values()), sum(self.undone.values())
        copied = sum(count * self.blocks.length[self.blocks.of[k]] for (_, _, k), count in self.missed.items())
        fetches = machine - self.lines.outside - 1
        return Counts(sum(made) + self.lines.outside, machine, services, misses, evictions, links, unlinks, fetches, copied + links + unlinks)


def executed(ran, count):
    """How often each word was executed, by runs of words."""
    change = [0] * (count + 1)
    for (begin, last), times in ran.items():
        change[begin] += times
        change[last + 1] -= times
    return list(itertools.accumulate(change[:count]))


def leads(text, last, pc):
    """Whether the last step of a run, a jump or a branch, has led to the pc already."""
    return text.kind[last] == JUMP or text.kind[last] == BRANCH and pc == text.target[last] != last + 1


class Course:
    """What a trace tells that holds for every cache: which words of the text are executed one behind the other."""

    def __init__(self, text):
        self.text, self.lines = text, Lines(text)
        self.numbers, self.order = {}, array.array("I")
        self.arrived = None  # the word that control came to last, which is not executed

    def follow(self, stream, tell):
        """Takes all lines of a trace."""
        known, numbers, order = self.lines.known.get, self.numbers, self.order
        begin = last = expected = None
        taken, line = 0, b""
        while line is not None:
            line = None
            for line in itertools.islice(stream, BATCH):
                k = known(line)
                if k is None:
                    k = self.lines.look(line)
                    if k is None:
                        continue
                if k == expected:
                    last, expected = k, k + 1
                    continue
                if begin is not None:
                    order.append(numbers.setdefault((begin, last), len(numbers)))
                begin, last, expected = k, k, k + 1
            taken += BATCH
            tell(taken)
        if begin is not None:
            order.append(numbers.setdefault((begin, last), len(numbers)))
            self.arrive(last)

    def arrive(self, last):
        pc = self.lines.pc()
        if pc is not None and (self.text.kind[last] == REGISTER or leads(self.text, last, pc)):
            self.arrived = pc

    def times(self):
        """How often each run was executed, by its number."""
        return collections.Counter(self.order)

    def executed(self):
        runs_of = list(self.numbers)
        return executed({runs_of[number]: count for number, count in self.times().items()}, self.text.count)

    def followed(self, blocks):
        """What `optimum.py` follows: the order of the runs of words, and by the number of each the blocks that it comes to, its first word,
        and whether it ends with a return, or another jump over a register that keeps its target in the memo; and the blocks behind."""
        text = self.text
        blocks_of = [list(range(blocks.of[begin], blocks.of[last] + 1)) for begin, last in self.numbers]
        jumps = [text.is_return(last) if text.kind[last] == REGISTER and text.words[last] >> 7 & 30 == 0 else None for _, last in self.numbers]
        begins = [text.base // 4 + begin for begin, _ in self.numbers]
        return self.order, blocks_of, [] if self.arrived is None else [blocks.of[self.arrived]], begins, jumps


class Pairs(Course):
    """A course that keeps of the order only how often each run follows each other, so that its memory does not grow with the steps."""

    def __init__(self, text):
        super().__init__(text)
        self.order, self.pairs, self.last = self, collections.Counter(), None

    def append(self, number):
        self.pairs[self.last, number] += 1
        self.last = number

    def times(self):
        found = collections.Counter()
        for (_, number), count in self.pairs.items():
            found[number] += count
        return found


@dataclasses.dataclass
class Traced:
    """The trace of a run, and what it is told by: about how many steps come, for the time that is left."""
    runner: runs.Runner
    file: object
    input: object
    words: list
    steps: int
    limit: str = ""

    def read(self, take):
        """Hands the lines to a function, with one that tells the time left."""
        child = self.runner.start([str(self.runner.program), "trace", str(self.file), *self.words], stdin=open(self.input, "rb"), stdout=subprocess.DEVNULL, stderr=subprocess.PIPE, bufsize=1 << 20, pipesize=1 << 20)
        progress = runs.Progress("following the trace", self.steps, self.limit)
        take(child.stderr, progress.tell)
        progress.clear()
        child.wait()
