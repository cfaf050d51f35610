#!/usr/bin/env python3
"""What a cache costs beside functions in fast RAM: the hottest functions stand there as they are linked, and the cache has the rest.

Reads by pickle from the standard input a course of steps, the blocks of the text, a cache, and which words of the text stand in RAM;
writes the counts of such a run, and how many of its services are returns, and returns outside the memo. No machine of this repository
runs it. It is priced so: a step in RAM takes an instruction; an exit to RAM is linked as any other, and its target never leaves; each
way from RAM to the cache is a service, as a jump over a register is, since nothing is linked there.
"""
import pathlib
import pickle
import subprocess
import sys
import types

if __name__ == "__main__":
    sys.path.insert(0, str(pathlib.Path(__file__).resolve().parent.parent))

from shared import runs, tracing  # noqa: E402
from shared.runs import Counts  # noqa: E402


class Beside(tracing.Walk):
    """The cache over the steps of a run whose words in RAM are none of its own."""

    def __init__(self, text, blocks, cache, in_ram):
        super().__init__(text, blocks, cache)
        self.in_ram, self.crossed = in_ram, 0  # how often control went from RAM to the cache

    def follow_course(self, course):
        """Takes the straight runs of a course, in pieces that end with a block, or with the words in RAM."""
        pieces = [list(self.pieces_of(begin, last)) for begin, last in course.numbers]
        before = None
        for number in course.order:
            for piece in pieces[number]:
                self.go(before, piece)
                before = piece
        if before is not None and course.arrived is not None and not self.in_ram[before[1]]:
            self.leave(before[1], course.arrived)

    def pieces_of(self, begin, last):
        k = begin
        for at in range(begin, last + 1):
            if at == last or self.in_ram[at] != self.in_ram[at + 1] or not self.in_ram[at] and self.quiet[at] < 0:
                yield k, at
                k = at + 1

    def go(self, before, piece):
        """From a piece to the next: the first is the boot's."""
        begin, last = piece
        self.ran[piece] += 1
        if before is None:
            if not self.in_ram[begin]:
                self.arrive(begin, tracing.BY_BOOT, None)
        elif not self.in_ram[before[1]]:
            self.leave(before[1], begin)
        elif not self.in_ram[begin]:
            self.crossed += 1
            self.arrive(begin, tracing.BY_REGISTER, before[1])

    def leave(self, last, k):
        """From the last word of a piece in the cache to a word."""
        if self.text.kind[last] == tracing.REGISTER:
            return self.serve(k, tracing.BY_REGISTER, last)
        out = self.text.count + self.blocks.of[last] if k == last + 1 and self.text.kind[last] != tracing.JUMP else last
        self.passed[out] += 1
        if not self.linked[out]:
            self.cross(k, out, last)

    def arrive(self, k, how, source):
        if not self.in_ram[k]:
            super().arrive(k, how, source)

    def cross(self, k, out, source):
        """As in the cache, but that a target in RAM never leaves."""
        if not self.in_ram[k]:
            return super().cross(k, out, source)
        self.serve(k, tracing.BY_JUMP, source)
        owner = self.blocks.of[source]
        if self.first[owner] is not None:
            self.linked[out] = 1
            self.made[source] += 1
            self.out[owner].add(out)

    def counts_beside(self):
        """The counts of the run; a step in RAM is one instruction."""
        made = self.executed()
        cold = [0 if ram else times for ram, times in zip(self.in_ram, made)]
        machine = 1 + sum(self.machine(cold)) + sum(made) - sum(cold)
        services = sum(self.served.values()) + self.crossed
        misses, evictions = sum(self.missed.values()), sum(self.pushed.values())
        links, unlinks = sum(self.made.values()), sum(self.undone.values())
        copied = sum(count * self.blocks.length[self.blocks.of[k]] for (_, _, k), count in self.missed.items())
        return Counts(sum(made), machine, services, misses, evictions, links, unlinks, machine, copied + links + unlinks)

    def returns(self):
        """The services that are returns, and those outside the memo."""
        returns = sum(count for (_, source), count in self.served.items() if self.text.is_return(source))
        return returns, sum(self.found.values())


def follow(made, course, text, blocks, cache, functions):
    """Begins to follow a cache beside these functions, in a process of its own."""
    in_ram = bytearray(text.count)
    for each in functions:
        first = (each.address - text.base) // 4
        in_ram[first:first + each.size // 4] = b"\1" * (each.size // 4)
    child = made.runner.start([sys.executable, "-B", str(runs.TOP / "tools/shared/pairs.py")], stdin=subprocess.PIPE, stdout=subprocess.PIPE)
    with child.stdin:
        pickle.dump((types.SimpleNamespace(order=course.order, numbers=list(course.numbers), arrived=course.arrived), text, blocks, cache, in_ram), child.stdin)
    return child


def counted(child):
    """The counts of what was begun, its returns, and those outside the memo."""
    found = child.stdout.read()
    if child.wait():
        raise runs.Wrong("a cache beside functions in RAM can't be priced: no memory")
    return pickle.loads(found)


def main():
    course, text, blocks, cache, in_ram = pickle.load(sys.stdin.buffer)
    walk = Beside(text, blocks, cache, in_ram)
    walk.follow_course(course)
    pickle.dump((walk.counts_beside(), walk.returns()), sys.stdout.buffer)


if __name__ == "__main__":
    main()
