"""What a cache is beside the alternatives on a board: its fast RAM and flash in all, the hottest functions in as much RAM, the fewest misses."""
import pickle
import subprocess
import sys

from shared import runs, tracing
from shared.alternatives import Alternatives
from shared.elf import read_elf
from shared.runs import Cache, Wrong


class Images:
    """The rewritten files of a program: by the length of blocks how many there are, and their bytes."""

    def __init__(self, made, lengths):
        self.bytes, self.blocks = {}, {}
        for block in lengths:
            out = made.folder / f"image-{block}"
            run = made.runner.run([str(made.runner.program), "rewrite", str(made.file), str(out), "--block", str(block)], "/dev/null")
            if run.status == 0 and out.exists():
                elf = read_elf(out, out.name)
                self.bytes[block], self.blocks[block] = elf.image_bytes(), elf.image_blocks()


class Board:
    """The bytes of caches, by the weights of a runtime, and the alternatives."""

    def __init__(self, elf, weights, images):
        self.elf, self.weights, self.images = elf, weights, images
        self.alternatives = Alternatives(elf, [0] * (elf.text_bytes // 4), weights)

    def places(self, kind, cache):
        return self.weights.bytes_of(kind, cache.slots, self.images.blocks.get(cache.block, 0), self.elf.text_bytes // 4)

    def ram(self, cache):
        """The cache, the runtime and its tables."""
        return cache.used().size + self.places("ram", cache)

    def least(self, cache):
        """What a cache takes at least, whatever the blocks."""
        return int(cache.used().size + self.weights.bytes_of("ram", cache.slots, 0, self.elf.text_bytes // 4))

    def flash(self, cache):
        """The text, since constants stand between, the image, the runtime and its tables."""
        return self.elf.text_bytes + self.images.bytes.get(cache.block, 0) + self.places("flash", cache)

    def spares(self, cache):
        """Whether a cache takes less fast RAM than the whole text, which would cost less there."""
        return self.ram(cache) < self.elf.text_bytes

    def fitting(self, block, room):
        """The largest cache in slots of this length that takes at most so many bytes of fast RAM; None where there is none."""
        slots = (room - int(self.places("ram", Cache(0, block)))) // int(4 * block + self.weights.places.get("ram-slot", 0))
        return Cache(4 * block * slots, block) if slots > 0 else None


class Traced:
    """What the trace of a run, or of its first steps, tells beside the counts: for each cache the fewest misses."""

    def __init__(self, made, text, steps, most):
        self.made, self.text, self.steps = made, text, min(steps, most)
        self.whole = steps <= most
        self.limit = "" if self.whole else f"by the first {self.steps} steps (--trace)"
        self.course = tracing.Course(self.text)
        words = ["--steps", str(self.steps if not self.whole else made.options.first or made.options.steps), "--heap", str(made.options.heap), "--stack", str(made.options.stack), "--cache", str(runs.LARGEST)]
        self.reader = tracing.Traced(made.runner, made.file, made.input, words, self.steps)

    def read(self):
        self.reader.read(self.course.follow)
        _, self.returns = self.text.jumps(self.course.executed())
        return self

    def least(self, rows):
        """For each cache in slots the misses of first in, first out, the fewest, and the returns outside the memo, in the steps that were
        traced."""
        forms, found, started = {}, {}, []
        for cache in rows:
            if not cache.ring:
                forms.setdefault(cache.block, set()).add(cache.slots)
        for block, slots in forms.items():
            started.append((block, self.start(block, sorted(slots))))
        for block, child in started:
            for line in child.stdout:
                slots, *counts = map(int, line.split())
                found[block, slots] = tuple(counts)
            if child.wait():
                raise Wrong("the fewest misses can't be computed")
        return {cache: found[cache.block, cache.slots] for cache in rows if not cache.ring}

    def start(self, block, slots):
        """Begins the computation of a length of blocks, beside the others."""
        made = self.made
        blocks = tracing.Blocks(made.runner, made.file, self.text, block)
        child = made.runner.start([sys.executable, str(runs.TOP / "tools/shared/optimum.py")], stdin=subprocess.PIPE, stdout=subprocess.PIPE)
        with child.stdin:
            pickle.dump((self.course.followed(blocks), slots), child.stdin)
        return child

    def compare(self, least, rows):
        """The misses of first in, first out are those of the stats, or the trace was read wrong."""
        for cache, (first_out, _, _) in least.items():
            if self.whole and first_out != rows[cache].counts.misses:
                raise Wrong(f"the trace was read wrong: {cache} misses {first_out} times by it, {rows[cache].counts.misses} by the stats")
