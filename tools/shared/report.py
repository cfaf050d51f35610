"""What a sweep writes: its table, its file of counts, and the lines that say which cache to use, or none."""
import dataclasses

from shared import placing, runs, weights
from shared.advice import Advice, Priced

NAMED = 10  # of the hottest functions, at most, on the terminal


def powers(needed):
    """Powers of 2 up to a size that holds so many bytes, from a thousandth of it on."""
    largest = 64
    while largest < needed and largest < runs.LARGEST:
        largest *= 2
    size, largest, found = max(64, largest // 1024), max(largest, 512), []
    while size <= largest:
        found.append(size)
        size *= 2
    return found


def kind_of(cache):
    return "ring" if cache.ring else "slots"


def quoted(name):
    """A name as a field of a CSV file."""
    held = name.replace('"', '""')
    return f'"{held}"'


def left_out(tried):
    """The caches that can't be run or weren't, with the reason."""
    for reason, caches in sorted(tried.left.items()):
        where = ", ".join(f"{cache.size}/{cache.block}{' ring' if cache.ring else ''}" for cache in sorted(caches))
        yield f"left out (cache/block) {where}: {reason}"


def less_of(cache):
    """What `Cache.less` takes away."""
    return f"{4 * cache.block} bytes less" if cache.ring else "one slot less"


def or_dash(value, width):
    """A number of a column, where there is one."""
    return f"{'-':>{width}}" if value is None else f"{value:{width}.3f}"


class Report:
    """What is written of a sweep."""

    def __init__(self, sweep, choices):
        self.sweep, self.choices = sweep, choices
        self.runs, self.weights, self.board = sweep.runs, sweep.weights, sweep.board
        self.rows = [sweep.rows[cache] for cache in sorted(sweep.rows)]
        self.has_rings = len(sweep.rings) > 1
        self.advice = Advice(self.board.alternatives, self.limit(), sweep.options.ram, sweep.pair) if self.board else None

    def image(self, block):
        """Bytes of the blocks in slow memory, and how many times the text that is."""
        held = self.sweep.images.bytes.get(block)
        return (held, held / self.runs.elf.text_bytes) if held else (0, 0.0)

    def limit(self):
        """What a sentence begins with that is told by a part of the run alone."""
        counted, steps = self.sweep.executions, self.rows[0].counts.steps
        if self.sweep.spent:
            return f"by the first {counted.steps if counted else steps} steps alone: "
        return f"by the first {counted.steps} of {steps} steps (--counted): " if counted and not counted.whole else ""

    def priced(self, row):
        steps = max(row.counts.steps, 1)
        instructions, loads = self.sweep.parts(row.counts, row.cache)
        return Priced(row.cache, row.value, instructions / steps, loads / steps, self.board.ram(row.cache))

    def hot(self, row):
        """What the hottest functions cost in as much fast RAM; None where no executions were counted."""
        return self.advice.hot(self.board.ram(row.cache))

    def chosen(self, ring=False):
        """The cache that the last sentence is on, where there is one."""
        choice = next((choice for choice in self.choices if choice.ring == ring), None)
        return choice and (choice.recommended or choice.smallest)

    def hottest(self):
        """The functions that are to stand in fast RAM in place of a cache: as many as have room in as much, or in --ram."""
        row = self.chosen()
        ram = self.sweep.options.ram or (self.board.ram(row.cache) if row else self.advice.text)
        return min(ram, self.advice.text - 1), self.board.alternatives.hottest(min(ram, self.advice.text - 1))

    def table(self):
        first = self.rows[0].counts
        yield f"{self.runs.name}, {'the first ' if self.sweep.spent else ''}{first.steps} steps; for each 1000 steps"
        if self.board:
            yield f"costs beside slow memory, by {self.weights.named}, with {self.weights.load:g} wait states (--load); hot: the hottest functions in as much RAM"
        yield self.head()
        last = None
        for row in self.rows:
            if last not in (None, row.cache.size):
                yield ""
            last = row.cache.size
            kind = f"  {kind_of(row.cache):5}" if self.has_rings else ""
            yield f"{row.cache.size:9} {row.cache.block:6}{kind} {self.line(row)}{'  ' + row.note if row.note else ''}"
        if self.sweep.registers is not None:
            returns = "" if self.sweep.returns is None else f", and of these returns: {1000 * self.sweep.returns / max(first.steps, 1):.3f}"
            yield f"of the services, in each of these caches, jumps over registers: {1000 * self.sweep.registers / max(first.steps, 1):.3f}{returns}"
        if self.board and self.sweep.executions and not self.board.alternatives.named:
            yield "hot: the file names no functions (it was stripped), so pieces of its text between jumps and calls stand in for them"
        if self.sweep.executions and not self.sweep.executions.whole:
            yield f"hot and the returns are by the first {self.sweep.executions.steps} steps (--counted)"
        if self.sweep.traced and self.sweep.traced.limit:
            yield f"least, and the share of returns outside the memo: {self.sweep.traced.limit}"
        yield from left_out(self.sweep)

    def head(self):
        kinds, cost = "  in   " if self.has_rings else "", "   cost/plain" if self.weights else ""
        counts = f"{'misses':>10} {'least':>10} {'services':>10}"
        if self.board:
            return f"{'cache':>9} {'block':>6}{kinds} {counts} {'cost':>8} {'hot':>8} {'RAM':>8} {'flash':>8}"
        return f"{'cache':>9} {'block':>6}{kinds} {counts} {'writes':>10} {'instructions':>13} {'work/step':>10}{cost} {'image':>9} {'of text':>8}"

    def line(self, row):
        c = row.counts
        counts = f"{c.of_thousand('misses'):10.3f} {or_dash(row.fewest, 10)} {c.of_thousand('services'):10.3f}"
        if self.board:
            return f"{counts} {row.value:8.3f} {or_dash(self.hot(row), 8)} {self.board.ram(row.cache):8} {self.board.flash(row.cache):8}"
        held, times = self.image(row.cache.block)
        cost = f"{row.value:13.3f}" if self.weights else ""
        return f"{counts} {c.of_thousand('writes'):10.3f} {c.of_thousand('instructions'):13.1f} {c.work:10.3f}{cost} {held:9} {times:8.2f}"

    def csv(self):
        costs = ["cost", "cost_without_cache", "ratio"] if self.weights else []
        bytes_of = ["ram", "flash", "hot", "hot_bytes", "hot_functions"] if self.board else []
        yield ",".join(["file", "cache", "block", "in", *runs.NAMES, "least_misses", *costs, *bytes_of, "return_services", "register_services", "image", "text"])
        for row in self.rows:
            yield f"{quoted(self.runs.name)}," + ",".join("" if each is None else str(each) for each in self.fields(row))

    def fields(self, row):
        yield from (row.cache.size, row.cache.block, kind_of(row.cache), *dataclasses.astuple(row.counts), row.fewest_misses)
        if self.weights:
            yield from (f"{self.sweep.cost(row.counts, row.cache):.0f}", f"{self.weights.alone(row.counts):.0f}", f"{row.value:.4f}")
        if self.board:
            ram, hot = self.board.ram(row.cache), self.hot(row)
            chosen = None if hot is None else self.board.alternatives.hottest(ram)
            yield from (ram, self.board.flash(row.cache), hot and f"{hot:.4f}", chosen and chosen.size)
            yield chosen and quoted(" ".join(each.name for each in chosen.functions))
        yield from (self.sweep.returns, self.sweep.registers, self.image(row.cache.block)[0] or None, self.runs.elf.text_bytes)

    def unit(self, value):
        return f"{value:.3f} {weights.unit(self.weights)}"

    def found(self):
        """The last lines: the smallest cache, the one that is recommended, and what to use; for slots, and for rings."""
        if self.sweep.fixed:
            yield f"the text can't be moved to try other cuts: {self.sweep.fixed}"
        for choice in self.choices:
            if not self.board or self.sweep.sought():
                yield self.smallest(choice)
                yield self.recommended(choice)
            if row := choice.recommended or choice.smallest:
                yield from self.beside(row)
        if self.board:
            yield f"without a cache: all text in slow memory 1.000, all in fast RAM {self.board.alternatives.whole:.3f} in {self.runs.elf.text_bytes} bytes"
            if (row := self.chosen()) and (both := self.advice.both(self.priced(row))):
                yield both
            yield from (self.sentence(choice) for choice in self.choices)

    def sentence(self, choice):
        """The last line on slots, or on rings: what to use."""
        row, sought = choice.recommended or choice.smallest, [self.priced(row) for row in self.sweep.sought()]
        if not sought:
            return self.advice.none(min(self.board.ram(each.cache) for each in self.rows))
        if row is None:
            return f"{self.advice.limit}use no cache: none of these, where the whole text takes {self.advice.text} bytes of fast RAM"
        return self.advice.sentence(self.priced(row), [each for each in sought if each.cache.ring == choice.ring])

    def functions(self):
        """The hottest functions: how many have room, and the first of them."""
        ram, hot = self.hottest()
        what = self.board.alternatives.what
        yield f"hottest {what} in {ram} bytes of fast RAM: {len(hot.functions)} in {hot.size}, with {100 * hot.steps / self.board.alternatives.steps:.1f}% of the steps"
        yield f"{'bytes':>8} {'steps':>14} {'%':>6}  {'function' if self.board.alternatives.named else 'from'}"
        shown = placing.readable([each.name for each in hot.functions[:NAMED]])
        for each in hot.functions[:NAMED]:
            yield f"{each.size:8} {each.steps:14} {100 * each.steps / self.board.alternatives.steps:6.1f}  {shown[each.name]}"

    def functions_csv(self):
        """All functions that are executed, and which are among the hottest."""
        _, hot = self.hottest()
        chosen, all_of = set(hot.functions), self.board.alternatives.functions
        shown = placing.readable([each.name for each in all_of])
        yield "function,symbol,address,bytes,steps,hottest"
        for each in sorted(all_of, key=lambda each: (-each.steps, each.name)):
            yield f"{quoted(shown[each.name])},{quoted(each.name)},{each.address:08x},{each.size},{each.steps},{int(each in chosen)}"

    def fragment(self):
        """The hottest functions as a piece of a linker script."""
        ram, hot = self.hottest()
        what = f"The {len(hot.functions)} hottest functions of {self.runs.name} in {ram} bytes: {hot.size} bytes, {100 * hot.steps / self.board.alternatives.steps:.1f}% of its steps."
        aliases = self.runs.elf.aliases()
        return placing.fragment(what.replace("*/", "*"), [aliases[each.address] for each in hot.functions])

    def smallest(self, choice):
        best = f"least {'cost' if self.weights else 'work'} ({self.unit(self.sweep.least())})"
        head, row = f"smallest {'ring' if choice.ring else 'cache'} within {self.sweep.options.within:g}% of the {best}:", choice.smallest
        if row is None:
            return f"{head} none of these"
        return f"{head} {row.cache}: {self.unit(row.value)}, {row.counts.of_thousand('misses'):.3f} misses for each 1000 steps"

    def recommended(self, choice):
        sweep, row = self.sweep, choice.recommended
        head = "recommended ring:" if choice.ring else "recommended:"
        moves = "" if sweep.fixed or not sweep.options.moves else ", and with its text moved by a few words"
        if row is None:
            less = "a block's bytes less" if choice.ring else "one slot less"
            return f"{head} none of these, since none stays within {sweep.options.within:g}% with {less}{moves}: give larger ones by --cache"
        more = ", which is more than slow memory costs" if self.board and row.value > 1 else ""
        return f"{head} {row.cache}: {self.unit(row.value)}{more}, with {less_of(row.cache)}{moves} at most {self.unit(row.worst)}"

    def beside(self, row):
        """What the cache misses beside the best eviction, and what it takes."""
        if row.fewest is not None:
            limit = f", {self.sweep.traced.limit}" if self.sweep.traced.limit else ""
            yield f"eviction{limit}: first in, first out misses {row.first_out:.3f} times for each 1000 steps, the best possible {row.fewest:.3f}"
        if self.board:
            yield f"it takes {self.board.ram(row.cache)} bytes of fast RAM and {self.board.flash(row.cache)} of flash, runtime and tables among them"
