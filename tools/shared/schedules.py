"""Sweeps of the two other schedules: a program beside an engine that copies ahead, and several programs in one cache."""
import dataclasses

from shared import runs
from shared.report import left_out, powers, quoted
from shared.runs import Cache, Wrong


class Rates:
    """What an engine that copies the next block spares: the runs of each cache at each of its rates."""

    def __init__(self, sweep, rates):
        self.sweep, self.runs, self.rates = sweep, sweep.runs, rates
        self.rows = {}  # of each cache the counts by the rate

    def run(self):
        caches = [Cache(size, block) for size in sorted(self.sweep.sizes()) for block, _ in sorted(self.sweep.full)]
        held = [cache for cache in caches if cache.slots]
        for cache in caches:
            if not cache.slots:
                self.sweep.leave_small(cache)
        wanted = {(cache, rate): (0, dataclasses.replace(cache.used(), rate=rate)) for cache in held for rate in self.rates}
        made = dict(zip(wanted, self.runs.all("rates", list(wanted.values()))))
        for cache in held:
            of_cache = {rate: made[cache, rate] for rate in self.rates}
            if refused := [run.line for run in of_cache.values() if run.counts is None]:
                self.sweep.leave(cache, refused[0])
            else:
                self.rows[cache] = {rate: run.counts for rate, run in of_cache.items()}

    def table(self):
        steps = next(iter(self.first().values())).steps
        yield f"{self.runs.name}, {'the first ' if self.sweep.spent else ''}{steps} steps; misses for each 1000 steps by the rate of the engine"
        yield f"{'cache':>9} {'block':>6} " + " ".join(f"{rate:10}" for rate in self.rates)
        last = None
        for cache, counts in self.rows.items():
            if last not in (None, cache.size):
                yield ""
            last = cache.size
            yield f"{cache.size:9} {cache.block:6} " + " ".join(f"{counts[rate].of_thousand('misses'):10.3f}" for rate in self.rates)
        yield from left_out(self.sweep)

    def first(self):
        if not self.rows:
            raise Wrong("no cache of the list holds a block of the list")
        return next(iter(self.rows.values()))

    def csv(self):
        yield ",".join(["file", "cache", "block", "rate", *runs.names_of(runs.EngineCounts)])
        for cache, counts in self.rows.items():
            for rate in self.rates:
                yield f"{quoted(self.runs.name)},{cache.size},{cache.block},{rate}," + ",".join(map(str, dataclasses.astuple(counts[rate])))


class Shared:
    """The runs in which several programs share caches."""

    def __init__(self, options, made):
        self.options, self.runs, self.left = options, made, {}
        self.rows = {}

    def run(self):
        wanted = [Cache(size, block) for size in sorted(self.sizes()) for block in self.options.block]
        held = [cache for cache in wanted if cache.slots]
        for cache, run in zip(held, self.runs.all("sizes", [(0, cache.used()) for cache in held])):
            if run.counts:
                self.rows[cache] = run.counts
            else:
                self.left.setdefault(run.line, []).append(cache)
        for cache in wanted:
            if not cache.slots:
                self.left.setdefault(f"cache small: one block has {4 * cache.block} bytes", []).append(cache)
        if not self.rows:
            raise Wrong(f"the programs can't be run in these caches: {next(iter(self.left))}")

    def sizes(self):
        """The caches of the list; without one powers of 2, up to the size that holds all in the longest blocks."""
        if self.options.cache:
            return self.options.cache
        full = Cache(runs.LARGEST, max(self.options.block))
        (run,) = self.runs.all("largest cache", [(0, full.used())])
        if run.counts is None:
            raise Wrong(f"the programs can't be run in blocks of {full.block} words: {run.line}")
        return powers(4 * full.block * run.counts.misses)

    def table(self):
        names = ", ".join([self.runs.name, *(path.name for path in self.runs.others)])
        steps = next(iter(self.rows.values())).steps
        yield f"{names}, {steps} steps together; for each 1000 of them"
        yield f"{'cache':>9} {'block':>6} {'misses':>10} {'evictions':>10} {'links':>10} {'writes':>10} {'instructions':>13}"
        last = None
        for cache, counts in self.rows.items():
            if last not in (None, cache.size):
                yield ""
            last = cache.size
            told = " ".join(f"{counts.of_thousand(name):10.3f}" for name in ("misses", "evictions", "links", "writes"))
            yield f"{cache.size:9} {cache.block:6} {told} {counts.of_thousand('instructions'):13.1f}"
        yield from left_out(self)

    def csv(self):
        yield ",".join(["cache", "block", *runs.names_of(runs.SharedCounts)])
        for cache, counts in self.rows.items():
            yield f"{cache.size},{cache.block}," + ",".join(map(str, dataclasses.astuple(counts)))


