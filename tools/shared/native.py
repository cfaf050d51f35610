"""Runs of a firmware on a board of native/, with the counts of the runtime and of what the processor executed.

`python3 tools/shared/native.py` tries it on a firmware of native/demo, as a check of this file alone.
"""
import concurrent.futures
import dataclasses
import os
import pathlib
import re
import shutil
import subprocess
import sys
import tempfile
import time

TOP = pathlib.Path(__file__).resolve().parent.parent.parent
if __name__ == "__main__":
    sys.path.insert(0, str(TOP / "tools"))

from shared import executions, runs, tracing  # noqa: E402
from shared.advice import NoPair  # noqa: E402
from shared.alternatives import Alternatives  # noqa: E402
from shared.board import Board, Images  # noqa: E402
from shared.elf import program_of  # noqa: E402
from shared.runs import Cache, Counts, Wrong, say  # noqa: E402

NATIVE = TOP / "native"
KEPT = "services misses evictions links unlinks writes".split()
NO_ROOM, ENDED_LATE = 247, 124
ICOUNT = "4"  # an instruction takes 16 ns of the board's clock, so that runs are the same each time
SIZES = [512, 1024, 2048, 3072, 4096, 6144, 8192, 12288, 16384, 24576, 32768, 49152, 65536]
SECONDS = 600  # of a run, where no more are given


@dataclasses.dataclass(frozen=True)
class NativeRun:
    """A run in a cache: the nine counts, and the instructions and the loads from slow memory of the runtime's services."""
    counts: Counts
    service_instructions: int
    service_loads: int

    @property
    def instructions(self):
        """Those of the program and of its services."""
        return self.counts.fetches + self.service_instructions


def number_of(name, text):
    found = re.search(rf"^{name} (\d+)$", text, re.M)
    return int(found[1]) if found else 0


class Firmware:
    """A firmware, and its runs on a board, each up to where it sets a variable."""

    def __init__(self, options, folder):
        self.options, self.folder = options, pathlib.Path(folder)
        self.runner = runs.Runner(runs.built_program())
        self.name = pathlib.Path(options.file).name
        self.file, self.input = runs.file_of(options.file, "file", folder), runs.file_of(options.input or os.devnull, "input", folder)
        self.elf = program_of(self.runner, self.file, self.name)
        self.prefix = runs.prefix_of(options, self.name, "sweep")

    def call(self, words, behind=()):
        """The status, the error output and what the plugin counted."""
        with tempfile.TemporaryDirectory(dir=self.folder) as folder:
            count = pathlib.Path(folder, "count")
            command = [NATIVE / "run", "--firmware", self.file, "--board", self.options.native, "--icount", ICOUNT, "--until", self.options.until]
            command += ["--seconds", self.options.seconds or SECONDS, "--count", count, *words, *(["--", *behind] if behind else [])]
            with open(self.input, "rb") as given:
                child = self.runner.start([str(word) for word in command], stdin=given, stdout=subprocess.DEVNULL, stderr=subprocess.PIPE)
                errors = child.communicate()[1].decode(errors="replace")
            self.runner.alive.discard(child)
            return child.returncode, errors, count.read_text(encoding="ascii") if count.exists() else ""

    def refuse(self, status, errors, where):
        """Tells why a run did not come to its end."""
        if status == ENDED_LATE:
            raise Wrong(f"{self.name} {where} didn't set {self.options.until} within {self.options.seconds or SECONDS} seconds: give more by --seconds, or name by --until a variable that it sets earlier")
        if status:
            lines = errors.strip().splitlines()
            raise Wrong(f"{self.name} {where}: {lines[-1] if lines else f'status {status}'}")

    def flash(self, text):
        """A run out of flash: its steps, and how often each word of the text was executed, where a C compiler makes the plugin."""
        plugin, out = self.plugin(), self.folder / "executed"
        begin, end = text.base, text.base + 4 * text.count
        status, errors, counted = self.call(["--bare"], ["-plugin", f"{plugin},begin={begin:#x},end={end:#x},out={out}"] if plugin else [])
        self.refuse(status, errors, f"out of flash on {self.options.native}")
        rows = [executions.LINE.fullmatch(line) for line in out.read_bytes().splitlines(keepends=True)] if out.exists() else []
        of = executions.filled([row for row in rows if row], text)
        return number_of("fetches", counted), of if any(of) else None

    def plugin(self):
        compiler, made = shutil.which("gcc") or shutil.which("cc"), self.folder / "executions.so"
        source = TOP / "tools/shared/board_executions.c"
        words = [compiler, "-O2", "-shared", "-fPIC", "-o", made, source]
        return made if compiler and not subprocess.run(words, stdin=subprocess.DEVNULL, capture_output=True).returncode else None

    def run(self, cache, steps):
        """A run in a cache; None where the board has no room for it. `steps` are those out of flash, and the instructions of the counts
        are the fetches."""
        status, errors, counted = self.call(["--stats", "--links", "0", "--cache", cache.size, "--block", cache.block])
        if status == NO_ROOM:
            return None
        self.refuse(status, errors, f"on {self.options.native} in {cache}")
        fetches = number_of("fetches", counted)
        kept = {name: number_of(name, errors) for name in KEPT}
        kinds = re.findall(r"^kind \S+ \d+ instructions (\d+) least \d+ most \d+ slow (\d+)$", counted, re.M)
        instructions, loads = (sum(int(kind[k]) for kind in kinds) for k in (0, 1))
        return NativeRun(Counts(steps=steps, instructions=fetches, fetches=fetches, **kept), instructions, loads)


# The sweep: what the report asks of one is here what the board counted.


@dataclasses.dataclass
class Row:
    """A line of the table: a cache, the counts of its run, and the cost beside the firmware out of flash."""
    cache: Cache
    counts: Counts
    value: float
    note: str = ""
    worst: float = 0.0
    fewest: float | None = None
    fewest_misses: int | None = None
    jump: Counts | None = None


@dataclasses.dataclass(frozen=True)
class Choice:
    """The smallest cache within the percents of the best, and the one that stays within them with one slot less."""
    smallest: Row | None
    recommended: Row | None
    ring: bool = False

    def rows(self):
        return {name: row for name, row in (("smallest", self.smallest), ("recommended", self.recommended)) if row}


class Sweep:
    """The runs of a firmware in caches of a board, and which cache is recommended."""
    rings, registers, returns, traced, spent, fixed = (False,), None, None, None, False, ""

    def __init__(self, options, firmware):
        self.options, self.runs = options, firmware
        self.pair = NoPair() if options.ram else None
        self.weights = dataclasses.replace(options.weights, named=f"counts on {options.native}")
        self.text, self.rows, self.left, self.made = tracing.Text(firmware.elf), {}, {}, {}

    def begin(self):
        """The run out of flash, and what it tells of the alternatives."""
        say(f"{self.runs.name} out of flash on {self.options.native}, up to where it sets {self.options.until}")
        begun = time.monotonic()
        self.steps, executed = self.runs.flash(self.text)
        self.seconds = time.monotonic() - begun
        if not self.steps:
            raise Wrong(f"{self.runs.name} executed nothing out of flash on {self.options.native}")
        self.executions = executions.Executions(executed, self.steps, True) if executed else None
        self.images = Images(self.runs, self.options.block)
        self.board = Board(self.runs.elf, self.weights, self.images)
        if executed:
            self.board.alternatives = Alternatives(self.runs.elf, executed, self.weights)

    def wanted(self):
        """The caches of the list; without one those of usual sizes that take less fast RAM than the whole text, or --ram."""
        sizes = self.options.cache or SIZES
        caches = {Cache(size, block).used() for size in sizes for block in self.options.block if size >= 4 * block}
        if self.options.ram and not self.options.cache:
            caches |= {cache for block in self.options.block if (cache := self.board.fitting(block, self.options.ram))}
        fitting = [cache for cache in caches if self.options.cache or self.options.all or self.fits(cache)]
        return sorted(fitting or [min(caches)])

    def fits(self, cache):
        """Whether a cache takes less fast RAM than the whole text, and at most --ram."""
        return self.board.spares(cache) and (not self.options.ram or self.board.ram(cache) <= self.options.ram)

    def parts(self, counts, _cache=None):
        """The instructions and the slow loads of a run, as counted."""
        run = self.made[counts]
        return run.instructions, run.service_loads

    def value(self, counts, _cache=None):
        instructions, loads = self.parts(counts)
        return (instructions + self.weights.load * loads) / self.weights.alone(counts)

    def cost(self, counts, _cache=None):
        return self.value(counts) * self.weights.alone(counts)

    def run(self, cache):
        if run := self.runs.run(cache, self.steps):
            self.made[run.counts] = run
        return run

    def take(self, pool, caches):
        started, progress = {pool.submit(self.run, cache): cache for cache in caches}, runs.Progress("runs on the board", len(caches), unit="caches")
        for made, future in enumerate(concurrent.futures.as_completed(started), 1):
            cache, run = started[future], future.result()
            progress.tell(made)
            if run is None:
                self.left.setdefault("the board has no room", []).append(cache)
            else:
                self.rows[cache] = Row(cache, run.counts, self.value(run.counts))

    def sought(self):
        return [row for row in self.rows.values() if self.fits(row.cache)]

    def least(self):
        return min((row.value for row in self.sought()), default=0.0)

    def bears(self, row):
        """Whether it stays within the percents with one slot less."""
        less = row.cache.used().less()
        run = self.run(less) if less.slots else None
        row.worst = max(row.value, self.value(run.counts)) if run else row.value
        good = run is not None and row.worst <= self.least() * (1 + self.options.within / 100)
        row.note = "recommended" if good else f"{row.worst:.3f} with one slot less" if run else "has one slot alone"
        return good

    def choose(self):
        """Makes the runs, and chooses among them."""
        caches = self.wanted()
        jobs = self.options.jobs or os.cpu_count()
        say(f"{len(caches)} caches, {jobs} at a time: about {runs.time_of(2 * self.seconds * len(caches) / jobs)}")
        pool = concurrent.futures.ThreadPoolExecutor(jobs)
        try:
            self.take(pool, caches)
        except BaseException:
            self.runs.runner.stop()
            raise
        finally:
            pool.shutdown(cancel_futures=True)
        if not self.rows:
            raise Wrong("no cache of these has room on the board, in less fast RAM than the whole text takes: name others by --cache and --block")
        bar = self.least() * (1 + self.options.within / 100)
        rows = sorted((row for row in self.sought() if row.value <= bar), key=lambda row: (row.cache.size, row.value))
        return Choice(rows[0] if rows else None, next((row for row in rows if self.bears(row)), None))


def check():
    """The counts of two caches: the larger one has no evictions, and both have the same fetches but for what waits for the timer."""
    from shared import weights
    with tempfile.TemporaryDirectory() as folder:
        file = f"{folder}/demo.elf"
        subprocess.run([NATIVE / "demo/build", "virt", "demo.c", file], check=True)
        options = runs.argparse.Namespace(file=file, input=None, native="virt", until="finished", seconds=None, out=f"{folder}/demo", weights=weights.weights_of(str(weights.BOARD)))
        firmware = Firmware(options, folder)
        steps, executed = firmware.flash(tracing.Text(firmware.elf))
        small, large, none = (firmware.run(Cache(size, 16), steps) for size in (512, 4096, 65536))
    good = steps > 10000 and sum(executed) == steps and small.counts.evictions and not large.counts.evictions and none is None
    good = good and small.counts.misses > large.counts.misses > 0 and small.instructions > large.instructions > steps and small.service_loads > large.service_loads
    print(f"tools/shared/native.py: {'good' if good else f'wrong: {steps} {sum(executed)} {small} {large} {none}'}")
    return not good


if __name__ == "__main__":
    sys.exit(check())
