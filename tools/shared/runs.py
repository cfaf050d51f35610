"""What tools/sweep, tools/why and tools/order share: the words of a call, the program that is built, its runs and their counts."""
import argparse
import dataclasses
import os
import pathlib
import re
import shutil
import signal
import stat
import subprocess
import sys
import tempfile
import time

from shared import remote

TOP = pathlib.Path(__file__).resolve().parent.parent.parent
SCRIPT = pathlib.Path(sys.argv[0]).name
BUILT = TOP / "crates/swic/out/swic"
LARGEST = 8388608  # bytes, the largest cache that is accepted
REFUSED = (241, 242, 243, 244, 245, 248, 249, 251)  # statuses of a run that has a last line
LONG = 180  # seconds: what takes longer is told, with what limits it
REACH = 1 << 20  # bytes that a JAL reaches, so any exit in a cache of this size can be linked


class Wrong(Exception):
    """What the user is told in one line."""


class Stopped(Exception):
    """SIGINT or SIGTERM came."""

    def __init__(self, number):
        super().__init__(number)
        self.status = 128 + number


@dataclasses.dataclass(frozen=True, order=True)
class Cache:
    """A cache: its bytes, the most words of a block, whether it is a ring, without slots, and the rate of an engine beside it, if there is one."""
    size: int
    block: int
    ring: bool = False
    rate: int | None = None

    @property
    def form(self):
        """What caches have in common that differ in their bytes alone."""
        return self.block, self.ring

    @property
    def slots(self):
        """How many blocks of full length it has room for."""
        return self.size // (4 * self.block)

    def used(self):
        """The smallest cache with the same runs: slots are whole, and a ring has whole words."""
        return dataclasses.replace(self, size=self.size // 4 * 4 if self.ring else 4 * self.block * self.slots)

    def less(self):
        """The cache with one slot less; of a ring, with as many bytes less."""
        return dataclasses.replace(self, size=self.size - 4 * self.block)

    @property
    def command(self):
        return "cached" if self.rate is None else "prefetch"

    def words(self):
        rate = [] if self.rate is None else ["--rate", str(self.rate)]
        return ["--cache", str(self.size), "--block", str(self.block), *(["--ring"] if self.ring else []), *rate]

    def __str__(self):
        return f"{self.size} bytes in blocks of {self.block} words"


@dataclasses.dataclass(frozen=True)
class Counts:
    """The nine counts of `--stats`, in its order."""
    steps: int
    instructions: int
    services: int
    misses: int
    evictions: int
    links: int
    unlinks: int
    fetches: int
    writes: int

    @property
    def work(self):
        """The words that the cache RAM gives and takes, for each step."""
        return (self.fetches + self.writes) / max(self.steps, 1)

    @property
    def copied(self):
        """The words of the blocks that were copied."""
        return self.writes - self.links - self.unlinks

    def of_thousand(self, name):
        return 1000 * getattr(self, name) / max(self.steps, 1)


@dataclasses.dataclass(frozen=True)
class EngineCounts(Counts):
    """Those of `prefetch --stats`: the words that the engine wrote to copy stand among the writes, and what it evicts and unlinks too."""
    engine: int
    prefetched: int


@dataclasses.dataclass(frozen=True)
class SharedCounts:
    """The counts of `share --stats`, behind the steps of all its programs together."""
    steps: int
    instructions: int
    misses: int
    evictions: int
    links: int
    unlinks: int
    writes: int

    def of_thousand(self, name):
        return 1000 * getattr(self, name) / max(self.steps, 1)


def names_of(kind):
    return [field.name for field in dataclasses.fields(kind)]


def stats_of(kind):
    """The lines of these counts. They stand behind the program's own output, whose last line may have no end."""
    return re.compile("".join(rf"{name} (\d+)\n" for name in names_of(kind)).encode() + rb"\Z")


NAMES = names_of(Counts)
STATS = {kind: stats_of(kind) for kind in (Counts, EngineCounts)}
# A line for each program stands in front of the counts of `share`.
ENDED = rb"\d+ (?:exited|faulted|store|spent) [^\n]*\n"
SHARED = re.compile(rb"((?:" + ENDED + rb")+)" + "".join(rf"{name} (\d+)\n" for name in names_of(SharedCounts)[1:]).encode() + rb"\Z")


def steps_in(line):
    """The steps of a program: the last word of its line, but that the pc stands behind them where the events were spent."""
    words = line.split()
    return int(words[2] if words[1] == b"spent" else words[-1])


def counts_in(out):
    """The counts at the end of an output, if there are any."""
    for kind, lines in STATS.items():
        if found := lines.search(out):
            return kind(*map(int, found.groups()))
    if found := SHARED.search(out):
        return SharedCounts(sum(steps_in(line) for line in re.findall(ENDED, found[1])), *map(int, found.groups()[1:]))
    return None


def counts_of(numbers):
    """The counts that were kept as their numbers."""
    return {len(names_of(kind)): kind for kind in (*STATS, SharedCounts)}[len(numbers)](*numbers) if numbers else None



@dataclasses.dataclass(frozen=True)
class Run:
    """How a run ended: its status, its counts where it has any, the last line of its errors, and the seconds that it took."""
    status: int
    counts: Counts | None
    line: str
    seconds: float


class Runner:
    """Runs the built program, and ends what still runs when it is stopped."""

    def __init__(self, program):
        self.program = program
        self.alive = set()
        self.stopped = False
        self.usage = None

    def start(self, words, **how):
        child = subprocess.Popen(words, **how)
        self.alive.add(child)
        if self.stopped:
            child.terminate()
        return child

    def stop(self):
        self.stopped = True
        for child in list(self.alive):
            child.terminate()
        for child in list(self.alive):
            child.wait()

    def run(self, command, source):
        """One run with --stats."""
        return run_of(remote.run(command, source, self.start, self.alive.discard), self)

    def has(self, command):
        """Whether the program has a command: its usage line tells."""
        if self.usage is None:
            self.usage = subprocess.run([self.program], stdin=subprocess.DEVNULL, capture_output=True).stderr
        return re.search(rb"[ ,]" + command.encode() + rb"\b", self.usage) is not None


def run_of(answer, runner):
    """What a run was, by the answer of `remote.run`."""
    status, out, errors, seconds = answer
    if status < 0 and not runner.stopped:
        raise Wrong(f"a run was ended by signal {-status}")
    lines = errors.decode(errors="replace").splitlines()
    return Run(status, counts_in(out), lines[-1].replace("\t", " ") if lines else "", seconds)


def built_program():
    """The program that is built; SWIC names another. It is never built here, since that takes minutes that nobody sees."""
    if named := os.environ.get("SWIC"):
        found = shutil.which(named)
        if not found:
            raise Wrong(f"SWIC names no program: {named}")
        return pathlib.Path(found).absolute()
    if not BUILT.exists():
        raise Wrong(f"swic isn't proved here yet: {TOP / 'swic'} --prove proves and builds it, in 20 to 25 minutes; SWIC names another program")
    asked = subprocess.run([TOP / "swic", "--version"], stdin=subprocess.DEVNULL, capture_output=True, text=True)
    if ", proved" not in asked.stdout or ", before " in asked.stdout:
        raise Wrong(f"a source is newer than the proved program: {TOP / 'swic'} --prove proves and builds it anew; SWIC names another program")
    return BUILT


def file_of(name, what, folder):
    """The path of a file that is named; of a pipe a copy, since it is read more than once."""
    try:
        mode = os.stat(name).st_mode
        if str(name) == os.devnull:
            return pathlib.Path(name)
        if stat.S_ISREG(mode):
            with open(name, "rb"):
                return pathlib.Path(name).resolve()
        if stat.S_ISDIR(mode):
            raise Wrong(f"{name} is a folder, and no {what}")
        with open(name, "rb") as pipe:
            return copy_of(pipe, what, folder)
    except OSError as error:
        raise Wrong(f"no {what} {name} that can be read: {error.strerror}") from None


def copy_of(stream, what, folder):
    held = pathlib.Path(folder, what)
    with open(held, "wb") as out:
        while chunk := stream.read(1 << 20):
            out.write(chunk)
    return held


def input_of(name, folder):
    """The input that is named; without a name the standard input, where it is a pipe or a file, else none."""
    if name is not None and name != "-":
        return file_of(name, "input", folder)
    try:
        mode = os.fstat(0).st_mode
    except OSError:
        return pathlib.Path("/dev/null")
    if stat.S_ISFIFO(mode) or stat.S_ISREG(mode) or name == "-":
        say("the input is the standard input")
        return copy_of(sys.stdin.buffer, "input", folder)
    return pathlib.Path("/dev/null")


class Words(argparse.ArgumentParser):
    """Reads the words of a call; what is wrong is told in one line, as all else."""

    def __init__(self, **how):
        super().__init__(allow_abbrev=False, formatter_class=argparse.RawDescriptionHelpFormatter, **how)

    def error(self, message):
        raise Wrong(f"{message}; --help tells the words")


def number(least, most):
    def read(text):
        if not re.fullmatch(r"[0-9]{1,15}", text) or not least <= int(text) <= most:
            raise argparse.ArgumentTypeError(f"'{text}' is no number from {least} to {most}")
        return int(text)
    return read


def add_run_options(words):
    words.add_argument("--first", type=number(1, 10**14), metavar="N", help="only the first N steps: for a program that doesn't end, or takes long")
    words.add_argument("--steps", type=number(1, 10**14), metavar="N", default=1000000000, help="most steps of a run, which has to end within them; default: 1000000000")
    words.add_argument("--heap", type=number(0, 67108864), metavar="N", default=1048576, help="bytes of the heap; default: 1048576")
    words.add_argument("--stack", type=number(4096, 16777216), metavar="N", default=65536, help="bytes of the stack; default: 65536")


def add_cache_options(words):
    words.add_argument("--cache", type=number(8, LARGEST), metavar="N", default=4096, help="bytes of the cache; default: 4096")
    words.add_argument("--block", type=number(2, 1024), metavar="N", default=64, help="most words of a block; default: 64")
    words.add_argument("--ring", action="store_true", help="a ring in place of slots; with --words or --weights, since native/ has no ring")


def run_words(options):
    return ["--steps", str(options.first or options.steps), "--heap", str(options.heap), "--stack", str(options.stack)]


def remedy(line, file, name):
    """What tools/hints says of the last line of a run, behind it; nothing where it has nothing to say."""
    try:
        said = subprocess.run([TOP / "tools/hints", "--line", line, str(file)], stdin=subprocess.DEVNULL, capture_output=True, text=True, errors="replace")
    except OSError:
        return ""
    told = [each.removeprefix("swic: ").replace(str(file), name) for each in said.stderr.splitlines()]
    return "".join(f". {each}" for each in told)


def refuse(run, name, options, file, faults=False):
    """Tells why a run gives no counts to compare, and what to do; one that faults gives some where `faults` is set, and is told of too."""
    more = remedy(run.line, file, name) if run.status in REFUSED else ""
    if run.status == 240 and run.line.startswith("spent:") and not options.first:
        raise Wrong(f"{name} doesn't end within {options.steps} steps ({run.line}): give more by --steps, or count its first N steps by --first N")
    if run.status == 241 and run.line.startswith("fault:"):
        if not faults:
            raise Wrong(f"{name} faults ({run.line}){more}")
        say(f"{name} faults ({run.line}){more}")
    if run.status == 242 and run.line.startswith("store into text"):
        raise Wrong(f"{name} stores into its own text, so no cache can run it ({run.line}){more}")
    if run.status == 250 and run.counts is None:
        raise Wrong(f"swic does not take these options: {run.line}")
    if run.status in (243, 244, 245, 248, 249, 251) and run.counts is None:
        raise Wrong(f"{name} can't be run: {run.line}{more}")


def say(text):
    print(f"{SCRIPT}: {text}", file=sys.stderr, flush=True)


def time_of(seconds):
    """A time as a reader says it."""
    return f"{max(seconds, 1):.0f} s" if seconds < 100 else f"{seconds / 60:.0f} min" if seconds < 6000 else f"{seconds / 3600:.1f} h"


class Progress:
    """Tells how far a long run is: on a terminal in one line, else every 15 seconds. Where it will take long, once how to limit it."""

    def __init__(self, what, steps, limit="", unit="steps"):
        self.what, self.steps, self.limit, self.unit = what, steps, limit, unit
        self.begun = self.told = time.monotonic()

    def tell(self, made):
        terminal, now = sys.stderr.isatty(), time.monotonic()
        if not 0 < made < self.steps or now - self.told < (0.5 if terminal else 15):
            return
        self.told, left = now, (now - self.begun) * (self.steps - made) / made
        if self.limit and now - self.begun > 2 and left > LONG:
            say(f"{self.what} of {self.steps} {self.unit} takes about {time_of(left + now - self.begun)}: {self.limit}")
            self.limit = ""
        text = f"{SCRIPT}: {self.what}: {made} of {self.steps} {self.unit}, about {time_of(left)} left"
        print(f"\r\033[K{text}\r" if terminal else text, end="" if terminal else "\n", file=sys.stderr, flush=True)

    def clear(self):
        """Takes the line away, where it stands on a terminal."""
        if sys.stderr.isatty():
            print("\r\033[K", end="", file=sys.stderr, flush=True)


def plot(script, target):
    """Draws a picture by gnuplot, and says where it is, or why there is none."""
    with tempfile.TemporaryDirectory() as folder:
        made = pathlib.Path(folder, "svg")
        try:
            drawn = subprocess.run(["gnuplot", "-"], input=script.replace("@OUT@", str(made)), text=True, capture_output=True)
        except FileNotFoundError:
            return say("no gnuplot here: no picture")
        if drawn.returncode or not made.exists() or not made.stat().st_size:
            return say(f"gnuplot made no picture: {drawn.stderr.strip().splitlines()[:1]}")
        write(target, made.read_text())
    print(f"picture: {target}")


def write(path, text):
    try:
        pathlib.Path(path).write_text(text)
    except OSError as error:
        raise Wrong(f"{path} can't be written: {error.strerror}") from None


def prefix_of(options, name, suffix):
    """The beginning of the names of what is written: in this folder, unless --out tells another."""
    prefix = options.out or f"{name.removesuffix('.elf')}-{suffix}"
    folder = pathlib.Path(prefix).parent
    if not folder.is_dir() or not os.access(folder, os.W_OK):
        raise Wrong(f"no folder {folder} that can be written")
    return prefix


def main(run):
    """Calls a script with a folder for what it needs while it runs; ends with its status, or a line that says what is wrong."""
    def stop(number, _frame):
        raise Stopped(number)
    for each in (signal.SIGINT, signal.SIGTERM, signal.SIGHUP):
        # what nohup, or a shell's background, has set aside stays so
        if signal.getsignal(each) != signal.SIG_IGN:
            signal.signal(each, stop)
    try:
        with tempfile.TemporaryDirectory() as folder:
            status = run(sys.argv[1:], folder)
        sys.stdout.flush()
        sys.exit(status)
    except Wrong as wrong:
        say(wrong)
        sys.exit(1)
    except Stopped as stopped:
        sys.exit(stopped.status)
    except BrokenPipeError:
        leave_output()
        sys.exit(141)
    except OSError as error:
        # A full disk, most of all.
        say(f"{error.filename or 'what is written'}: {error.strerror or error}")
        leave_output()
        sys.exit(1)


def leave_output():
    """Has what was not written yet go nowhere, since its end failed."""
    os.dup2(os.open(os.devnull, os.O_WRONLY), 1)
