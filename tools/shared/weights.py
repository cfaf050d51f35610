"""What a run costs, where the user says what each thing costs that is counted, and what a cache takes of RAM and flash.

A file of weights has a line for each event: its name, its cost in any unit (as cycles), and the loads from slow memory that it makes.
A line of a place has its name and bytes: `ram` and `flash` once, `ram-slot` for each slot of the cache, `ram-block` and `flash-block`
for each block of the program, `ram-word` and `flash-word` for each word of its text. Behind # stands a comment.
"""
import argparse
import dataclasses
import pathlib
import re

from shared import runs
from shared.runs import Wrong

NUMBER = r"(?:[0-9]+|[0-9]*\.[0-9]+)"
OUTSIDE = 0.3  # of the returns those outside the memo, where no trace tells: as measured on the average (native/README.md)
LOAD = 10.0  # wait states, where none are given
BOARD = runs.TOP / "native/weights"
# What can have a weight, and how many a run has of it: `c` are its counts, `j` its jumps over registers.
EVENTS = {
    "instruction": lambda c, j: c.instructions,
    "service": lambda c, j: c.services,
    "register": lambda c, j: j.registers,
    "direct": lambda c, j: c.services - j.registers,
    "return": lambda c, j: j.returns - j.found,
    "find": lambda c, j: j.found,
    "jump": lambda c, j: c.services - c.links - j.returns,
    "link": lambda c, j: c.links,
    "unlink": lambda c, j: c.unlinks,
    "miss": lambda c, j: c.misses - 1,  # the first block is the boot's
    "eviction": lambda c, j: c.evictions,
    "word": lambda c, j: c.copied,
    "write": lambda c, j: c.writes,
}
STEP = "step"  # in a file the weight of a step without a cache; else that of an instruction
NAMES = [STEP, *EVENTS]
PLACES = ["ram", "ram-slot", "ram-block", "ram-word", "flash", "flash-block", "flash-word"]


@dataclasses.dataclass(frozen=True)
class Jumps:
    """The services of a run that are jumps over registers, and those of them that are returns, which are the same in each cache; and the
    returns whose target the runtime's memo has not, which are not."""
    registers: int = 0
    returns: int = 0
    found: int = 0


@dataclasses.dataclass(frozen=True)
class Weights:
    """What each event costs, in any unit, with the loads from slow memory that it makes; and how the user named the whole."""
    named: str
    of: dict
    step: tuple  # the same of a step of the program without a cache
    places: dict
    load: float = 0.0  # what such a load costs more

    def with_loads(self, weight):
        cost, loads = weight
        return cost + loads * self.load

    def weight(self, event):
        return self.with_loads(self.of.get(event, (0.0, 0.0)))

    @property
    def apart(self):
        """Whether jumps over registers and direct exits have different weights."""
        return self.weight("register") != self.weight("direct")

    @property
    def board(self):
        """Whether they are those of a board: the program without a cache runs from slow memory, and the bytes are told."""
        return self.step[1] > 0 and bool(self.places)

    @property
    def has_returns(self):
        """Whether a return has a weight of its own; else it is a jump like others."""
        return "return" in self.of

    def parts(self, counts, jumps):
        """The cost of a run but for the wait states, and its loads from slow memory."""
        jumps = dataclasses.replace(jumps, returns=jumps.returns if self.has_returns else 0, found=jumps.found if "find" in self.of else 0)
        numbers = [(weight, EVENTS[event](counts, jumps)) for event, weight in self.of.items()]
        return sum(cost * number for (cost, _), number in numbers), sum(loads * number for (_, loads), number in numbers)

    def cost(self, counts, jumps):
        return self.with_loads(self.parts(counts, jumps))

    def alone(self, counts):
        """The cost without a cache."""
        return self.with_loads(self.step) * max(counts.steps, 1)

    def ratio(self, counts, jumps):
        return self.cost(counts, jumps) / self.alone(counts)

    def bytes_of(self, kind, slots, blocks, words):
        """What the runtime and its tables take, beside the cache and the blocks."""
        of = self.places.get
        return int(of(kind, 0) + of(f"{kind}-slot", 0) * slots + of(f"{kind}-block", 0) * blocks + of(f"{kind}-word", 0) * words)


def decimal(text):
    if not re.fullmatch(NUMBER, text):
        raise argparse.ArgumentTypeError(f"'{text}' is no number as 10 or 2.5")
    return float(text)


def add_options(call):
    """What says how a run's counts become its cost."""
    call.add_argument("--load", type=decimal, metavar="W", help=f"what a load from slow memory costs more: wait states, with the costs of a board; default: {LOAD:g}")
    call.add_argument("--weights", type=weights_of, metavar="WEIGHTS", help="another runtime's costs than native/weights: a file with a line for each event, one of " + ", ".join(NAMES) + ", with its cost and the loads from slow memory that it makes. Or numbers: what a machine instruction, a service and a word written cost, I,S,W, or with jumps over registers and direct exits apart I,R,D,W")
    call.add_argument("--words", action="store_true", help="no costs of a board: only the words that the cache RAM gives and takes count")


def value(weights, counts, jumps):
    """What a step costs: beside a step without a cache, or without weights the words that the cache RAM gives and takes."""
    return weights.ratio(counts, jumps) if weights else counts.work


def unit(weights):
    """What a value is, in words."""
    return "words a step" if not weights else "times slow memory" if weights.board else "times no cache"


def told(weights):
    """By which weights, behind a cost."""
    return f", by {weights.named}{f' with {weights.load:g} wait states (--load)' if weights.step[1] else ''}" if weights else ""


def chosen(options):
    """The weights that the options ask for; None for the words alone."""
    if options.words:
        if options.weights or options.load is not None:
            raise Wrong("--words goes with neither --weights nor --load")
        return None
    if options.ring and not options.weights:
        raise Wrong("--ring goes with --words, or --weights of a runtime that has rings: that of native/ has slots alone")
    weights = options.weights or weights_of(str(BOARD))
    if options.load is not None and not weights.places and not weights.step[1]:
        raise Wrong("--load goes with a file of --weights that has loads from slow memory")
    named = "native/weights" if weights.named == str(BOARD) else weights.named
    return dataclasses.replace(weights, named=named, load=LOAD if options.load is None else options.load)


def weights_of(text):
    """I,S,W or I,R,D,W, or a file."""
    places = {}
    if re.fullmatch(rf"{NUMBER}(,{NUMBER}){{2,3}}", text):
        numbers = [(float(each), 0.0) for each in text.split(",")]
        of = dict(zip(["instruction", "service", "write"] if len(numbers) == 3 else ["instruction", "register", "direct", "write"], numbers))
    else:
        events, places = read_weights(text)
        of = {"instruction": (1.0, 0.0), **events}
    step = of.pop(STEP, of["instruction"])
    if not step[0]:
        raise Wrong("--weights: a step that costs nothing gives nothing to compare with")
    return Weights(text, of, step, places)


def read_weights(name):
    """The lines of a file: those of events, and those of places."""
    try:
        lines = pathlib.Path(name).read_text().splitlines()
    except (OSError, UnicodeDecodeError):
        raise Wrong(f"--weights wants three or four numbers with commas between, or a file that can be read, not '{name}'") from None
    events, places = {}, {}
    for at, line in enumerate(lines, 1):
        words = line.partition("#")[0].split()
        if not words:
            continue
        event, numbers = words[0], words[1:]
        most = 2 if event in NAMES else 1 if event in PLACES else 0
        if not 1 <= len(numbers) <= most or not all(re.fullmatch(NUMBER, each) for each in numbers):
            raise Wrong(f"{name}, line {at}: not one of {', '.join(NAMES)} with one or two numbers, nor one of {', '.join(PLACES)} with one")
        if event in events or event in places:
            raise Wrong(f"{name}, line {at}: {event} is given twice")
        if most == 1:
            places[event] = float(numbers[0])
        else:
            events[event] = float(numbers[0]), float(numbers[1]) if len(numbers) == 2 else 0.0
    return events, places
