"""How often each word of a program's text is executed, over the whole run or its first steps: by `swic profile`."""
import dataclasses
import pathlib
import re
import subprocess

from shared import runs
from shared.runs import Wrong

LINE = re.compile(rb"([0-9a-f]{8}) (\d+)\n")
LAST = re.compile(LINE.pattern + rb"\Z")


@dataclasses.dataclass(frozen=True)
class Executions:
    """How often each text word was executed in the steps that were counted, and whether these are all of the run."""
    of: list
    steps: int
    whole: bool

    def line(self):
        """The words that are executed, as they are kept."""
        return " ".join(f"{k}:{times}" for k, times in enumerate(self.of) if times)


@dataclasses.dataclass(frozen=True)
class Counted:
    """A run whose executions are counted: the program that is built, the file, its input, and the words behind it."""
    runner: runs.Runner
    file: pathlib.Path
    input: pathlib.Path
    words: list

    def start(self):
        words = [str(self.runner.program), "profile", str(self.file), *self.words]
        return self.runner.start(words, stdin=open(self.input, "rb"), stdout=subprocess.PIPE, stderr=subprocess.DEVNULL)


def kept(line, text, counted, steps):
    """Those of an earlier call."""
    of = [0] * text.count
    for each in line.split():
        k, times = each.split(":")
        of[int(k)] = int(times)
    return Executions(of, counted, counted == steps)


def count(run, text, counted, steps):
    """Counts so many steps of a run that has `steps`."""
    if not run.runner.has("profile"):
        raise Wrong(f"{run.runner.program} is too old: it has no command profile")
    return Executions(filled(last_rows(run.start(), counted), text), counted, counted == steps)


def last_rows(child, counted):
    """The lines of a profile, which end what the program itself writes: from behind, as many as tell all steps but one, which may
    stand beside the text."""
    found = []
    for line in child.stdout:
        row = LAST.search(line)
        if not row or row.start():
            found.clear()
        if row:
            found.append(row)
    child.wait()
    rows, above = [], 1 << 32
    for row in reversed(found):
        address, times = int(row[1], 16), int(row[2])
        if address >= above or times > counted:
            break
        rows.append(row)
        above, counted = address, counted - times
    if counted > 1:
        raise Wrong(f"the executions were read wrong: {counted} steps are missing")
    return rows


def filled(rows, text):
    of = [0] * text.count
    for row in rows:
        k, rest = divmod(int(row[1], 16) - text.base, 4)
        if rest or not 0 <= k < text.count:
            raise Wrong(f"the executions were read wrong: {row[1].decode()} is no word of the text")
        of[k] = int(row[2])
    return of
