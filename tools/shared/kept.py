"""The runs of a sweep: each is made once, and kept in PREFIX.runs for a later call."""
import concurrent.futures
import dataclasses
import hashlib
import pathlib
import re
import sys
import time

from shared import executions, machines, runs
from shared.elf import program_of
from shared.runs import Cache, Counts, Run, Wrong, say

EXECUTED = "executed"  # begins a line of PREFIX.runs that has the executions of the text's words, by the steps that were counted
EVENTS = 1000000  # of programs that share a cache, all together
SURVEYED = 64  # caches of one run by `survey`, at most
SURVEY = re.compile(rb"((?:\d+(?: \d+){9}\n)+)\Z")


class Runs:
    """The runs of one program, by (words that its text is moved by, cache)."""

    def __init__(self, options, folder):
        self.options, self.folder = options, pathlib.Path(folder)
        self.runner = runs.Runner(runs.built_program())
        self.name = pathlib.Path(options.file).name
        self.file, self.input = runs.file_of(options.file, "file", folder), runs.input_of(options.input, folder)
        self.elf = program_of(self.runner, self.file, self.name)
        self.others = [self.other(name) for name in options.share or []]
        self.prefix = runs.prefix_of(options, self.name, "sweep")
        self.held, self.key = pathlib.Path(f"{self.prefix}.runs"), self.key_of()
        self.done, self.executed, self.asked, self.made = {}, {}, set(), 0
        self.told = time.monotonic()
        self.machines = machines.machines_of(options, self.runner)
        self.surveys = not self.others and self.runner.has("survey")
        self.recall()

    def other(self, name):
        """A further program, which shares the cache."""
        path = runs.file_of(name, "file", self.folder / pathlib.Path(name).name)
        program_of(self.runner, path, pathlib.Path(name).name)
        return path

    def key_of(self):
        """What the counts of a run follow from, beside cache and blocks."""
        digest = hashlib.sha256(" ".join(runs.run_words(self.options)).encode())
        for path in (self.file, *self.others, self.input, self.runner.program):
            digest.update(hashlib.sha256(path.read_bytes()).digest())
        return digest.hexdigest()[:16]

    def recall(self):
        """Takes the runs that an earlier call has kept."""
        for line in self.held.read_text(errors="replace").splitlines() if self.held.is_file() else []:
            fields = line.split("\t")
            if fields[0] == self.key and fields[1:2] == [EXECUTED]:
                self.executed[int(fields[2])] = fields[3]
            elif len(fields) == 10 and fields[0] == self.key:
                moved, size, block, ring, status = map(int, (*fields[1:5], fields[6]))
                rate = int(fields[5]) if fields[5] else None
                counts = runs.counts_of([int(each) for each in fields[7].split()])
                self.done[moved, Cache(size, block, bool(ring), rate)] = Run(status, counts, fields[9], float(fields[8]))
        if self.done:
            say(f"runs that are taken from {self.held}: {len(self.done)}")

    def keep(self, at, run):
        self.done[at] = run
        self.made += 1
        if run.counts is None and run.status != 246:
            return  # want of memory and the like can be another time's luck
        moved, cache = at
        counts = " ".join(map(str, dataclasses.astuple(run.counts))) if run.counts else ""
        rate = "" if cache.rate is None else cache.rate
        fields = [self.key, moved, cache.size, cache.block, int(cache.ring), rate, run.status, counts, f"{run.seconds:.3f}", run.line]
        self.append(fields)

    def append(self, fields):
        try:
            with open(self.held, "a") as out:
                print(*fields, sep="\t", file=out)
        except OSError as error:
            raise Wrong(f"{self.held} can't be written: {error.strerror}") from None

    def executions(self, text, steps, most):
        """How often each word of the text is executed in the first steps, at most so many."""
        counted = min(steps, most)
        if counted in self.executed:
            return executions.kept(self.executed[counted], text, counted, steps)
        limit = self.options.first or self.options.steps if counted == steps else counted
        words = ["--steps", str(limit), "--heap", str(self.options.heap), "--stack", str(self.options.stack)]
        found = executions.count(executions.Counted(self.runner, self.file, self.input, words), text, counted, steps)
        self.append([self.key, EXECUTED, counted, found.line()])
        return found

    def words(self, moved, cache):
        """The words of a run; paths are files."""
        if self.others:
            return self.sharing(cache)
        file = self.copy(moved) if moved else self.file
        return [self.runner.program, cache.command, file, *runs.run_words(self.options), *cache.words(), "--stats"]

    def sharing(self, cache):
        """The words of a run in which the programs share a cache."""
        room = ["--heap", str(self.options.heap), "--stack", str(self.options.stack)]
        return [self.runner.program, "share", self.file, *self.others, "--events", str(self.options.first or EVENTS), *room, *cache.words(), "--stats"]

    def copy(self, moved):
        """The file with its text moved by so many words."""
        path = self.folder / f"moved-{moved}"
        if not path.exists():
            path.write_bytes(self.elf.moved(moved))
        return path

    def start(self, at):
        """A run that is there already, or begins."""
        self.asked.add(at)
        if at in self.done:
            ready = concurrent.futures.Future()
            ready.set_result(None)
            return ready
        return self.machines.submit(self.words(*at), self.input)

    def end(self, at, future):
        if at not in self.done:
            run = runs.run_of(self.machines.answer(future), self.runner)
            runs.refuse(run, self.name, self.options, self.file)
            self.keep(at, run)
        return self.done[at]

    def all(self, what, wanted):
        """The runs of a list, side by side; what they are is told beside the time left."""
        started, found = {self.start(at): at for at in wanted}, {}
        running = set(started)
        while running:
            ended, running = concurrent.futures.wait(running, timeout=0.2, return_when=concurrent.futures.FIRST_COMPLETED)
            for future in ended:
                found[started[future]] = self.end(started[future], future)
            if self.done:
                self.progress(what, len(running), self.mean() * len(running))
        return [found[at] for at in wanted]

    def survey(self, caches):
        """Where the program has `survey`: makes one run for each form of those caches that are not known yet."""
        unknown = sorted({cache.used() for cache in caches} - {cache for moved, cache in self.done if not moved})
        forms = {}
        for cache in unknown if self.surveys else []:
            forms.setdefault(cache.form, []).append(cache)
        groups = [group[at:at + SURVEYED] for group in forms.values() for at in range(0, len(group), SURVEYED)]
        started = {self.machines.submit(self.surveying(group), self.input): group for group in groups}
        for future in concurrent.futures.as_completed(started):
            self.take_survey(started[future], self.machines.answer(future))

    def surveying(self, group):
        """The words of a run that counts all caches of a group."""
        sizes = [str(cache.size) for cache in group]
        of_form = ["--block", str(group[0].block), *(["--ring"] if group[0].ring else [])]
        return [self.runner.program, "survey", self.file, *sizes, *runs.run_words(self.options), *of_form]

    def take_survey(self, group, answer):
        """Takes a line of counts for each cache. Where there are none, runs of their own will tell why."""
        run, found = runs.run_of(answer, self.runner), SURVEY.search(answer[1])
        rows = [list(map(int, line.split())) for line in found[1].splitlines()[-len(group):]] if found else []
        if [row[0] for row in rows] == [cache.size for cache in group]:
            for cache, row in zip(group, rows):
                self.asked.add((0, cache))
                self.keep((0, cache), Run(run.status, Counts(*row[1:]), run.line, run.seconds / len(group)))

    def mean(self):
        """How long a run takes on the average."""
        return sum(run.seconds for run in self.done.values()) / len(self.done)

    def seconds(self):
        """What all runs take that were asked for so far, over the machines, also those that were kept."""
        return sum(self.done[at].seconds for at in self.asked if at in self.done) / self.machines.count

    def progress(self, what, left, seconds):
        """Tells how many runs of a kind there are at most, and about how long they take."""
        terminal, now = sys.stderr.isatty(), time.monotonic()
        if now - self.told < (0.2 if terminal else 15) or not left:
            return
        self.told = now
        text = f"{self.made} runs made, {what}: at most {left} are left, about {runs.time_of(seconds / self.machines.count)}"
        print(f"\r\033[Ksweep: {text}\r" if terminal else f"sweep: {text}", end="" if terminal else "\n", file=sys.stderr, flush=True)

    def close(self):
        if sys.stderr.isatty():
            print("\r\033[K", end="", file=sys.stderr, flush=True)
        self.runner.stop()
        self.machines.close()
