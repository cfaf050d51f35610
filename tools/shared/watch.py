"""watch.py PROGRAM WORDS..: runs a command of swic at a terminal, and tells now and then how far it is, in a line on the error output.

Input, outputs and status are the command's, and a signal that ends it ends this too; where that was Ctrl-C, the last line says where it
stood. The program tells no steps while it runs: they are its processor seconds by the speed of its first ten million steps, which are
made once more, without input, when the first line is due. What the command writes to the terminal comes through one pipe, in its order;
behind an end that was none of the program's own, tools/hints says what to do. ./swic calls this.
"""
import contextlib
import os
import pathlib
import re
import signal
import subprocess
import sys
import time

FIRST = 5.0  # seconds to the first line; each further one comes after twice the time
TRIED = 10_000_000
PATIENCE = 2.0  # seconds that these may take
TICKS = os.sysconf("SC_CLK_TCK")
COUNTED = ("--steps", "--events")
ENDED = (241, 242, 249, 251)  # by a line that tools/hints may know
LINE = re.compile(rb"(?:fault: \w|store into text: |sink fault|source fault|no memory)[^\n]*\n\Z")
LINE_MOST = 200  # bytes
HINTS = pathlib.Path(__file__).resolve().parent.parent / "hints"


def say(text):
    with contextlib.suppress(OSError):
        os.write(2, f"swic: {text}\n".encode())


def number(count):
    """A large number as a reader says it."""
    for size, name in ((10**12, "million million"), (10**9, "thousand million"), (10**6, "million")):
        if count >= size:
            return f"{count / size:.3g} {name}"
    return str(round(count))


def spawn(words, actions):
    """Begins a command with the signals of a program, and what these actions make of its first files."""
    # Python has these ignored.
    return os.posix_spawn(words[0], words, os.environ, file_actions=actions, setsigdef=[signal.SIGPIPE, signal.SIGXFSZ])


class Limit:
    """The most steps of a command, or events, and the same command with another number of them."""

    def __init__(self, words):
        program, command, *rest = words
        self.option = COUNTED[command == "share"]
        self.most = 1_000_000 if command == "share" else 1_000_000_000
        self.front, self.rest = [program, command], []
        rest = iter(rest)
        for word in rest:
            name, _, value = word.partition("=")
            if name == self.option:
                self.most = int(value or next(rest))
            else:
                self.rest.append(word)
            if word == "--":
                self.rest += rest

    def seconds(self, steps):
        """What so many steps take of a processor, or none where there are fewer, or they take long."""
        words = [*self.front, self.option, str(steps), *self.rest]
        child = spawn(words, [(os.POSIX_SPAWN_OPEN, at, "/dev/null", os.O_RDWR, 0) for at in (0, 1, 2)])
        end = time.monotonic() + PATIENCE
        while True:
            ended, status, used = os.wait4(child, os.WNOHANG)
            if ended:
                made = os.waitstatus_to_exitcode(status) == (0 if self.option == "--events" else 240)
                return used.ru_utime + used.ru_stime if made else None
            if time.monotonic() > end:
                os.kill(child, signal.SIGKILL)
                os.waitpid(child, 0)
                return None
            time.sleep(0.01)

    def speed(self):
        """Steps a second, where they can be told: what is no file in a folder can be read only once."""
        if self.most <= TRIED or any(os.path.exists(it) and not os.path.isfile(it) for it in self.rest):
            return None
        none, some = self.seconds(0), self.seconds(TRIED)
        return None if none is None or some is None or some <= none else TRIED / (some - none)


def is_terminal(output):
    """Whether an output is the terminal to which the errors go."""
    try:
        return os.path.sameopenfile(output, 2)
    except OSError:
        return False


class Watch:
    def __init__(self, words):
        self.words = words
        self.begun, self.due, self.used = time.monotonic(), FIRST, 0.0
        self.asked, self.limit, self.speed = False, None, None
        outputs = [at for at in (1, 2) if is_terminal(at)]
        self.written, end = os.pipe()
        self.child = spawn(words, [(os.POSIX_SPAWN_DUP2, end, at) for at in outputs])
        os.close(end)

    def ask(self):
        """Finds the speed, once."""
        if not self.asked:
            self.asked = True
            try:
                self.limit = Limit(self.words)
                self.speed = self.limit.speed()
            except (OSError, ValueError, StopIteration):
                self.speed = None

    def steps(self, used):
        """About how many steps were made, by the processor seconds."""
        return min(used * self.speed, self.limit.most)

    def tell(self, *_):
        """The line that is due, unless the program mostly waits; and when the next one is."""
        self.due *= 2
        try:
            with open(f"/proc/{self.child}/stat") as stat:
                fields = stat.read().rpartition(")")[2].split()
        except OSError:
            return
        used = (int(fields[11]) + int(fields[12])) / TICKS
        busy = used - self.used > 0.1
        self.used = used
        self.ask()
        passed = time.monotonic() - self.begun
        if busy and self.speed:
            what = self.limit.option[2:]
            say(f"{passed:.0f} s, about {number(self.steps(used))} {what} of at most {number(self.limit.most)}, {number(self.speed)} a second")
        elif busy:
            say(f"{passed:.0f} s")
        signal.setitimer(signal.ITIMER_REAL, max(self.begun + self.due - time.monotonic(), 1))

    def pass_on(self):
        """Writes what the program writes, until it ends or the terminal is gone, and answers the last bytes."""
        last = b""
        with contextlib.suppress(OSError), open(self.written, "rb", buffering=0) as written:
            while piece := written.read(1 << 16):
                last = (last + piece)[-LINE_MOST:]
                while piece:
                    piece = piece[os.write(2, piece) :]
        return last

    def run(self):
        """Waits for the end, and answers the status, or minus the signal."""
        for each in (signal.SIGTERM, signal.SIGHUP):
            signal.signal(each, lambda number, _: os.kill(self.child, number))
        if signal.getsignal(signal.SIGINT) != signal.SIG_IGN:
            signal.signal(signal.SIGINT, lambda *_: None)  # the terminal tells the program too
        signal.signal(signal.SIGALRM, self.tell)
        signal.setitimer(signal.ITIMER_REAL, FIRST)
        last = self.pass_on()
        _, status, used = os.wait4(self.child, 0)
        signal.setitimer(signal.ITIMER_REAL, 0)
        status = os.waitstatus_to_exitcode(status)
        passed = time.monotonic() - self.begun
        if status == -signal.SIGINT and passed > FIRST:
            where = f", at about {number(self.steps(used.ru_utime + used.ru_stime))} {self.limit.option[2:]}" if self.speed else ""
            say(f"stopped after {passed:.0f} s{where}")
        if status in ENDED and (line := LINE.search(last)):
            with contextlib.suppress(OSError):
                subprocess.run([HINTS, "--end", line[0].rstrip(), *self.words[1:]], stdin=subprocess.DEVNULL)
        return status


def main(words):
    if sys.version_info < (3, 11):
        for each in (signal.SIGPIPE, signal.SIGXFSZ):
            signal.signal(each, signal.SIG_DFL)
        os.execv(words[0], words)
    status = Watch(words).run()
    if status < 0:
        signal.signal(-status, signal.SIG_DFL)
        os.kill(os.getpid(), -status)
    sys.exit(status)


main(sys.argv[1:])
