"""What tools/build, tools/prove and tools/unproved share: the crates of a checkout, turns in it, and the end of a call by a signal."""

import fcntl
import os
import pathlib
import signal
import types

TOP = pathlib.Path(__file__).resolve().parent.parent.parent


class Stopped(Exception):
    """A signal ends this call."""

    def __init__(self, number: int) -> None:
        super().__init__(number)
        self.number = number


def stop(number: int, _: types.FrameType | None) -> None:
    raise Stopped(number)


def listen() -> None:
    """Has the signals that stop a call raise Stopped, unless the caller has them ignored."""
    for it in (signal.SIGINT, signal.SIGTERM, signal.SIGHUP):
        if signal.getsignal(it) != signal.SIG_IGN:
            signal.signal(it, stop)


def end_by(number: int) -> None:
    """Ends as a program does that leaves a signal to the system."""
    signal.signal(number, signal.SIG_DFL)
    os.kill(os.getpid(), number)


def lines_below(name: str) -> dict[str, str]:
    """The lines of crates.txt of a crate and of those that it stands on, directly or not."""
    lines = {line.split(":")[0].split()[0]: line for line in (TOP / "crates.txt").read_text().splitlines() if line[:1].isalpha()}
    found: set[str] = set()
    pending = {name}
    while pending:
        found |= pending
        pending = {it for above in pending for it in lines[above].split(":")[1].split() if it in lines} - found
    return {it: line for it, line in lines.items() if it in found}


def take_turn(folder: pathlib.Path, who: str) -> None:
    """Waits until no other call builds in a folder of this checkout, and keeps others out until this one ends."""
    folder.mkdir(parents=True, exist_ok=True)
    held = os.open(folder, os.O_RDONLY)
    try:
        fcntl.flock(held, fcntl.LOCK_EX | fcntl.LOCK_NB)
    except BlockingIOError:
        print(f"{who}: another call builds in this checkout; waiting for its end", flush=True)
        fcntl.flock(held, fcntl.LOCK_EX)
