"""The checks of tools/expand, in a folder of their own: the compressed forms, what is refused, assembly with and without C, libgcc and the
C library, and ten programs, run by qemu-riscv32 and, where SWIC names it or it is built, by swic.

    cd tools && python3 -B -m shared.expand.checks
"""
import concurrent.futures
import importlib.util
import os
import pathlib
import shutil
import subprocess
import sys
import tempfile
import time
from functools import partial
from typing import Callable

from shared import runs
from shared.expand.checks import assembled, comparison, forms, linking, programs, refusals
from shared.expand.checks.binutils import PREFIX, Failed, tool

ALIGNED_UNTOLD = {"fixed.c"}  # made without relaxation, so that no relocation tells of an alignment: nops stand in other numbers
READER = "elftools"


def with_reader():
    """Goes on by a python that has pyelftools, where this one hasn't, and another has."""
    system = "/usr/bin/python3"
    if importlib.util.find_spec(READER) or os.path.realpath(sys.executable) == os.path.realpath(system) or not os.path.exists(system):
        return
    if subprocess.run([system, "-c", f"import {READER}"], stderr=subprocess.DEVNULL).returncode == 0:
        os.execv(system, [system, "-B", "-m", "shared.expand.checks", *sys.argv[1:]])


def missing() -> list[str]:
    absent = [program for program in (PREFIX + "gcc", PREFIX + "objdump", "qemu-riscv32") if not shutil.which(program)]
    if absent:
        return absent
    specs = "picolibc.specs"  # without a folder where the compiler doesn't find them
    return [specs] if tool("gcc", f"-print-file-name={specs}").strip() == specs else []


def built() -> pathlib.Path | None:
    named = os.environ.get("SWIC")
    program = pathlib.Path(named) if named else runs.BUILT
    return program if os.access(program, os.X_OK) else None


def work(folder: pathlib.Path, tried: programs.Programs) -> list[tuple[str, Callable[[], str]]]:
    """What is checked: a name, and a call that tells what it has seen."""
    before, after = tried.libraries.compressed, tried.libraries.expanded
    found = [("the compressed forms", partial(forms.check, folder)), ("what is refused", partial(refusals.check, folder))]
    found += [(old.name, partial(comparison.check, old, new)) for old, new in zip(before, after)]
    if importlib.util.find_spec(READER):
        found.append(("the frames of libgcc.a", partial(comparison.check_frames, before[1], after[1], folder)))
    else:
        print("skipped: the frames of libgcc.a, which need pyelftools (Debian: python3-pyelftools)", file=sys.stderr)
    found += [(name, partial(tried.check, name)) for name in programs.PROGRAMS]
    found += [(f"{name} with C and without", partial(assembled.check, name, folder)) for name in programs.PROGRAMS if name not in ALIGNED_UNTOLD]
    return [*found, ("linked files that are refused", partial(linking.check_refused, folder))]


def by_programs(tried: programs.Programs) -> list[tuple[str, Callable[[], str]]]:
    """What is checked with the files of the programs."""
    linked = [(f"{name}, linked before", partial(linking.check_linked, tried, name)) for name in ("switch.c", "unwind.c", "fixed.c")]
    return [("the command of a link", partial(linking.check_command, tried)), *linked]


def outcome(checked: tuple[str, Callable[[], str]]) -> bool:
    (name, call), begun = checked, time.monotonic()
    try:
        print(f"ok    {name}: {call()}, {time.monotonic() - begun:.1f} s", flush=True)
    except (Failed, subprocess.TimeoutExpired) as why:
        print(f"FAIL  {name}: {why}", flush=True)
        return False
    return True


def main() -> int:
    with_reader()
    if missing():
        print(f"skipped: tools/expand: no {' and no '.join(missing())} here", file=sys.stderr)
        return 0
    if not built():
        print("skipped: the programs by swic, which is not built", file=sys.stderr)
    with tempfile.TemporaryDirectory() as name, concurrent.futures.ThreadPoolExecutor(2) as pool:
        folder = pathlib.Path(name)
        tried = programs.Programs(folder, programs.Libraries(folder), built())
        outcomes = list(pool.map(outcome, work(folder, tried))) + list(pool.map(outcome, by_programs(tried)))
    print(f"{sum(outcomes)} passed, {len(outcomes) - sum(outcomes)} failed")
    return 0 if all(outcomes) else 1


sys.exit(main())
