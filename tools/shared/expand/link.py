"""A link whose inputs are expanded first: the compiler's driver is given a linker that expands what it is called with."""
import os
import pathlib
import re
import shlex
import shutil
import subprocess
import sys

from shared import runs
from shared.expand import inputs
from shared.expand.inputs import Refusals
from shared.runs import Wrong

LINKERS = ("ld", "ld.bfd", "ld.gold", "ld.lld")
TAKE_A_NAME = {"-o", "--output", "-Map", "--Map", "-R", "--just-symbols"}  # whose next word is a file, but no input
CALLED = "called"  # the file that says that the linker was


def is_linker(command: str) -> bool:
    return re.fullmatch(r"(.*-)?ld(\.bfd|\.gold|\.lld)?", pathlib.Path(command).name) is not None


def run(command: list[str], folder: str, trusted: bool) -> int:
    """Runs the command of a link, by a driver or the linker itself, and tells its status."""
    if not command or not shutil.which(command[0]):
        raise Wrong(f"no command {command[0]}" if command else "--link wants the command of a link behind --")
    if is_linker(command[0]):
        return link(command[0], command[1:], folder, trusted)
    for name in LINKERS:
        make_linker(command[0], name, pathlib.Path(folder), trusted)
    status = subprocess.run([command[0], f"-B{folder}/", *command[1:]]).returncode
    if status == 0 and not pathlib.Path(folder, CALLED).exists():
        raise Wrong(f"{command[0]} called no linker by -B, so nothing was expanded")
    return status


def make_linker(driver: str, name: str, folder: pathlib.Path, trusted: bool):
    """Writes a linker of this name, which expands and then calls the one that the driver calls by it."""
    asked = subprocess.run([driver, f"-print-prog-name={name}"], capture_output=True, text=True, stdin=subprocess.DEVNULL)
    real = shutil.which(asked.stdout.strip() or name)
    if not real:
        return
    words = [sys.executable, "-B", str(runs.TOP / "tools/expand"), *(["--code"] if trusted else []), "--as-linker", os.path.abspath(real), "--"]
    script = folder / name
    script.write_text(f'#!/bin/sh\n: >{shlex.quote(str(folder / CALLED))}\nexec {shlex.join(words)} "$@"\n')
    script.chmod(0o755)


def link(linker: str, words: list[str], folder: str, trusted: bool) -> int:
    """Calls the linker with its inputs expanded; what it makes may have no compressed code any more."""
    words = plain_words(words)
    replaced = Inputs(linker, words, pathlib.Path(folder), trusted).replaced()
    status = subprocess.run([linker, *replaced]).returncode
    out = pathlib.Path(output_of(words))
    if status == 0 and out.is_file() and inputs.is_compressed(out.read_bytes()):
        out.unlink()
        raise Wrong(f"{out} would have compressed code{left_by(linker, [*replaced, '-o', f'{folder}/left'])}")
    return status


def plain_words(words: list[str]) -> list[str]:
    """The words, with those of a file in place of @FILE, and an option for a library or a folder of them as one word."""
    found, option = [], ""
    for word in words:
        if option:
            word, option = option + word, ""
        elif word in ("-l", "--library", "-L", "--library-path"):
            option = "-l" if word in ("-l", "--library") else "-L"
            continue
        if word.startswith("@") and os.path.isfile(word[1:]):
            found += plain_words(shlex.split(pathlib.Path(word[1:]).read_text()))
        else:
            found.append(re.sub("^--library(-path)?=", lambda option: "-L" if option[1] else "-l", word))
    return found


def output_of(words: list[str]) -> str:
    for word, following in zip(words, words[1:]):
        if word in ("-o", "--output"):
            return following
    return next((word.removeprefix("--output=") for word in words if word.startswith("--output=")),
                next((word[2:] for word in words if word.startswith("-o") and len(word) > 2), "a.out"))


def left_by(linker: str, words: list[str]) -> str:
    """Names a compressed input that no word of the command names, as one of a linker script or a thin archive."""
    traced = subprocess.run([linker, *words, "-t"], capture_output=True, text=True).stdout
    for line in traced.splitlines():
        path = pathlib.Path(line.strip())
        if path.is_file() and inputs.is_compressed(path.read_bytes()):
            return f", that of {path}, which no word of the command names: expand it before"
    return ""


class Inputs:
    """The inputs in the words of a linker's call, and the files that take their places."""

    def __init__(self, linker: str, words: list[str], folder: pathlib.Path, trusted: bool):
        self.words, self.folder, self.trusted = words, folder, trusted
        self.made: dict[str, str | None] = {}
        self.refused: list[str] = []
        sysroot = next((word.removeprefix("--sysroot=") for word in words if word.startswith("--sysroot=")), "")
        asked = subprocess.run([linker, "--verbose"], capture_output=True, text=True, stdin=subprocess.DEVNULL).stdout
        folders = [*(word[2:] for word in words if word.startswith("-L")), *re.findall(r'SEARCH_DIR\("([^"]*)"\)', asked)]
        self.folders = [re.sub(r"^(=|\$SYSROOT)", lambda _: sysroot, each) for each in folders]

    def replaced(self) -> list[str]:
        """The words, with expanded files in place of the compressed ones."""
        found, before = [], ""
        for word in self.words:
            path = None if before in TAKE_A_NAME else self.path_of(word)
            found.append(self.made[path] if path and self.is_expanded(path) else word)
            before = word
        if self.refused:
            raise Refusals(*self.refused)
        return found

    def path_of(self, word: str) -> str | None:
        if word.startswith("-l"):
            return self.library(word[2:])
        return None if word.startswith("-") else word

    def library(self, name: str) -> str | None:
        """The file of a library, as the linker finds it; of a shared one, or where there is none, the linker tells."""
        file = name[1:] if name.startswith(":") else f"lib{name}.a"
        return next((path for folder in self.folders if os.path.isfile(path := os.path.join(folder, file))), None)

    def is_expanded(self, path: str) -> bool:
        """Whether another file takes an input's place: not that of what is none, or has no compressed code."""
        if path not in self.made:
            self.made[path] = self.expand(path)
        return self.made[path] is not None

    def expand(self, path: str) -> str | None:
        """Writes an input expanded, under its own name, since linker scripts may name it."""
        try:
            data = pathlib.Path(path).read_bytes()
            if not inputs.is_input(data) or not inputs.is_compressed(data):
                return None
            result = inputs.expand(path, data, self.trusted)
        except OSError:  # of which the linker tells
            return None
        except Refusals as lines:
            self.refused += lines.args
            return None
        for warning in result.warnings:
            runs.say(warning)
        target = self.folder / str(len(self.made)) / pathlib.Path(path).name
        target.parent.mkdir()
        target.write_bytes(result.data)
        return str(target)
