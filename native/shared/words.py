"""The words of a call, and how a script ends: what is wrong is told in one line."""
import argparse
import os
import pathlib
import re
import sys


class Wrong(Exception):
    """What the user is told in one line, with the status."""

    def __init__(self, line, status=1):
        super().__init__(line)
        self.status = status


class Words(argparse.ArgumentParser):
    """What is wrong with the words of a call is told in one line, with status 250."""

    def error(self, message):
        unknown = re.match(r"unrecognized arguments: (\S+)", message)
        raise Wrong(f"no option {unknown[1]}; --help tells them" if unknown else f"{message}; --help tells the words", 250)


def number(least, most, multiple=1):
    def read(text):
        if not re.fullmatch(r"0*[0-9]{1,10}", text) or not least <= int(text) <= most or int(text) % multiple:
            raise argparse.ArgumentTypeError(f"wants a number from {least} to {most}" + (f", a multiple of {multiple}" if multiple > 1 else "") + f", not '{text}'")
        return int(text)
    return read


def main(run):
    """Calls a script, and ends with its status or a line that says what is wrong."""
    try:
        sys.exit(run(sys.argv[1:]))
    except Wrong as wrong:
        print(f"{pathlib.Path(sys.argv[0]).name}: {wrong}", file=sys.stderr)
        sys.exit(wrong.status)
    except BrokenPipeError:
        os.dup2(os.open(os.devnull, os.O_WRONLY), 1)
        sys.exit(141)
    except OSError as error:
        print(f"{pathlib.Path(sys.argv[0]).name}: {error.filename or 'what is written'}: {error.strerror or error}", file=sys.stderr)
        sys.exit(254)
