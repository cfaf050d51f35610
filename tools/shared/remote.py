"""A run of the program, with the ends of its output and errors. Dask's workers are sent this module, so it stands alone."""
import os
import pathlib
import subprocess
import tempfile
import time

TAIL = 1 << 16  # bytes at the end of an output that are kept: the counts stand there


def tail_of(stream):
    """The last bytes of a stream, which may be long."""
    held = b""
    while chunk := stream.read(1 << 16):
        held = (held + chunk)[-TAIL:]
    return held


def run(words, source, start=subprocess.Popen, ended=lambda child: None):
    """Runs a command; answers its status, the ends of its output and errors, and the seconds that it took."""
    begun = time.monotonic()
    with open(source, "rb") as given, tempfile.TemporaryFile() as errors:
        with start(words, stdin=given, stdout=subprocess.PIPE, stderr=errors) as child:
            out = tail_of(child.stdout)
        ended(child)
        errors.seek(max(0, errors.seek(0, os.SEEK_END) - 4096))
        return child.returncode, out, errors.read(), time.monotonic() - begun


def held(folder, digest, data):
    """The path of a file with these bytes, which is written once and then never changed."""
    path = pathlib.Path(folder, digest)
    if not path.exists():
        with tempfile.NamedTemporaryFile(dir=folder, delete=False) as out:
            out.write(data)
        os.chmod(out.name, 0o700)
        os.replace(out.name, path)
    return str(path)


def run_sent(words, source, files):
    """A run on a worker: the words that are keys of `files`, and the source, are files whose bytes stand there."""
    folder = pathlib.Path(tempfile.gettempdir(), f"swic-sweep-{os.getuid()}")
    folder.mkdir(mode=0o700, exist_ok=True)
    if folder.stat().st_uid != os.getuid():
        raise PermissionError(f"{folder} is another user's")
    paths = {digest: held(folder, digest, data) for digest, data in files.items()}
    answer = run([paths.get(word, word) for word in words], paths[source])
    if answer[0] < 0:
        raise ChildProcessError(f"a run was ended by signal {-answer[0]}")  # as where its worker is stopped: another one makes it
    return answer
