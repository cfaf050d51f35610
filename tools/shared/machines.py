"""Where the runs of a sweep are made: by this machine's processors, or by the workers of a scheduler of Dask's distributed.

A call is made of words, of which a path names a file, and of the path of the input. `submit` answers a future of what `remote.run`
answers.
"""
import concurrent.futures
import hashlib
import logging
import os
import pathlib

from shared import remote
from shared.runs import Wrong


class Here:
    """This machine: so many runs at a time."""

    def __init__(self, runner, jobs):
        self.runner, self.count = runner, jobs or len(os.sched_getaffinity(0))
        self.pool = concurrent.futures.ThreadPoolExecutor(self.count)

    def submit(self, words, source):
        return self.pool.submit(remote.run, [str(word) for word in words], source, self.runner.start, self.runner.alive.discard)

    def answer(self, future):
        return future.result()

    def close(self):
        self.pool.shutdown(cancel_futures=True)


class Workers:
    """The workers of a scheduler. It sends them the program and its files, and makes the runs of a lost worker by another."""

    def __init__(self, address):
        try:
            import cloudpickle
            import distributed
        except ImportError:
            raise Wrong("--scheduler needs Dask's distributed for this python3 (Debian: python3-distributed)") from None
        cloudpickle.register_pickle_by_value(remote)
        for name in ("distributed", "tornado", "asyncio"):
            logging.getLogger(name).setLevel(logging.CRITICAL)
        try:
            self.client = distributed.Client(address, timeout=10, set_as_default=False)
        except (OSError, ValueError) as error:
            raise Wrong(f"--scheduler: {address} doesn't answer: {error}") from None
        self.count = sum(self.client.nthreads().values())
        if not self.count:
            raise Wrong(f"--scheduler: {address} has no workers")
        self.executor, self.sent = self.client.get_executor(retries=9, pure=False), {}

    def send(self, path):
        """The digest of a file. Its bytes are a task's, so that they come again where a worker is lost that held them."""
        data = pathlib.Path(path).read_bytes()
        digest = hashlib.sha256(data).hexdigest()
        if digest not in self.sent:
            self.sent[digest] = self.client.submit(bytes, data, key=f"swic-{digest}")
        return digest

    def submit(self, words, source):
        words = [self.send(word) if isinstance(word, pathlib.Path) else word for word in words]
        source = self.send(source)
        files = {each: self.sent[each] for each in {*words, source} if each in self.sent}
        return self.executor.submit(remote.run_sent, words, source, files)

    def answer(self, future):
        try:
            return future.result()
        except Exception as error:
            raise Wrong(f"--scheduler: a run can't be made: {error}") from None

    def close(self):
        self.executor.shutdown(wait=False)
        self.client.close()


def machines_of(options, runner):
    return Workers(options.scheduler) if options.scheduler else Here(runner, options.jobs)
