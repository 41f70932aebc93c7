"""Processes that work on portions of a list, in the order of the list. If the process that began them ends in any way, they end too."""
import collections
import concurrent.futures
import importlib
import os
import pickle
import queue
import signal
import subprocess
import sys
from typing import Any, Callable, Deque, Iterable, Iterator, List

from .errors import ServiceError
from .programs import BESIDE

MOST_WORKERS = 8
AHEAD = 8
"""For each process, how many portions may be in work or wait for an earlier one."""
BEGINNING = "import sys; sys.path.insert(0, sys.argv[1]); from ksi_service.workers import serve; serve()"


class WorkerEnded(ServiceError):
    """A process ended before it answered."""


def count_of(jobs: int = 0) -> int:
    """How many processes there are: `jobs`, or if that is 0 one for each processor that this one may use."""
    return jobs or min(MOST_WORKERS, len(os.sched_getaffinity(0)))


class Worker:
    """A process that calls one function. The function takes a portion and a function for bytes that it has read."""

    def __init__(self, function: str, settings: Any) -> None:
        self.process = subprocess.Popen([sys.executable, "-c", BEGINNING, BESIDE], stdin=subprocess.PIPE, stdout=subprocess.PIPE)
        self.send((function, settings))

    def send(self, it: Any) -> None:
        try:
            pickle.dump(it, self.process.stdin)
            self.process.stdin.flush()
        except OSError:
            raise WorkerEnded("a process that hashes ended: was it killed?") from None

    def ask(self, portion: List[Any], on_bytes: Callable[[int], None]) -> List[Any]:
        self.send(portion)
        while True:
            try:
                is_last, told = pickle.load(self.process.stdout)
            except (EOFError, pickle.UnpicklingError):
                raise WorkerEnded("a process that hashes ended: was it killed?") from None
            if is_last:
                return told
            on_bytes(told)

    def close(self) -> None:
        for end in (self.process.stdin, self.process.stdout):
            try:
                end.close()
            except OSError:
                pass
        self.process.wait()


class Workers:
    """Several processes for one function, named as `module.function` of this package, with its settings."""

    def __init__(self, count: int, function: str, settings: Any = None) -> None:
        self.all = [Worker(function, settings) for _ in range(count)]
        self.idle: "queue.SimpleQueue[Worker]" = queue.SimpleQueue()
        for it in self.all:
            self.idle.put(it)

    def __enter__(self) -> "Workers":
        return self

    def __exit__(self, kind: Any, *_: Any) -> None:
        if kind is not None:
            for it in self.all:
                it.process.kill()
        for it in self.all:
            it.close()

    def results(self, portions: Iterable[List[Any]], on_bytes: Callable[[int], None] = lambda count: None) -> Iterator[List[Any]]:
        """The results of portions, in their order."""
        waiting: Deque["concurrent.futures.Future[List[Any]]"] = collections.deque()
        with concurrent.futures.ThreadPoolExecutor(len(self.all)) as threads:
            try:
                for portion in portions:
                    waiting.append(threads.submit(self.result, portion, on_bytes))
                    if len(waiting) >= AHEAD * len(self.all):
                        yield waiting.popleft().result()
                while waiting:
                    yield waiting.popleft().result()
            except BaseException:
                # threads that wait for a process would wait for a long file
                for it in waiting:
                    it.cancel()
                for worker in self.all:
                    worker.process.kill()
                raise

    def result(self, portion: List[Any], on_bytes: Callable[[int], None]) -> List[Any]:
        worker = self.idle.get()
        try:
            return worker.ask(portion, on_bytes)
        finally:
            self.idle.put(worker)


def serve() -> None:
    """The process: answers each portion on its standard input, until that ends."""
    # an interrupt from the terminal goes to all processes; this one ends with its input
    signal.signal(signal.SIGINT, signal.SIG_IGN)
    source, out = sys.stdin.buffer, sys.stdout.buffer

    def tell(is_last: bool, told: Any) -> None:
        pickle.dump((is_last, told), out)
        out.flush()
    try:
        named, settings = pickle.load(source)
        module, _, name = named.rpartition(".")
        does = getattr(importlib.import_module(f"ksi_service.{module}"), name)(settings, lambda count: tell(False, count))
        while True:
            tell(True, [does(it) for it in pickle.load(source)])
    except (EOFError, BrokenPipeError):
        # nobody waits for what is left in the buffer
        os._exit(0)
