"""Hashes blocks in processes of their own, since an interpreter hashes short texts on one processor only.

A process reads blocks from its standard input until that ends, so it does not outlive a program that is killed."""
import contextlib
import os
import queue
import struct
import subprocess
import sys
from typing import IO, List, Optional

from .errors import LogError
from .leaves import leaves_of, root_of

WORKERS = min(8, os.cpu_count() or 1)
"""How many blocks are hashed at once."""
HEAD = struct.Struct(">II")
"""The sizes of the seed and of the text of a block. The answer has the size of the root and that of the leaves."""
MODULE = "ksi_log.hashing"
TOP = os.path.dirname(os.path.dirname(os.path.abspath(__file__)))


class Hasher:
    """A process that computes leaves and roots. An interrupt from the terminal does not reach it: it ends with its input."""

    def __init__(self) -> None:
        self._process = subprocess.Popen([sys.executable, "-m", MODULE], cwd=TOP, stdin=subprocess.PIPE, stdout=subprocess.PIPE, start_new_session=True)

    def hash(self, text: bytes, seed: bytes) -> List[bytes]:
        """The root and the leaves of a block. Raises LogError if the process ended."""
        assert self._process.stdin and self._process.stdout
        with contextlib.suppress(BrokenPipeError):
            put(self._process.stdin, seed, text)
        found = get(self._process.stdout)
        if found is None:
            raise LogError("a process that hashes ended")
        return found

    def close(self) -> None:
        assert self._process.stdin and self._process.stdout
        with contextlib.suppress(BrokenPipeError):
            self._process.stdin.close()
        self._process.stdout.close()
        self._process.wait()


class Hashers:
    """Some processes, each of them used by one thread at a time. They are started when they are needed."""

    def __init__(self) -> None:
        self._free: "queue.SimpleQueue[Optional[Hasher]]" = queue.SimpleQueue()
        for _ in range(WORKERS):
            self._free.put(None)

    def __enter__(self) -> "Hashers":
        return self

    def __exit__(self, *_: object) -> None:
        for it in (self._free.get() for _ in range(WORKERS)):
            if it:
                it.close()

    def hash(self, text: bytes, seed: bytes) -> List[bytes]:
        it = self._free.get()
        try:
            it = it or Hasher()
            return it.hash(text, seed)
        finally:
            self._free.put(it)


def put(file: IO[bytes], one: bytes, other: bytes) -> None:
    file.write(HEAD.pack(len(one), len(other)) + one)
    file.write(other)
    file.flush()


def get(file: IO[bytes]) -> Optional[List[bytes]]:
    """Two texts, or None at the end."""
    head = file.read(HEAD.size)
    if len(head) < HEAD.size:
        return None
    one, other = HEAD.unpack(head)
    found = [file.read(one), file.read(other)]
    return found if [len(it) for it in found] == [one, other] else None


def hashed(text: bytes, seed: bytes) -> List[bytes]:
    """The root and the leaves of a block, in this process."""
    leaves = leaves_of(text[:-1].split(b"\n"), seed)
    return [root_of(leaves), leaves]


def main() -> None:
    while (found := get(sys.stdin.buffer)) is not None:
        seed, text = found
        try:
            put(sys.stdout.buffer, *hashed(text, seed))
        except BrokenPipeError:
            # the program was killed
            os._exit(1)


if __name__ == "__main__":
    main()
