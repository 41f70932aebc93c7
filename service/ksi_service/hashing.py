"""Hashes files of any size. A file that is no regular file is refused before it is read: a FIFO does not hang."""
import contextlib
import hashlib
import os
import stat
from typing import Callable, Iterator, NamedTuple, Union

from .errors import ServiceError

PIECE = 1 << 20
"""How many bytes are read at once."""
KINDS = {stat.S_IFDIR: "a folder", stat.S_IFLNK: "a symbolic link", stat.S_IFIFO: "a FIFO", stat.S_IFSOCK: "a socket", stat.S_IFCHR: "a device", stat.S_IFBLK: "a device"}
EMPTY = hashlib.sha256().hexdigest()
"""The hash of a file without bytes, as an upload that failed leaves it."""
Path = Union[str, bytes]


class NotHashed(ServiceError):
    """A file is not a regular file, or it changed while it was read."""


class Hashed(NamedTuple):
    size: int
    digest: bytes


def kind_of(mode: int) -> str:
    """The kind of a file that is not a regular one."""
    return KINDS.get(stat.S_IFMT(mode), "no file")


@contextlib.contextmanager
def opened(path: Path) -> Iterator[int]:
    """A descriptor of a regular file. Raises OSError with the reason, or NotHashed if it is another kind of file."""
    # without O_NONBLOCK a FIFO waits for a writer
    number = os.open(path, os.O_RDONLY | os.O_NONBLOCK | os.O_CLOEXEC | os.O_NOCTTY)
    try:
        mode = os.fstat(number).st_mode
        if stat.S_ISDIR(mode):
            raise IsADirectoryError(21, os.strerror(21), path)
        if not stat.S_ISREG(mode):
            raise NotHashed(f"it is {kind_of(mode)}, which has no bytes of its own")
        yield number
    finally:
        os.close(number)


def hashed(path: Path, on_bytes: Callable[[int], None] = lambda count: None) -> Hashed:
    """The size and the SHA-256 of a regular file. `on_bytes` is called with the size of each piece that was read. Raises NotHashed if the
    file is changed meanwhile."""
    digest, size = hashlib.sha256(), 0
    with opened(path) as number:
        before = os.fstat(number)
        # a small file needs no large buffer
        buffer = memoryview(bytearray(min(PIECE, before.st_size + 1)))
        while count := os.readv(number, [buffer]):
            digest.update(buffer[:count])
            size += count
            on_bytes(count)
        after = os.fstat(number)
    if (before.st_mtime_ns, before.st_size, size) != (after.st_mtime_ns, after.st_size, after.st_size):
        raise NotHashed("it changed while it was read")
    return Hashed(size, digest.digest())


def content_of(path: Path, most: int) -> bytes:
    """The bytes of a small file. Raises NotHashed if it has more than `most`."""
    with opened(path) as number:
        with open(number, "rb", closefd=False) as file:
            content = file.read(most + 1)
    if len(content) > most:
        raise NotHashed(f"it has more than {most:,} bytes")
    return content
