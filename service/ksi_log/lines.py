"""Logs as text of lines, cut into blocks. A long line is in a block by its length and hash (docs/FORMATS.md, "Stores of logs")."""
import bz2
import gzip
import hashlib
import lzma
import os
import stat
from typing import Any, BinaryIO, Callable, Dict, Iterator, List, NamedTuple, Optional, Tuple

from .errors import LogError

MOST_LINES = 65_536
"""The most lines of a block."""
MOST_BYTES = 32 << 20
"""A block ends after the line with which it has this many bytes: the programs read files of at most twice as many."""
LONGEST = 8_000
"""The most bytes of a line in a block."""
MARK = b"ksi-log replaced "
"""The first bytes of a line that replaces another one. A line of the log that begins with them is replaced too."""
PIECE = 1 << 20
OPENERS: Dict[bytes, Callable[[Any], Any]] = {b"\x1f\x8b": gzip.open, b"BZh": bz2.open, b"\xfd7zXZ\0": lzma.open}
"""How compressed logs are read, by their first bytes."""


class Cut(NamedTuple):
    """Successive lines of a log."""

    first_byte: int
    size: int
    """The bytes of these lines in the log, with their line feeds."""
    lines: List[bytes]
    """The lines as they are in a block, without line feeds."""
    is_ended: bool
    """Whether the last line has a line feed."""

    @property
    def text(self) -> bytes:
        """The block's text: each line with a line feed."""
        return b"\n".join(self.lines) + b"\n"


class Log:
    """A log that is open for reading, compressed or not."""

    def __init__(self, path: str) -> None:
        """Raises LogError if the path is not a regular file, OSError if it cannot be read."""
        self.path = path
        number = os.open(path, os.O_RDONLY | os.O_NONBLOCK)
        self.stat = os.fstat(number)
        if not stat.S_ISREG(self.stat.st_mode):
            os.close(number)
            raise LogError(f"{path} is not a regular file")
        plain = open(number, "rb", buffering=PIECE)
        head = plain.peek(8)[:8]
        opened = next((it for magic, it in OPENERS.items() if head.startswith(magic)), None)
        self.is_compressed = opened is not None
        self.file: Any = opened(plain) if opened else plain
        self._plain = plain

    def __enter__(self) -> "Log":
        return self

    def __exit__(self, *_: object) -> None:
        self.file.close()
        self._plain.close()

    def take(self, first_byte: int, most: Optional[int] = None) -> Cut:
        """The next lines from a byte on, at most this many, or at most those of a block. Raises LogError if a compressed log is damaged."""
        try:
            # a compressed log is read from its first byte again at each step back
            if self.file.tell() != first_byte:
                self.file.seek(first_byte)
            return taken(self.file, first_byte, MOST_LINES if most is None else most)
        except (EOFError, lzma.LZMAError, gzip.BadGzipFile) as fault:
            raise LogError(f"{self.path} is damaged: {fault}") from None

    def cuts(self, first_byte: int) -> Iterator[Cut]:
        """The blocks of the log from a byte on. Lines that are written meanwhile begin no further block."""
        cut = self.take(first_byte)
        while cut.lines:
            yield cut
            end = cut.first_byte + cut.size
            if not self.is_compressed and end >= self.stat.st_size:
                return
            cut = self.take(end)

    def line(self, first_byte: int) -> bytes:
        """The line that begins at a byte, as it is in the log, without its line feed."""
        cut = self.take(first_byte, 1)
        return self.content(first_byte, cut.size - cut.is_ended)

    def content(self, first_byte: int, size: int) -> bytes:
        """Bytes of the log as they are."""
        self.file.seek(first_byte)
        return self.file.read(size)

    def has_feed_at(self, place: int) -> bool:
        """Whether there is a line feed at a byte."""
        return self.content(place, 1) == b"\n"


def taken(file: BinaryIO, first_byte: int, most: int) -> Cut:
    """The next lines of a file that is at a byte."""
    lines: List[bytes] = []
    size, is_ended = 0, True
    readline = file.readline
    while len(lines) < most and size < MOST_BYTES and (line := readline(LONGEST + 2)):
        is_ended = line[-1] == 10
        length = len(line)
        if length > LONGEST + is_ended or line.startswith(MARK):
            line, length, is_ended = replaced(line, is_ended, file)
        elif is_ended:
            line = line[:-1]
        lines.append(line)
        size += length
    return Cut(first_byte, size, lines, is_ended)


def replaced(begun: bytes, is_ended: bool, file: BinaryIO) -> Tuple[bytes, int, bool]:
    """The line that replaces the one that begins with these bytes and goes on in the file, the bytes of that one, and whether it is ended."""
    digest, size, piece = hashlib.sha256(), 0, begun
    while not is_ended and (more := file.readline(PIECE)):
        digest.update(piece)
        size += len(piece)
        piece, is_ended = more, more[-1] == 10
    digest.update(piece[:-1] if is_ended else piece)
    size += len(piece)
    return mark(size - is_ended, digest.hexdigest()), size, is_ended


def mark(size: int, digest: str) -> bytes:
    """The line that replaces one of this size and SHA-256."""
    return MARK + f"{size} bytes SHA-256 {digest}".encode()


def recorded(line: bytes) -> bytes:
    """A line of a log, without its line feed, as it is in a block."""
    if len(line) > LONGEST or line.startswith(MARK):
        return mark(len(line), hashlib.sha256(line).hexdigest())
    return line
