"""Marks: the place where the facts of a node's file end, and a digest of all bytes before it.

The record of a run has a mark with each answer that stored a fact, and the marks of both files with each forgetting. At each start of a node
its file has to begin with the bytes of the last mark, and at most the fact of one further line may follow. So a flipped bit, an older copy
or another file is noticed before the node gets a line. A change of that one further fact is not noticed, nor one of bytes after the facts,
which nobody reads."""
import hashlib
import os
from typing import NamedTuple, Optional

HEADERS = {b"KSINODE1": 18, b"KSIROUN1": 20}
"""How many bytes are before the first record, by the first eight (docs/FORMATS.md, "Node files" and "Files of aggregators")."""
OPEN = 1
"""The commit byte of a record that is there."""
HEAD = 5
"""The bytes of a record before its content: the commit byte, and the length of the content."""
PIECE = 1 << 20
DIGITS = 16


class Mark(NamedTuple):
    """The end of a file's facts."""
    digest: str
    """The first 16 hex digits of the SHA-256 of the bytes before it."""
    place: int
    """How many bytes these are."""


def mark_in(value) -> Optional[Mark]:
    """The mark that an entry of the record has, or None."""
    return None if value is None else Mark(str(value[0]), int(value[1]))


class Prefix:
    """The first bytes of a node's file, which may be read on while the node adds to it."""

    def __init__(self, path: str) -> None:
        self.file = open(path, "rb", buffering=0)
        self.digest = hashlib.sha256()
        self.place = 0
        """How many bytes were read."""

    def close(self) -> None:
        self.file.close()

    def mark(self) -> Mark:
        return Mark(self.digest.hexdigest()[:DIGITS], self.place)

    def read_to(self, place: int) -> bool:
        """Reads on to this place. Returns whether the file has that many bytes."""
        while self.place < place:
            piece = os.pread(self.file.fileno(), min(PIECE, place - self.place), self.place)
            if not piece:
                return False
            self.digest.update(piece)
            self.place += len(piece)
        return True

    def read_header(self) -> bool:
        """Reads the bytes before the first record. Returns whether the file has the form of a node's file."""
        size = HEADERS.get(os.pread(self.file.fileno(), 8, 0))
        return size is not None and self.read_to(size)

    def content_size(self) -> Optional[int]:
        """The length of the content of the next record, or None if there is no record."""
        head = os.pread(self.file.fileno(), HEAD, self.place)
        return int.from_bytes(head[1:], "big") if len(head) == HEAD and head[0] == OPEN else None

    def read_record(self) -> bool:
        """Reads the next record. Returns whether there is one."""
        size = self.content_size()
        return size is not None and self.read_to(self.place + HEAD + size)

    def read_records(self, count: int) -> bool:
        """Reads this many records. Returns whether there are as many."""
        return all(self.read_record() for _ in range(count))


def end_of(path: str) -> Optional[Mark]:
    """The mark of a file to which nothing was added after it was made whole, or None if it does not have the form of a node's file."""
    prefix = Prefix(path)
    try:
        if not prefix.read_header():
            return None
        # the last byte is the closed commit byte after the facts
        return prefix.mark() if prefix.read_to(os.fstat(prefix.file.fileno()).st_size - 1) else None
    finally:
        prefix.close()
