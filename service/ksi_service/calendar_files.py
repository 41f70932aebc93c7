"""Calendar files: the roots of a plan's decided seconds as static files that anybody may copy (docs/FORMATS.md, "Calendar files").

File N has the seconds from 4,096 N to 4,096 (N + 1) - 1. A full file never changes. The one that grows is written whole and renamed, so
a reader never sees a part of it."""
import functools
import hashlib
import os
import struct
import threading
from typing import Any, Dict, Iterator, List, NamedTuple, Optional, Tuple

from . import files

MAGIC = b"KSIROOT1"
SECONDS = 4096
"""How many seconds a full file has, unless the plan begins in it."""
IMPRINT = 33
HEAD = struct.Struct(">8s33sQQI")
MOST_FILE = HEAD.size + SECONDS * IMPRINT
SHA256 = b"\x01"
"""The first byte of an imprint."""


class BadFile(Exception):
    """Bytes are no calendar file, or one of another plan or number."""


class PlanName(NamedTuple):
    """The plan of a calendar: the SHA-256 of the plan's file in hex, and the plan's first second."""

    digest: str
    start: int

    def first_file(self) -> int:
        return self.start // SECONDS

    def first_of(self, number: int) -> int:
        """The first second of a file."""
        return max(self.start, number * SECONDS)

    def full(self, number: int) -> int:
        """How many seconds a file has if it is full."""
        return (number + 1) * SECONDS - self.first_of(number)


def plan_name(path: str, start: int) -> PlanName:
    """The name of the plan in a file."""
    with open(path, "rb") as file:
        return PlanName(hashlib.sha256(file.read()).hexdigest(), start)


def packed(plan: PlanName, number: int, roots: bytes) -> bytes:
    """The bytes of a file with these imprints."""
    return HEAD.pack(MAGIC, SHA256 + bytes.fromhex(plan.digest), plan.start, number, len(roots) // IMPRINT) + roots


def roots_in(content: bytes, plan: PlanName, number: int) -> bytes:
    """The imprints of a file of this plan and number. Raises BadFile if the bytes are another file, or none."""
    if len(content) < HEAD.size:
        raise BadFile("it is cut off in its head")
    magic, digest, start, given, count = HEAD.unpack_from(content)
    roots = content[HEAD.size:]
    if magic != MAGIC:
        raise BadFile("it is no calendar file")
    if (digest, start, given) != (SHA256 + bytes.fromhex(plan.digest), plan.start, number):
        raise BadFile("it is of another plan or number")
    if not 1 <= count <= plan.full(number) or len(roots) != count * IMPRINT:
        raise BadFile("its length is not that of its seconds")
    if any(roots[at] != SHA256[0] for at in range(0, len(roots), IMPRINT)):
        raise BadFile("a root is not an imprint")
    return roots


def first_difference(one: bytes, other: bytes) -> Optional[int]:
    """The place of the first imprint that differs, among those that both have."""
    size = min(len(one), len(other))
    if one[:size] == other[:size]:
        return None
    return next(at for at in range(size // IMPRINT) if one[at * IMPRINT:(at + 1) * IMPRINT] != other[at * IMPRINT:(at + 1) * IMPRINT])


class FileContent:
    """The bytes of a file that never changes, read a piece at a time: a slow client costs no memory."""

    def __init__(self, path: str, size: int) -> None:
        self.path = path
        self.size = size

    def __len__(self) -> int:
        return self.size

    def __getitem__(self, piece: slice) -> bytes:
        first, last, _ = piece.indices(self.size)
        with open(self.path, "rb") as file:
            file.seek(first)
            return file.read(last - first)


@functools.lru_cache(maxsize=8192)
def digest_of(path: str, size: int) -> str:
    """The SHA-256 of a full file. It is read once."""
    with open(path, "rb") as file:
        return hashlib.sha256(file.read(size)).hexdigest()


class Served(NamedTuple):
    """A calendar file as a server returns it."""

    content: Any
    digest: str
    is_full: bool


class Growing(NamedTuple):
    """The file that grows."""

    number: int
    roots: bytearray


class Calendar:
    """The calendar files of one plan in a folder. All but the last one are full. One thread adds, while others read."""

    def __init__(self, folder: str, plan: PlanName) -> None:
        self.folder = folder
        self.plan = plan
        self.growing = Growing(plan.first_file(), bytearray())
        self.written = 0
        """How many bytes of its imprints are on the disk."""
        self.last: Tuple[Tuple[int, int], bytes, str] = ((0, 0), b"", "")
        """The file that grows as it was served last: its number and size, its content, and its digest."""
        self.lock = threading.RLock()
        files.make_folder(folder)
        self.open()

    def open(self) -> None:
        """Finds the first second that the files lack. A damaged file is written again from there."""
        number = self.number
        while self.is_full(number):
            number += 1
        content = files.content_of(self.path(number))
        try:
            roots = roots_in(content, self.plan, number) if content else b""
        except BadFile:
            roots = b""
        self.growing = Growing(number, bytearray(roots))
        self.written = len(roots)

    @property
    def number(self) -> int:
        """The number of the file that grows."""
        return self.growing.number

    @property
    def roots(self) -> bytearray:
        """The imprints of the file that grows."""
        return self.growing.roots

    def path(self, number: int) -> str:
        return os.path.join(self.folder, str(number))

    def is_full(self, number: int) -> bool:
        """Whether a file is there and full, by its head and size."""
        count = self.plan.full(number)
        try:
            with open(self.path(number), "rb") as file:
                head, size = file.read(HEAD.size), os.fstat(file.fileno()).st_size
        except FileNotFoundError:
            return False
        return head == packed(self.plan, number, bytes(count * IMPRINT))[:HEAD.size] and size == HEAD.size + count * IMPRINT

    @property
    def next(self) -> int:
        """The first second that the calendar lacks."""
        number, roots = self.growing
        return self.plan.first_of(number) + len(roots) // IMPRINT

    def room(self) -> int:
        """How many seconds the file that grows lacks."""
        return self.plan.full(self.number) - len(self.roots) // IMPRINT

    def add(self, roots: bytes) -> None:
        """Adds the imprints of the next seconds. A file that becomes full is written, and the next one begins."""
        with self.lock:
            while roots:
                size = self.room() * IMPRINT
                self.roots.extend(roots[:size])
                roots = roots[size:]
                if not self.room():
                    self.flush()
                    self.growing = Growing(self.number + 1, bytearray())
                    self.written = 0

    def flush(self) -> None:
        """Has the file that grows on the disk."""
        with self.lock:
            if len(self.roots) > self.written:
                files.write(self.path(self.number), packed(self.plan, self.number, bytes(self.roots)))
                self.written = len(self.roots)

    def file_roots(self, number: int) -> bytes:
        """The imprints of a file, or none if the calendar does not have it."""
        last, roots = self.growing
        if number == last:
            return bytes(roots)
        if not self.plan.first_file() <= number < last:
            return b""
        return roots_in(files.content_of(self.path(number)) or b"", self.plan, number)

    def served(self, number: int) -> Optional[Served]:
        """A file for a server, or None if the calendar does not have it."""
        last, growing = self.growing
        if self.plan.first_file() <= number < last:
            size = HEAD.size + self.plan.full(number) * IMPRINT
            return Served(FileContent(self.path(number), size), digest_of(self.path(number), size), True)
        roots = bytes(growing)
        if number != last or not roots:
            return None
        if self.last[0] != (number, len(roots)):
            content = packed(self.plan, number, roots)
            self.last = (number, len(roots)), content, hashlib.sha256(content).hexdigest()
        return Served(*self.last[1:], False)

    def listed(self) -> Dict[str, Any]:
        """The calendar in a listing."""
        return {"plan": self.plan.digest, "start": self.plan.start, "next": self.next}


def numbers_between(plan: PlanName, first: int, last: int) -> Iterator[Tuple[int, int, int]]:
    """The files of the seconds from `first` to `last`, each with the places of the first imprint and after the last one."""
    for number in range(first // SECONDS, last // SECONDS + 1):
        begin = plan.first_of(number)
        yield number, max(first, begin) - begin, min(last + 1, (number + 1) * SECONDS) - begin


def roots_of(rows: List[str], first: int) -> bytes:
    """The imprints of the seconds from `first` on that follow each other in the block of `held`."""
    roots = bytearray()
    for words in (row.split(" ") for row in rows if row.startswith("root ")):
        if int(words[1]) != first + len(roots) // IMPRINT:
            break
        roots += SHA256 + bytes.fromhex(words[2])
    return bytes(roots)
