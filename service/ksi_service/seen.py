"""The publications that a mirror has seen and recomputed: a publications file that only grows. Each record has the time at which the
mirror first saw it, and where, as a reference."""
import os
import time
from typing import Dict, List, NamedTuple, Tuple

from . import files
from .elements import MAGIC_PUBLICATIONS, Malformed, element, imprint, number, number_of, read

REFERENCE = "seen {} at {}"


class Seen(NamedTuple):
    second: int
    root: str
    """In hex."""
    time: int
    """When the mirror saw it."""
    source: str


def record_of(seen: Seen) -> bytes:
    data = element(0x10, number(0x02, seen.second), imprint(0x04, seen.root))
    return element(0x703, data, element(0x09, REFERENCE.format(seen.time, seen.source).encode()))


def seen_in(body: bytes) -> Seen:
    """The publication of a record of this mirror."""
    parts = {it.kind: it.body for it in read(body)}
    data = {it.kind: it.body for it in read(parts[0x10])}
    words = parts.get(0x09, b"seen 0 at ").decode(errors="replace").split(" ", 3)
    return Seen(number_of(data[0x02]), data[0x04][1:].hex(), int(words[1]), words[3])


class SeenPublications:
    def __init__(self, path: str) -> None:
        self.path = path
        self.all: List[Seen] = []
        self.root_of: Dict[int, str] = {}
        content = files.content_of(path)
        self.content = self.begun(int(time.time())) if content is None else self.whole(content)
        if content is None:
            files.write(path, self.content)
        elif len(content) > len(self.content):
            self.cut_off()

    def begun(self, now: int) -> bytes:
        return MAGIC_PUBLICATIONS + element(0x701, number(0x01, 1), number(0x02, now))

    def whole(self, content: bytes) -> bytes:
        """The file up to a record that a loss of power has cut off."""
        at = len(MAGIC_PUBLICATIONS)
        if not content.startswith(MAGIC_PUBLICATIONS):
            raise Malformed("no publications file")
        elements = read(content, at)
        while True:
            try:
                it = next(elements, None)
                if it is None:
                    return content[:at]
                if it.kind == 0x703:
                    self.note(seen_in(it.body))
            except (Malformed, KeyError, IndexError, ValueError):
                return content[:at]
            at += len(it.spelled)

    def cut_off(self) -> None:
        with open(self.path, "r+b") as file:
            file.truncate(len(self.content))
            os.fsync(file.fileno())

    def note(self, seen: Seen) -> None:
        self.all.append(seen)
        self.root_of.setdefault(seen.second, seen.root)

    def add(self, seen: Seen) -> None:
        """Appends a publication. It is on the disk on return."""
        record = record_of(seen)
        with open(self.path, "r+b") as file:
            # what a write that failed has left is written over
            file.truncate(len(self.content))
            file.seek(len(self.content))
            file.write(record)
            file.flush()
            os.fsync(file.fileno())
        self.content += record
        self.note(seen)

    def has(self, second: int, root: str) -> bool:
        return self.root_of.get(second) == root

    def last(self) -> int:
        """The last published second, or 0."""
        return max(self.root_of, default=0)

    def first_from(self, second: int) -> Tuple[int, str]:
        """The first publication of this second or a later one."""
        found = min(it for it in self.root_of if it >= second)
        return found, self.root_of[found]

    def sources_of(self, second: int) -> List[Seen]:
        return [it for it in self.all if it.second == second]
