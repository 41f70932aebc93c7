"""Digests of the lines that went between machines, so that their logs are checked together and no record leaves its machine.

Each machine writes a file of rows of 43 bytes: a kind, a step of its record, a node, a step of that node's record, a place, and 16 bytes
of a SHA-256.

    S   step STEP of NODE here sent message PLACE to a node of another machine; the digest is of the message
    T   step STEP here took message PLACE of step THERE of NODE, a node of another machine; the digest is of the message
    P   the first row: the digest is that of the plan
    E   the last row

`write` checks on each machine that no aggregator used a request number twice; aggregators may have the same numbers. `compare` checks
that each line was sent by its sender, and that there is one order in which each follows the step that sent it. With `check --by-node` on
each machine the logs are then those of one history. Memory does not grow with the files."""
import hashlib
import math
import os
import sqlite3
import struct
import tempfile
from contextlib import closing
from typing import Dict, Iterator, List, NamedTuple, Optional, Sequence

from . import apart, files
from .folders import Folders
from .merging import sender_of
from .record import Signed, Step, told
from .retrace import Differs

ROW = struct.Struct(">cQ8sQH16s")


class Row(NamedTuple):
    kind: bytes
    step: int
    node: str
    there: int
    place: int
    digest: bytes

    def packed(self) -> bytes:
        return ROW.pack(self.kind, self.step, self.node.encode(), self.there, self.place, self.digest)


class Counts(NamedTuple):
    steps: int
    lines: int
    """How many lines went to other machines, or came from there."""


def digest_of_plan(path: str) -> bytes:
    with open(path, "rb") as file:
        return hashlib.sha256(file.read()).digest()[:16]


def rows_of(folders: Folders, number: int, step: Step) -> Iterator[Row]:
    """The rows of a step."""
    if apart.is_from_elsewhere(step):
        _, there, place = step.message
        yield Row(b"T", number, sender_of(folders.plan, step), there, place, apart.digest_of(f"send {step.node} {step.line}"))
    for place, text in enumerate(it for it in step.block or [] if it.startswith("send ")):
        if text.split(" ", 2)[1] not in folders.of_node:
            yield Row(b"S", number, step.node, 0, place, apart.digest_of(text))


def write(folder: str, out: str) -> Counts:
    """Writes the digests of a machine's folder. Raises Differs if a line of a node of this machine was not sent before, or if an
    aggregator used a request number twice."""
    folders, lines = Folders(folder), 0
    made = f"{out}.new"
    try:
        with open(made, "wb") as file, apart.joining() as joined:
            file.write(Row(b"P", 0, "", 0, 0, digest_of_plan(folders.plan_path)).packed())
            for step in (it for it in told(folders.records[0]) if not isinstance(it, Signed)):
                for row in rows_of(folders, joined.steps, step):
                    file.write(row.packed())
                    lines += 1
                joined.add(step)
            file.write(Row(b"E", 0, "", 0, 0, bytes(16)).packed())
        files.keep(made, out)
    finally:
        files.remove(made)
    return Counts(joined.steps, lines)


def rows_in(path: str) -> Iterator[Row]:
    """The rows of a file. Raises Differs if it is no file of digests, or is cut off."""
    last = b""
    with open(path, "rb") as file:
        while piece := file.read(ROW.size):
            if len(piece) < ROW.size or last == b"E":
                break
            kind, step, node, there, place, digest = ROW.unpack(piece)
            if (last == b"") != (kind == b"P") or kind not in b"PSTE":
                break
            last = kind
            yield Row(kind, step, node.rstrip(b"\0").decode("ascii", "replace"), there, place, digest)
        else:
            if last == b"E":
                return
    raise Differs(f"{path} is no whole file of digests")


class Sent:
    """The lines that were sent from machine to machine, in a temporary file."""

    def __init__(self, path: str) -> None:
        self.base = sqlite3.connect(path, isolation_level=None)
        self.base.executescript("PRAGMA journal_mode = OFF; PRAGMA synchronous = OFF; BEGIN;"
                                "CREATE TABLE sent (node TEXT, step INTEGER, place INTEGER, digest BLOB, PRIMARY KEY (node, step, place)) WITHOUT ROWID;")

    def add(self, row: Row) -> None:
        self.base.execute("INSERT INTO sent VALUES (?, ?, ?, ?)", (row.node, row.step, row.place, row.digest))

    def has(self, row: Row) -> bool:
        found = self.base.execute("SELECT digest FROM sent WHERE node = ? AND step = ? AND place = ?", (row.node, row.there, row.place)).fetchone()
        return found == (row.digest,)

    def close(self) -> None:
        self.base.close()


class Taken:
    """The lines that one machine took, up to the next one."""

    def __init__(self, path: str) -> None:
        self.path = path
        self.rows = (row for row in rows_in(path) if row.kind == b"T")
        self.next: Optional[Row] = next(self.rows, None)

    def reached(self) -> float:
        """The first step of this machine that is not in the order yet."""
        return math.inf if self.next is None else self.next.step

    def advance(self) -> None:
        self.next = next(self.rows, None)


class Comparison:
    """Files of digests that are compared."""

    def __init__(self, paths: Sequence[str], sent: Sent) -> None:
        self.paths = paths
        self.sent = sent
        self.home: Dict[str, str] = {}
        """The file of each node that sent lines."""
        self.plans: Dict[bytes, str] = {}
        self.lines = 0

    def read(self) -> None:
        """Reads the rows of plans, and of lines that were sent."""
        for path in self.paths:
            for row in rows_in(path):
                if row.kind == b"P":
                    self.plans[row.digest] = path
                elif row.kind == b"S":
                    if self.home.setdefault(row.node, path) != path:
                        raise Differs(f"both {self.home[row.node]} and {path} have the node {row.node}")
                    self.sent.add(row)
        if len(self.plans) > 1:
            raise Differs(f"{' and '.join(self.plans.values())} are of different plans")

    def order(self) -> None:
        """Takes the lines in an order in which each follows the step that sent it."""
        taken = {path: Taken(path) for path in self.paths}
        is_moving = True
        while is_moving:
            is_moving = False
            for one in taken.values():
                while one.next is not None and self.is_next(one, taken):
                    one.advance()
                    self.lines += 1
                    is_moving = True
        stuck = next((it for it in taken.values() if it.next is not None), None)
        if stuck:
            raise Differs(f"there is no order in which each line follows the step that sent it: see step {stuck.next.step} of {stuck.path}")

    def is_next(self, one: Taken, taken: Dict[str, Taken]) -> bool:
        row = one.next
        if not self.sent.has(row):
            raise Differs(f"{one.path}: step {row.step} took a line that {row.node} did not send by its machine's step {row.there}")
        return row.there < taken[self.home[row.node]].reached()


def compare(paths: List[str]) -> int:
    """Compares files of digests, one of each machine. Returns how many lines between machines were sent before they were taken."""
    with tempfile.TemporaryDirectory(prefix="ksi-sent-") as room, closing(Sent(os.path.join(room, "sent"))) as sent:
        comparison = Comparison(paths, sent)
        comparison.read()
        comparison.order()
    return comparison.lines
