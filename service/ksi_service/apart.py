"""The logs of a run's nodes, each compared with the node's own run by the proved `ksi_retrace`, in the memory of one node.

By a law such logs are those of one history if each line from a node was sent by an earlier block, and if no two requests of one
aggregator have one number. `join` checks these two. Its memory is bounded: what was sent is kept in a file."""
import contextlib
import hashlib
import os
import sqlite3
import subprocess
import tempfile
from collections import deque
from typing import Iterable, Iterator, NamedTuple

from .folders import Folders
from .programs import program
from .record import Signed, Step, told
from .retrace import Differs, feed

FROM_NODES = {"submission", "synod", "response"}
"""The first words of lines that nodes alone send."""


class Counts(NamedTuple):
    """The counts of what was compared."""
    steps: int
    unsaid: int
    """How many of the steps were stored, and their replies lost."""
    lines: int
    """How many of the lines were sent by an earlier block."""
    others: int
    """How many of the lines are from nodes of other machines, whose folders are not here."""


def entry_of(step):
    """A step as an entry of its node's log: a line that came from another node is written in full."""
    if step.line is None:
        return f"restart {step.node}\n"
    if step.block is None:
        return f"unsaid {step.node} {step.line}\n"
    return "".join(f"{row}\n" for row in (f"{step.node} {step.line}", *step.block, "."))


def steps_of(folder) -> Iterator[Step]:
    return (it for it in told(folder) if not isinstance(it, Signed))


def hold(plan, folder, name):
    """Compares the log of one node. Returns how many entries it has, or raises Differs with the program's last line."""
    with subprocess.Popen([program("ksi_retrace"), "--node", name, plan], stdin=subprocess.PIPE, stdout=subprocess.PIPE, stderr=subprocess.DEVNULL) as run:
        feed(run, (entry_of(step) for step in steps_of(folder) if step.node == name))
        said = run.stdout.read().decode().strip()
    words = said.split(" ")
    if run.returncode or words[:-1] != ["agrees"]:
        raise Differs(f"ksi_retrace --node {name}: {said or run.returncode}")
    return int(words[1])


def digest_of(row):
    return hashlib.sha256(row.encode()).digest()[:16]


class Said:
    """The messages that were sent so far, by step and place, and the numbers of requests."""

    def __init__(self, path):
        self.base = sqlite3.connect(path, isolation_level=None)
        self.base.executescript("PRAGMA journal_mode = OFF; PRAGMA synchronous = OFF; BEGIN;"
                                "CREATE TABLE said (step INTEGER, place INTEGER, digest BLOB, PRIMARY KEY (step, place)) WITHOUT ROWID;"
                                "CREATE TABLE numbers (node TEXT, number TEXT, PRIMARY KEY (node, number)) WITHOUT ROWID;")

    def add(self, number, block):
        rows = [row for row in block or [] if row.startswith("send ")]
        self.base.executemany("INSERT INTO said VALUES (?, ?, ?)", [(number, place, digest_of(row)) for place, row in enumerate(rows)])

    def has(self, step):
        """Whether the block that the step names sent the step's line to its node."""
        found = self.base.execute("SELECT digest FROM said WHERE step = ? AND place = ?", step.message).fetchone()
        return found == (digest_of(f"send {step.node} {step.line}"),)

    def is_new(self, node, number):
        return self.base.execute("INSERT OR IGNORE INTO numbers VALUES (?, ?)", (node, number)).rowcount == 1

    def close(self):
        self.base.close()


def is_from_elsewhere(step: Step) -> bool:
    """Whether a step's line is from a node whose record is not here. A merged order has none."""
    return step.message is not None and len(step.message) == 3


class Joined:
    """Steps whose lines were all sent before, and whose requests have numbers of their own."""

    def __init__(self, said: Said) -> None:
        self.said = said
        self.steps = 0
        self.unsaid = 0
        self.lines = 0
        self.others = 0

    def add(self, step: Step) -> None:
        """Takes the next step. Raises Differs if its line was not sent before."""
        self.see(step)
        self.keep(self.steps, step)

    def see(self, step: Step) -> None:
        words = (step.line or "").split(" ")
        if is_from_elsewhere(step):
            self.others += 1
        elif step.message is not None:
            if not self.said.has(step):
                raise Differs(f"step {self.steps}: no block sent {step.node} this line before: {step.line}")
            self.lines += 1
        elif words[0] in FROM_NODES:
            raise Differs(f"step {self.steps}: the record does not say which block sent {step.node} this line: {step.line}")
        if words[0] == "request" and not self.said.is_new(step.node, words[1]):
            raise Differs(f"step {self.steps}: another request of {step.node} has the number {words[1]}")

    def keep(self, number: int, step: Step) -> None:
        """Keeps the messages of a step, by its number in the record."""
        self.said.add(number, step.block)
        self.steps += 1
        self.unsaid += step.line is not None and step.block is None

    def add_at(self, number: int, step: Step, older, is_compared: bool) -> None:
        """Takes the step of this number, of a part of a record. Its messages are kept. Its line is compared only if the part has all that came
        before; `older` looks for the line if it was sent before the part."""
        if is_compared and not (step.message is not None and not is_from_elsewhere(step) and older.add(step)):
            self.see(step)
        self.keep(number, step)

    def counts(self) -> Counts:
        return Counts(self.steps, self.unsaid, self.lines, self.others)


def joined_in(entries: Iterable[object], joined: Joined) -> Iterator[object]:
    """The entries, each step of which is joined before it is yielded."""
    for it in entries:
        if not isinstance(it, Signed):
            joined.add(it)
        yield it


@contextlib.contextmanager
def joining() -> Iterator[Joined]:
    with tempfile.TemporaryDirectory(prefix="ksi-said-") as room, contextlib.closing(Said(os.path.join(room, "said"))) as said:
        yield Joined(said)


def join(entries: Iterable[object]) -> Counts:
    """Checks that each line from a node was sent by an earlier block, and that no two requests of one node have one number."""
    with joining() as joined:
        deque(joined_in(entries, joined), maxlen=0)
    return joined.counts()


def hold_all(folders: Folders) -> Counts:
    """Compares the log of each node, one after the other, and joins them."""
    entries = sum(hold(folders.plan_path, os.path.join(path, "record"), name) for name, path in folders.of_node.items())
    counts = join(folders.entries())
    if entries != counts.steps:
        raise Differs(f"the nodes' logs have {entries} entries, and the record has {counts.steps} steps")
    return counts
