"""The records of several machines, merged by causes: a line from another machine follows the step there that sent it.

Nothing relies on this order. `ksi_retrace` refuses a message before its step, and so does `apart.join`. Memory does not grow with the
records: the number that each step gets is kept in a file."""
import array
import os
import tempfile
from typing import BinaryIO, Dict, Iterator, Optional, Tuple

from .plan import Plan
from .record import Signed, Step, told
from .retrace import Differs

WIDTH = 8
"""The bytes of a number in the file."""
AT_ONCE = 8192
"""How many numbers are written at once."""


class Numbers:
    """The number of each step of one record in the merged order."""

    def __init__(self, file: BinaryIO) -> None:
        self.file = file
        self.written = 0
        self.last = array.array("Q")
        """The numbers that are not in the file yet."""

    def __len__(self) -> int:
        return self.written + len(self.last)

    def add(self, number: int) -> None:
        self.last.append(number)
        if len(self.last) == AT_ONCE:
            self.last.tofile(self.file)
            self.file.flush()
            self.written += AT_ONCE
            self.last = array.array("Q")

    def of(self, step: int) -> int:
        if step >= self.written:
            return self.last[step - self.written]
        return array.array("Q", os.pread(self.file.fileno(), WIDTH, step * WIDTH))[0]


class Reader:
    """The record of a folder, read up to its next entry."""

    def __init__(self, folder: str, file: BinaryIO) -> None:
        self.folder = folder
        self.entries = told(os.path.join(folder, "record"))
        self.numbers = Numbers(file)
        self.next: Optional[object] = next(self.entries, None)

    def take(self) -> object:
        it = self.next
        self.next = next(self.entries, None)
        return it


def sender_of(plan: Plan, step: Step) -> str:
    """The node that a step's line is from, by the line. Raises Differs if nodes send no such line."""
    words = (step.line or "").split(" ")
    try:
        if words[0] == "response":
            return plan.parents[int(step.node[1:])]
        return {"synod": "c", "submission": "a"}[words[0]] + str(int(words[1]))
    except (IndexError, KeyError, ValueError):
        raise Differs(f"no node sends {step.node} this line: {step.line}") from None


class Merge:
    """Several records on their way into one order."""

    def __init__(self, folders, readers: Dict[str, Reader]) -> None:
        self.folders = folders
        self.readers = readers
        self.count = 0

    def cause(self, reader: Reader) -> Optional[Tuple[Reader, int]]:
        """The record and the step that a record's next entry follows, or None."""
        it = reader.next
        if isinstance(it, Signed):
            return reader, it.step
        if it.message is None:
            return None
        if len(it.message) == 2:
            return reader, it.message[0]
        sender = sender_of(self.folders.plan, it)
        if sender not in self.folders.of_node:
            raise Differs(f"{reader.folder} has a line of {sender}, which is not of this plan: {it.line}")
        return self.readers[self.folders.of_node[sender]], it.message[1]

    def is_next(self, reader: Reader) -> bool:
        """Whether the step that the record's next entry follows has its number."""
        cause = self.cause(reader)
        return cause is None or 0 <= cause[1] < len(cause[0].numbers)

    def take(self, reader: Reader) -> object:
        """A record's next entry, by the numbers of the merged order."""
        cause = self.cause(reader)
        number = None if cause is None else cause[0].numbers.of(cause[1])
        it = reader.take()
        if isinstance(it, Signed):
            return Signed(number, it.text)
        if number is not None:
            it.message = [number, it.message[-1]]
        reader.numbers.add(self.count)
        self.count += 1
        return it

    def entries(self) -> Iterator[object]:
        while any(it.next is not None for it in self.readers.values()):
            is_stuck = True
            for reader in self.readers.values():
                while reader.next is not None and self.is_next(reader):
                    is_stuck = False
                    yield self.take(reader)
            if is_stuck:
                raise Differs(self.reason())

    def reason(self) -> str:
        """Why no record goes on."""
        reader = next(it for it in self.readers.values() if it.next is not None)
        sender, step = self.cause(reader)
        text = f"{reader.folder} has after its step {len(reader.numbers) - 1} an entry that follows step {step} of {sender.folder}"
        if sender.next is None:
            return f"{text}, which has {len(sender.numbers)} steps"
        return f"{text}: there is no order in which each line follows the step that sent it"


def merged(folders) -> Iterator[object]:
    """The steps and signatures of all folders' records. Raises Differs if no order has each line after the step that sent it."""
    with tempfile.TemporaryDirectory(prefix="ksi-merge-") as room:
        opened = {path: open(os.path.join(room, str(at)), "wb+") for at, path in enumerate(folders.paths)}
        try:
            yield from Merge(folders, {path: Reader(path, file) for path, file in opened.items()}).entries()
        finally:
            for file in opened.values():
                file.close()
