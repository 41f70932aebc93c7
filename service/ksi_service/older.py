"""Lines that were sent in an earlier hour than those that are read: each is looked for in the file of the record with the step that sent it."""
import os
from typing import Dict, List, Tuple

from . import hours
from .record import State, Step
from .retrace import Differs


class Older:
    """Lines whose messages were sent before the first file that is read."""

    def __init__(self, record: str, first: str) -> None:
        self.record = record
        self.before = hours.state_before(first).get("steps", 0)
        """The number of the first step that is read."""
        self.wanted: Dict[int, List[Tuple[int, str]]] = {}
        """By the step that sent them: the place of each among its messages, and its row."""
        self.found = 0
        """How many were sent as they came."""
        self.unknown = 0
        """How many were sent in hours whose files are not there."""

    def add(self, step: Step) -> bool:
        """Whether the line of a step was sent before all that is read. Then it is looked for later."""
        sender, place = step.message
        if sender >= self.before:
            return False
        self.wanted.setdefault(sender, []).append((place, f"send {step.node} {step.line}"))
        return True

    def see(self) -> None:
        """Raises Differs if a line was not sent as it came."""
        found = [it for it in hours.names(self.record) if hours.state_before(it).get("steps", 0) <= max(self.wanted, default=-1)]
        for number, path in enumerate(found):
            begin = hours.state_before(path).get("steps", 0)
            end = hours.state_before(found[number + 1]).get("steps", 0) if number + 1 < len(found) else self.before
            here = {it for it in self.wanted if begin <= it < end}
            if here:
                self.see_in(path, here)
        self.unknown = sum(map(len, self.wanted.values()))

    def see_in(self, path: str, steps) -> None:
        """Compares the lines that steps of one file sent."""
        state = State()
        for entry, _ in hours.entries_of(path, False):
            count = state.steps
            for it in state.take(entry):
                if isinstance(it, Step):
                    if count in steps:
                        self.compare(count, it)
                    count += 1

    def compare(self, number: int, sender: Step) -> None:
        rows = [row for row in sender.block or [] if row.startswith("send ")]
        for place, row in self.wanted.pop(number):
            if rows[place:place + 1] != [row]:
                raise Differs(f"step {number} of {os.path.basename(self.record)} did not send this line, which came in a later hour: {row[5:]}")
            self.found += 1
