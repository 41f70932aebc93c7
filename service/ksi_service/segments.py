"""The parts of a record between times at which a node forgot: the marks of its files then, and the steps between.

A node's process ends when it forgets, so its file is then all that it has. Before it forgot for the first time, it began with nothing."""
import contextlib
from typing import Dict, Iterator, List, NamedTuple, Optional, Tuple

from . import hours
from .cuts import Place
from .marks import Mark, mark_in
from .record import State, Step


class Cut(NamedTuple):
    """A time at which a node forgot."""
    name: str
    place: Place
    """The place of its entry `forgot`."""
    found: int
    left: int
    """How many facts the files before and after had."""
    mark_found: Optional[Mark]
    mark_left: Optional[Mark]
    """The ends of the facts of both files."""


class Segment(NamedTuple):
    """The part of the record of a node from a time at which it forgot to the last one in an hour."""
    name: str
    begin: Optional[Cut]
    """None if the node forgot nothing before: it began with an empty file."""
    cuts: List[Cut]
    """The times at which it forgot in the hour."""

    def has(self, place: Place) -> bool:
        return (self.begin is None or self.begin.place < place) and place < self.cuts[-1].place

    def hours(self) -> Tuple[int, int]:
        """The first and last file of the record that it is in."""
        return (1 if self.begin is None else self.begin.place[0]), self.cuts[-1].place[0]


def cuts_in(paths: List[str]) -> Iterator[Cut]:
    """The times at which nodes forgot by these files of a record, but for those after which the node was started with its old file, after a crash."""
    waiting: Dict[str, Cut] = {}
    for path in paths:
        at = 0
        with contextlib.closing(hours.lines_of(path)) as lines:
            for line in lines:
                if line.startswith((b'["forgot"', b'["ready"')):
                    entry = hours.entry_in(line) or [""]
                    if entry[0] == "forgot":
                        waiting[entry[1]] = cut_of((hours.number_of(path), at), *entry[1:])
                    elif entry[0] == "ready" and entry[1] in waiting:
                        cut = waiting.pop(entry[1])
                        if cut.left == entry[2]:
                            yield cut
                at += len(line)


def cut_of(place: Place, name: str, found: int, left: int, mark_found=None, mark_left=None) -> Cut:
    return Cut(name, place, found, left, mark_in(mark_found), mark_in(mark_left))


def cuts_of(found: List[str], number: int) -> Dict[str, List[Cut]]:
    """The times at which each node forgot in one file of a record. That it was started then may be in the next file."""
    of_nodes: Dict[str, List[Cut]] = {}
    for cut in cuts_in([it for it in found if hours.number_of(it) in (number, number + 1)]):
        if cut.place[0] == number:
            of_nodes.setdefault(cut.name, []).append(cut)
    return of_nodes


def segments_of(found: List[str], number: int, names: List[str]) -> Dict[str, Segment]:
    """Of each of these nodes that forgot in a closed file of a record the part that ends there. `found` has the files of the record in order."""
    here = {name: cuts for name, cuts in cuts_of(found, number).items() if name in names}
    begins: Dict[str, Cut] = {}
    for path in reversed([it for it in found if hours.number_of(it) < number]):
        if set(begins) >= set(here):
            break
        begins = {**{name: cuts[-1] for name, cuts in cuts_of(found, hours.number_of(path)).items()}, **begins}
    return {name: Segment(name, begins.get(name), cuts) for name, cuts in here.items()}


def steps_in(paths: List[str]) -> Iterator[Tuple[Place, int, object]]:
    """The steps and signatures of files of a record that follow one another: each with the place of the entry that completed it, and with the
    number of steps before it."""
    state = State()
    for path in paths:
        number, at = hours.number_of(path), 0
        for entry, size in hours.entries_of(path, False):
            if entry[0] != "begins" or path == paths[0]:
                count = state.steps
                for it in state.take(entry):
                    yield (number, at), count, it
                    count += isinstance(it, Step)
            at += size
