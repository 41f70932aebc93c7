"""The items of seconds, from the record of a run: audits need them of seconds of which cores keep the root alone.

A core's items are the submissions that it took before it sealed the second. A list of items is a second's if its tree has the second's
root: this is computed here by hashing (docs/FORMATS.md, "Imprints" and "Names"), so a wrong list is not returned. A machine's record has
the items of its own cores."""
import hashlib
import os
from typing import Dict, Iterable, Iterator, List, NamedTuple, Optional, Tuple

from . import hours
from .elements import mirror_file
from .errors import ServiceError
from .folders import Folders
from .known import ZERO
from .record import State, Step, told

MOST_ITEMS = 65_536
"""The most items of a second."""


class NoItems(ServiceError):
    """Why no items of a second are returned."""


class Item(NamedTuple):
    imprint: str
    """The 64 hex digits of its hash."""
    level: int
    name: Optional[str]

    def row(self, second: int) -> str:
        """The item as in a core's answer to `held`."""
        return " ".join([f"item {second} {self.imprint} {self.level}", *([self.name] if self.name else [])])


class Sealed(NamedTuple):
    """The items that a core sealed for a second."""
    core: str
    second: int
    items: List[Item]


class Node(NamedTuple):
    """A node of a second's tree."""
    imprint: bytes
    level: int


def metadata_of(name: str) -> bytes:
    padding = b"\x7e\x01\x01" if len(name) % 2 == 0 else b"\x7e\x02\x01\x01"
    return padding + bytes([1, len(name) + 1]) + name.encode() + b"\0"


def hashed(left: bytes, right: bytes, level: int) -> Node:
    return Node(b"\x01" + hashlib.sha256(left + right + bytes([level])).digest(), level)


def leaf_of(item: Item) -> Node:
    imprint = b"\x01" + bytes.fromhex(item.imprint)
    return hashed(imprint, metadata_of(item.name), item.level + 1) if item.name else Node(imprint, item.level)


def tree_of(leaves: List[Node]) -> Node:
    """The root of a tree, which is cut at the greatest power of two below the number of its leaves."""
    if len(leaves) == 1:
        return leaves[0]
    cut = 1 << (len(leaves) - 1).bit_length() - 1
    left, right = tree_of(leaves[:cut]), tree_of(leaves[cut:])
    return hashed(left.imprint, right.imprint, max(left.level, right.level) + 1)


def root_of(items: List[Item]) -> str:
    """The root of a list of items in hex. A second without items has the zero imprint."""
    return tree_of([leaf_of(it) for it in items]).imprint[1:].hex() if items else ZERO


class Cores:
    """The items that cores have taken and not sealed yet."""

    def __init__(self) -> None:
        self.open: Dict[Tuple[str, int], Dict[str, Item]] = {}
        """By core and second, the items by their aggregators, in order."""

    def take(self, step: Step) -> Optional[Sealed]:
        """Takes a step. Returns the items of a second if a core sealed it with some."""
        words = (step.line or "").split(" ")
        if step.line is None:
            self.restart(step.node)
        elif words[0] == "submission" and step.node[0] == "c":
            self.submit(step, *words[1:])
        elif words[0] == "seal" and (step.block is None or step.block[0] == "answer done"):
            items = self.open.pop((step.node, int(words[1])), None)
            return Sealed(step.node, int(words[1]), list(items.values())) if items else None
        return None

    def restart(self, core: str) -> None:
        """A core forgets open items when it starts again."""
        for key in [it for it in self.open if it[0] == core]:
            del self.open[key]

    def submit(self, step: Step, aggregator: str, second: str, imprint: str, level: str, name: Optional[str] = None) -> None:
        """If the reply was lost, the item was taken if there was room for it and it was the aggregator's first one."""
        items = self.open.setdefault((step.node, int(second)), {})
        if step.block is None and aggregator not in items and len(items) < MOST_ITEMS or step.block is not None and step.block[0] == "answer done":
            items[aggregator] = Item(imprint, int(level), name)


def sealed_in(run: Iterable[object]) -> Iterator[Sealed]:
    """What cores sealed in a run, in order."""
    cores = Cores()
    for it in run:
        sealed = cores.take(it) if isinstance(it, Step) else None
        if sealed:
            yield sealed


def roots_in(step: Step) -> Iterator[Tuple[int, str]]:
    """The seconds and roots that a step reports as decided: by the line that a core took, or by a message that it sent."""
    for row in [step.line or "", *(it.split(" ", 2)[2] for it in step.block or [] if it.startswith("send "))]:
        words = row.split(" ")
        if words[0] == "synod" and words[3] == "success":
            yield int(words[2]), words[4]


def files_about(folder: str, second: int) -> List[str]:
    """The files of a record from the hour before the one in which a second was first sealed. Those of earlier hours need not be there."""
    found = hours.names(folder)
    low, high = 0, len(found)
    while low < high:
        middle = (low + high) // 2
        if hours.second_before(found[middle]) < second:
            low = middle + 1
        else:
            high = middle
    if found and low == 0:
        raise NoItems(f"the files of the record that have second {second} are not in {folder}: bring them back if they were moved")
    return found[max(0, low - 2):]


def run_of(paths: List[str]) -> Iterator[Tuple[str, object]]:
    """The steps and signatures of files of a record that follow one another, each with its file."""
    state = State()
    for place, path in enumerate(paths):
        if hours.number_of(path) != hours.number_of(paths[0]) + place:
            raise hours.not_there(os.path.dirname(path), hours.number_of(paths[0]) + place)
        for entry, _ in hours.entries_of(path, path == paths[-1]):
            if entry[0] != "begins" or path == paths[0]:
                for it in state.take(entry):
                    yield path, it


def items_of(data: str, second: int) -> Tuple[str, List[Item]]:
    """The root of a second and its items, by the record of a folder, which may be in use. Raises NoItems if it has none with that root."""
    cores, root, lists, ends_after = Cores(), None, [], None
    for path, it in run_of(files_about(os.path.join(data, "record"), second)):
        if not isinstance(it, Step):
            continue
        if ends_after is not None and path > ends_after:
            break
        sealed = cores.take(it)
        if sealed and sealed.second == second:
            lists.append(sealed.items)
        if root is None and (found := dict(roots_in(it)).get(second)):
            root, ends_after = found, path
        right = next((items for items in lists if root_of(items) == root), [] if root == ZERO else None)
        if root is not None and right is not None:
            return root, right
    if root is None:
        raise NoItems(f"{data} has no root of second {second}: it is not one of this plan, not decided yet, or not in the files of the record that are here")
    raise NoItems(f"no core of {data} sealed the items of second {second} with the root {root}: another machine's record has them")


def add_lists(backup, folders: List[str]) -> None:
    """Adds to a backup the items that cores sealed by the records of folders, for seconds of which they keep the root alone."""
    plan = Folders(folders).plan
    rows: Dict[Tuple[int, str], List[List[str]]] = {}
    for path in folders:
        for core, second, items in sealed_in(told(os.path.join(path, "record"))):
            if second <= backup.last:
                rows.setdefault((backup.part_of(plan, second), core), []).extend(it.row(second).split(" ") for it in items)
    for (part, core), of_core in sorted(rows.items()):
        backup.add(part, mirror_file(plan.start, int(core[1:]), sorted(of_core, key=lambda row: int(row[1]))), f"the record of {core}")
