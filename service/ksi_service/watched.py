"""Whether a node's file is the one of the record: compared at each start of the node, and followed while it runs (marks.py)."""
import logging
from typing import Optional

from .marks import Mark, Prefix
from .record import NodeState
from .storing import LostFacts

log = logging.getLogger(__name__)


def see(name: str, path: str, state: NodeState, found: int) -> Optional[Prefix]:
    """Reads a file with this many facts up to their end. Returns None if it does not have the form of a node's file. Raises LostFacts
    unless it begins with the bytes of the mark that the record has, and has after them at most the fact of one further line, which
    the caller has counted."""
    prefix = Prefix(path)
    try:
        known = state.mark_at(found)
        is_read = has_facts(prefix, found) if known is None else goes_on(prefix, known, 0 if state.may_have(found) else 1)
    except BaseException:
        prefix.close()
        raise
    if is_read:
        return prefix
    prefix.close()
    if known is None:
        return None
    raise LostFacts(f"{name} has a file with {found} facts that is not the one of the record, which has other bytes up to place {known.place}")


def has_facts(prefix: Prefix, found: int) -> bool:
    """Reads the facts of a file of which the record has no mark, as before the first start. Returns whether there are that many."""
    return prefix.read_header() and prefix.read_records(found)


def goes_on(prefix: Prefix, known: Mark, more: int) -> bool:
    """Reads a file up to a mark of the record and this many facts more. Returns whether it has the bytes of the mark, and ends there."""
    return prefix.read_to(known.place) and prefix.mark() == known and prefix.read_records(more) and prefix.content_size() is None


def see_at_rest(name: str, path: str, state: NodeState, found: int) -> None:
    """Raises LostFacts as `see` does."""
    prefix = see(name, path, state, found)
    if prefix is not None:
        prefix.close()


class Watched:
    """The file of a node whose process is started again and again."""

    def __init__(self, name: str, path: str) -> None:
        self.name = name
        self.path = path
        self.prefix: Optional[Prefix] = None

    def begin(self, state: NodeState, found: int) -> Optional[Mark]:
        """Compares the file of a node that was just started with the record. Returns the end of its facts, or None if the file does not have
        the form of a node's file. Raises LostFacts if it is not the one of the record. It reads the whole file."""
        self.end()
        self.prefix = see(self.name, self.path, state, found)
        return self.prefix and self.prefix.mark()

    def stored(self) -> Optional[Mark]:
        """The end of the file's facts after the node has stored one more."""
        if self.prefix is None:
            return None
        if self.prefix.read_record():
            return self.prefix.mark()
        log.warning("%s has no fact after place %d: until %s starts again its file is compared by its count of facts alone", self.path, self.prefix.place, self.name)
        self.end()
        return None

    def end(self) -> None:
        if self.prefix is not None:
            self.prefix.close()
        self.prefix = None
