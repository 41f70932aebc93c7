"""Signing, extending and verifying the files of trees. Each is one walk over the files, whose outcomes go to a tally."""
import contextlib
import fcntl
import itertools
import os
from typing import Any, Callable, Dict, Iterator, List, NamedTuple, Optional, Sequence

from . import elements, libksi, looks, outcomes, storing_trees
from .batches import Batches, Doors
from .errors import ServiceError
from .looks import NONE, OURS, Look
from .outcomes import Tally, of_bad_signature, of_entry, of_look, of_verified
from .progress import Progress
from .storing_trees import Written
from .trees import Entry, Tree, entries_of
from .verdicts import dated
from .verifying import ACCEPTED, NOT_PUBLISHED, verifier
from .workers import Workers, count_of

PORTION = 32
"""How many files a process gets at once."""
CONNECTIONS = 4
EXTENDING_CONNECTIONS, EXTENDED_AT_ONCE = 2, 100


class TreeHeld(ServiceError):
    """Another run works on the same tree."""


class Work(NamedTuple):
    """What the commands over trees share."""

    trees: Sequence[Tree]
    tally: Tally
    progress: Progress
    jobs: int = 0
    at_once: int = 4000
    """How many hashes may be at the door at once."""
    lost_count: bool = False
    """Whether a signature without a file is a fault: it is one for a verification."""


@contextlib.contextmanager
def held(trees: Sequence[Tree]) -> Iterator[None]:
    """Locks the folders whose signatures are written, so that two runs do not write the same file. Nothing is left in them."""
    with contextlib.ExitStack() as stack:
        for folder in {it.signatures or (it.top if it.is_folder else os.path.dirname(it.top) or b".") for it in trees}:
            if not os.path.isdir(folder):
                continue
            number = os.open(folder, os.O_RDONLY | os.O_DIRECTORY)
            stack.callback(os.close, number)
            try:
                fcntl.flock(number, fcntl.LOCK_EX | fcntl.LOCK_NB)
            except BlockingIOError:
                raise TreeHeld(f"another ksi-service works on {os.fsdecode(folder)}") from None
            except OSError:
                # a file system without locks
                pass
        yield


def portions(work: Work, wanted: Callable[[Entry], bool]) -> Iterator[List[looks.Job]]:
    """The files to look at. The other entries go to the tally."""
    def jobs() -> Iterator[looks.Job]:
        for entry in entries_of(work.trees):
            if wanted(entry):
                yield entry.path, entry.signature
            elif entry.is_lost and not work.lost_count:
                continue
            elif (outcome := of_entry(entry)) is not None:
                work.tally.add(outcome)
    found = jobs()
    while portion := list(itertools.islice(found, PORTION)):
        yield portion


def is_file(entry: Entry) -> bool:
    return not (entry.passed or entry.fault or entry.is_lost)


def looked_at(work: Work, function: str, settings: Any = None, wanted: Callable[[Entry], bool] = is_file) -> Iterator[Look]:
    """The looks at all files, in order."""
    with Workers(count_of(work.jobs), f"looks.{function}", settings) as workers:
        for found in workers.results(portions(work, wanted), work.progress.read):
            yield from found
            work.progress.done(work.tally.done)


def verify(work: Work, publications: bytes, following: Optional[int] = None) -> None:
    """Verifies each file against the bytes of a publications file. `following` is the time of the next publication."""
    last = max((second for second, _ in elements.published_in(publications)), default=None)
    for look in looked_at(work, "to_verify", publications):
        work.tally.hashed(look)
        work.tally.add(of_verified(look, last, following))
    work.tally.end()


def sign(work: Work, doors: Callable[[int], Doors]) -> None:
    """Has each file without a signature signed."""
    with held(work.trees):
        batches = Batches(doors, CONNECTIONS, max(1, min(libksi.client().MOST_HASHES, work.at_once // CONNECTIONS)), send_hashes, Signed(work.tally).done)
        for look in looked_at(work, "to_sign"):
            work.tally.hashed(look)
            bad = of_bad_signature(look)
            if bad is not None:
                work.tally.add(bad)
            elif look.state == OURS:
                work.tally.add(of_look(look, outcomes.ALREADY_SIGNED))
            else:
                batches.put(look.digest, look)
        batches.end()
        work.tally.end()


def send_hashes(client: Any, entries: List[bytes]) -> List[Any]:
    """Each hash once, also if several files have the same bytes."""
    unique = list(dict.fromkeys(entries))
    found: Dict[bytes, Any] = dict(zip(unique, client.sign_many(unique)))
    return [found[it] for it in entries]


class Signed:
    """Saves signatures that a door returned, after a check that each is of its hash."""

    def __init__(self, tally: Tally) -> None:
        self.tally = tally
        self.by = looks.reader()

    def done(self, pairs: List[Any]) -> None:
        refused = libksi.client().Refused
        good = [(item.of, it) for item, it in pairs if not isinstance(it, refused) and self.is_of(it.content, item.entry)]
        faults = storing_trees.save([Written(look.signature, it.content) for look, it in good])
        for look, it in good:
            fault = faults.get(look.signature)
            verdict = look.verdict._replace(second=it.second)
            if fault is not None:
                self.tally.add(of_look(look, outcomes.NOT_SIGNED, f"the signature was not saved: {fault.strerror}"))
            else:
                self.tally.add(of_look(look._replace(verdict=verdict), outcomes.SIGNED))
        saved = {id(look) for look, _ in good}
        for item, it in pairs:
            if id(item.of) not in saved:
                self.tally.add(of_look(item.of, outcomes.NOT_SIGNED, str(it) if isinstance(it, refused) else "the door returned no signature of this hash"))

    def is_of(self, content: bytes, digest: bytes) -> bool:
        return self.by.verify(content, digest).code in (ACCEPTED, NOT_PUBLISHED)


def extend(work: Work, doors: Callable[[int], Doors], publications: bytes, to: Optional[int] = None) -> None:
    """Has each signature extended that is not extended to one of these publications, or to that of second `to`."""
    seconds = {to} if to is not None else {second for second, _ in elements.published_in(publications)}
    with held(work.trees):
        batches = Batches(doors, EXTENDING_CONNECTIONS, EXTENDED_AT_ONCE, lambda client, entries: client.extend_many(entries, to), Extended(work.tally, publications).done)
        for look in looked_at(work, "to_extend", wanted=lambda it: is_file(it) or it.is_lost):
            bad = of_bad_signature(look)
            if bad is not None:
                work.tally.add(bad._replace(verdict=outcomes.NOT_EXTENDED))
            elif look.state == NONE:
                work.tally.add(of_look(look, outcomes.PASSED, "without a signature"))
            elif look.verdict.is_extended and look.verdict.calendar_to in seconds:
                work.tally.add(of_look(look, outcomes.ALREADY_EXTENDED, f"to the publication of {dated(look.verdict.calendar_to)}"))
            else:
                content, reason = looks.signature_at(look.signature)
                if content is None:
                    work.tally.add(of_look(look, outcomes.NOT_EXTENDED, reason or "it is gone"))
                else:
                    batches.put(content, look)
        batches.end()
        work.tally.end()


class Extended:
    """Saves extended signatures, after each is verified: the door replaces nothing by less."""

    def __init__(self, tally: Tally, publications: bytes) -> None:
        self.tally = tally
        self.by = verifier(publications)

    def done(self, pairs: List[Any]) -> None:
        refused = libksi.client().Refused
        faults: Dict[bytes, str] = {}
        good: List[Written] = []
        for item, it in pairs:
            reason = str(it) if isinstance(it, refused) else self.reason_against(item.entry, it.content)
            if reason:
                faults[item.of.signature] = reason
            else:
                good.append(Written(item.of.signature, it.content))
        faults.update({path: f"it was not saved: {fault.strerror}" for path, fault in storing_trees.save(good).items()})
        for item, it in pairs:
            reason = faults.get(item.of.signature, "")
            remark = reason or f"to the publication of {dated(it.publication)}"
            self.tally.add(of_look(item.of, outcomes.NOT_EXTENDED if reason else outcomes.EXTENDED, remark))

    def reason_against(self, before: bytes, after: bytes) -> str:
        """Why an extension is not taken, or nothing."""
        try:
            old, new = elements.parts_of(before), elements.parts_of(after)
        except elements.Malformed as fault:
            return f"the door returned no signature: {fault}"
        if (old.kept, old.imprint, old.second) != (new.kept, new.imprint, new.second):
            return "the door returned another signature"
        verdict = self.by.verify(after, bytes.fromhex(old.imprint))
        return "" if verdict.is_accepted else f"the door returned a signature that is not accepted: {verdict.line}"
