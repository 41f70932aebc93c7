"""The plans before the newest one, as far as a machine or a mirror has their calendar files and publications.

A machine has the folders of the plans that were succeeded there. It may also have a folder `earlier` in its data folder, which is that of a
mirror (mirror.py): by that a machine that joined later has the plans from before."""
import hashlib
import os
from typing import Dict, List, NamedTuple, Optional, Tuple

from . import extension, files, roots
from .calendar_files import Calendar, PlanName, plan_name
from .elements import Malformed, parts_of, publications_file, published_in
from .hours import Broken
from .newest import print_in
from .plan import Plan
from .plans import Before, chain_of, data_folder

FOLDER = "earlier"
"""The folder of a mirror in a data folder."""

Published = List[Tuple[int, str]]
"""Seconds with their roots in hex, in order."""


class Earlier(NamedTuple):
    """A plan that is over."""

    calendar: Calendar
    path: str
    """Its publications file."""
    published: Published
    way: Optional[Before] = None
    """How the next plan followed, if that was begun without a majority."""

    @property
    def record(self) -> Tuple[int, str]:
        """The publication in the book: the last one, or the last print if that is later."""
        printed = print_in(self.way.printed) if self.way else (-1, "")
        return max(printed, self.published[-1])

    @property
    def start(self) -> int:
        return self.calendar.plan.start

    @property
    def last(self) -> int:
        """The second of its last publication."""
        return self.record[0]

    def has(self, second: int) -> bool:
        """Whether a second was published."""
        return second == self.last or any(it == second for it, _ in self.published)

    def extended(self, signature: bytes, to: Optional[int] = None) -> bytes:
        """A signature of this plan, extended by its calendar files to the last publication or to that of a second. Raises NotExtended."""
        last = self.last if to is None else to
        if not self.has(last):
            raise extension.NotExtended("other-calendar", f"second {last} is no publication of the signature's plan, whose last one is of second {self.last}")
        if self.calendar.next <= last:
            raise extension.NotExtended("seconds-missing", f"the calendar files of that plan end before second {last} here: ask another machine's door, or a mirror")
        return by_files(self.calendar, signature, last, self.path)


def by_files(calendar: Calendar, signature: bytes, last: int, publications: str) -> bytes:
    """A signature that is extended to second `last` by the proved `ksi_roots`, and that `ksi verify` accepts against a publications file."""
    parts = extension.wanted(signature, last)

    def make() -> bytes:
        try:
            return roots.extended(calendar.folder, signature, last)
        except roots.NotComputed as reason:
            raise extension.NotExtended("not-accepted", str(reason)) from None
    return extension.accepted(make, parts, publications)


def of_folder(folder: str, plan: PlanName) -> Optional[Earlier]:
    """The plan in a folder, or None if nothing of it was published."""
    path = os.path.join(folder, "publications")
    content = files.content_of(path)
    try:
        published = [] if content is None else published_in(content)
    except Malformed as fault:
        raise Broken(f"{path} is damaged: {fault}") from None
    return Earlier(Calendar(os.path.join(folder, "calendar"), plan), path, sorted(published)) if published else None


def of_mirror(folder: str, plans: List[PlanName]) -> List[Earlier]:
    """Plans in a mirror's folder."""
    found = (of_folder(os.path.join(folder, it.digest), it) for it in plans)
    return [it for it in found if it is not None]


def plans_in(folder: str) -> List[PlanName]:
    """The plans that a mirror's folder follows, one after the other: a line `DIGEST START` for each."""
    content = files.content_of(os.path.join(folder, "plan"))
    rows = [it.split() for it in (content or b"").decode("ascii", "replace").splitlines()]
    if content is not None and not rows or any(len(it) != 2 or len(it[0]) != 64 or not it[1].isdigit() for it in rows):
        raise Broken(f"{os.path.join(folder, 'plan')} is damaged, or {folder} is no mirror's folder")
    return [PlanName(digest, int(start)) for digest, start in rows]


def earlier_plans(folder: str) -> List[Earlier]:
    """The plans before that of a folder, the first one first."""
    data = data_folder(folder)
    chain = chain_of(data)
    start = Plan.read(os.path.join(folder, "plan")).start
    mirror = os.path.join(data, FOLDER)
    found: Dict[str, Earlier] = {it.calendar.plan.digest: it for it in of_mirror(mirror, plans_in(mirror))}
    for path in (os.path.join(it, "plan") for it in chain):
        plan = Plan.read(path)
        it = of_folder(os.path.dirname(path), plan_name(path, plan.start)) if plan.start < start else None
        if it is not None:
            found[it.calendar.plan.digest] = it
    ways = ways_of([*chain, folder])
    return sorted((it._replace(way=ways.get(it.calendar.plan.digest)) for it in found.values() if it.start < start), key=lambda it: it.start)


def ways_of(folders: List[str]) -> Dict[str, Before]:
    """How plans were followed that lost a majority of their cores, by their digests."""
    found = [it for it in map(Before.read, folders) if it is not None and it.lost]
    return {hashlib.sha256(it.content.plan.text().encode()).hexdigest(): it for it in found}


def plan_of(plans: List[Earlier], start: int, signature: bytes) -> Optional[Earlier]:
    """The plan before second `start` that a signature is of, or None if it is of a later one, or malformed."""
    try:
        second = parts_of(signature).second
    except Malformed:
        return None
    return next((it for it in reversed(plans) if it.start <= second < start), None)


def all_published(plans: List[Earlier], published: Published) -> Published:
    """The publications of plans that are over, and those of the newest one."""
    return [*(row for it in plans for row in it.published), *published]


class AllPublications:
    """The publications file of all plans. It is made again if there is another publication."""

    def __init__(self) -> None:
        self.made = -1, -1
        self.content: Optional[bytes] = None

    def file(self, plans: List[Earlier], published: Published) -> Optional[bytes]:
        """The file of plans that are over and of the newest one's publications, or None if there are none."""
        if self.made != (len(plans), len(published)):
            every = all_published(plans, published)
            self.content = publications_file(every) if every else None
            self.made = len(plans), len(published)
        return self.content
