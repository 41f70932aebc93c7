"""Consistency proofs between publications at an HTTP server, of a service or of a mirror.

    GET /v1/consistency?from=P1&to=P2   the front of the calendar to P1 in that to P2 (docs/FORMATS.md, "Fronts")

The proved `ksi_roots` makes a proof from the calendar files, and reads all of them. So only published seconds are answered, one proof is
made at a time, and the last ones are kept. A proof never changes: it may be cached for ever."""
import asyncio
import collections
import functools
import hashlib
import re
from typing import Any, Dict, FrozenSet, Optional, Protocol, Tuple

from . import roots
from .answers import BYTES, Answer, Refusal
from .calendar_door import FULL, cached
from .calendar_files import Calendar
from .elements import published_in

SECOND = re.compile(r"0|[1-9][0-9]{0,18}")
MOST_WAITING = 64
"""How many requests wait for a proof that is not kept."""
MOST_KEPT = 256
"""How many proofs are kept: 2 KB each."""


class Published(Protocol):
    """What a proof is made from."""

    def calendars(self) -> Dict[str, Calendar]:
        """The calendars by their plans' digests."""

    def publications(self) -> Optional[bytes]:
        """The publications file, if there is a publication."""


@functools.lru_cache(maxsize=2)
def seconds_in(content: bytes) -> FrozenSet[int]:
    """The seconds of a publications file, which many clients ask for."""
    return frozenset(second for second, _ in published_in(content))


def made(calendar: Calendar, older: int, newer: int) -> bytes:
    """The proof over the calendar's files."""
    calendar.flush()
    return roots.front(calendar.folder, older, newer)


def seconds_of(query: Dict[str, str]) -> Tuple[int, int]:
    """The seconds `from` and `to` of a query."""
    found = [SECOND.fullmatch(query.get(name, "")) for name in ("from", "to")]
    if None in found:
        raise Refusal("malformed-query", "two published seconds are wanted: ?from=P1&to=P2")
    older, newer = (int(it[0]) for it in found)
    return older, newer


class Consistency:
    """The proofs of one server."""

    def __init__(self, house: Published) -> None:
        self.house = house
        self.one = asyncio.Semaphore(1)
        self.waiting = 0
        self.kept: collections.OrderedDict[Tuple[str, int, int], bytes] = collections.OrderedDict()

    async def answer(self, request: Any) -> Answer:
        content = await self.proof(*seconds_of(request.query))
        return cached(request, content, hashlib.sha256(content).hexdigest(), BYTES, FULL)

    def calendar_of(self, older: int, newer: int) -> Calendar:
        """The calendar that has both seconds, which are published. Raises a Refusal if there is none."""
        if newer < older:
            raise Refusal("not-in-order", f"second {newer} is before {older}")
        content = self.house.publications()
        for second in (older, newer):
            if content is None or second not in seconds_in(content):
                raise Refusal("not-published", f"second {second} was not published here")
        for calendar in self.house.calendars().values():
            if calendar.plan.start <= older and newer < calendar.next:
                return calendar
        raise Refusal("no-such-calendar", "no calendar here has both seconds")

    async def proof(self, older: int, newer: int) -> bytes:
        """The proof between two publications. Raises a Refusal if there is none."""
        calendar = self.calendar_of(older, newer)
        key = calendar.plan.digest, older, newer
        if key not in self.kept:
            if self.waiting >= MOST_WAITING:
                raise Refusal("too-many-proofs", "too many proofs are wanted", Retry_After="2")
            self.waiting += 1
            try:
                async with self.one:
                    if key not in self.kept:
                        self.keep(key, await asyncio.get_running_loop().run_in_executor(None, made, calendar, older, newer))
            except roots.NotComputed as reason:
                raise Refusal("no-proof", f"the calendar files give no proof: {reason}") from None
            except roots.NotRun as reason:
                raise Refusal("program-failed", str(reason), Retry_After="10") from None
            finally:
                self.waiting -= 1
        self.kept.move_to_end(key)
        return self.kept[key]

    def keep(self, key: Tuple[str, int, int], content: bytes) -> None:
        self.kept[key] = content
        if len(self.kept) > MOST_KEPT:
            self.kept.popitem(last=False)
