"""The service as its HTTP server sees it (houses.py): signing within a time, extending a few at once, and the reasons of refusals."""
import asyncio
import collections
import contextlib
import logging
import time
from typing import Any, Awaitable, Callable, Dict, Iterator, List, Optional, Tuple, Union

from . import extension
from .admission import Busy
from .answers import Refusal
from .calendar_files import Calendar
from .desk import Batch, Minority, NotSigned, Over
from .earlier import plan_of
from .elements import parts_of
from .houses import Extended, Extensions, House, Signed, Signings
from .metrics import Spans
from .programs import page

log = logging.getLogger(__name__)

MOST_REMEMBERED = 100_000
"""How many signatures the door remembers; a client keeps its own."""
ANSWER_SECONDS = 60
"""How long a request waits for its signature before it is refused."""
MOST_BETWEEN, BETWEEN_SECONDS = 1000, 15
"""How many requests may wait for the next plan, and how long, while one plan ends and the next one begins."""
BETWEEN_LOOK_SECONDS = 0.05
OVER = "the plan is over, and no other one has a majority here"
MOST_EXTENDING, MOST_TO_EXTEND = 4, 256
"""How many signatures are extended at once, and how many may wait for it."""


class TooLate(Exception):
    """Work did not end in time."""


async def in_time(work: Awaitable[Any], seconds: float) -> Any:
    """Work of this task that is ended after this many seconds. (`asyncio.wait_for` would make a task of it, for each request.)"""
    late: List[Any] = []
    task = asyncio.current_task()
    handle = asyncio.get_running_loop().call_later(seconds, lambda: late.append(task.cancel()))
    try:
        return await work
    except asyncio.CancelledError:
        if late:
            raise TooLate() from None
        raise
    finally:
        handle.cancel()


class Stopping(Exception):
    """The service takes no more requests."""


class Between(Exception):
    """The plan is over, and the next one is not begun here."""


@contextlib.contextmanager
def refusals() -> Iterator[None]:
    """Answers a request that is not signed, with the time after which asking again is worthwhile."""
    try:
        yield
    except Minority as reason:
        raise Refusal("no-majority", f"{reason}: ask another machine's door", Retry_After="1") from None
    except Busy as reason:
        raise Refusal("busy", str(reason), Retry_After=str(reason.after)) from None
    except Stopping as reason:
        raise Refusal("stopping", str(reason), Retry_After="10") from None
    except Between as reason:
        raise Refusal("plan-over", str(reason), Retry_After="2") from None
    except (NotSigned, TooLate):
        raise Refusal("not-signed", "no second took the request", Retry_After="10") from None


class ServiceHouse(House):
    def __init__(self, service) -> None:
        self.service = service
        """The service of the plan of the time: `Running` sets it to the next plan's."""
        self.spans = Spans()
        self.remembered: "collections.OrderedDict[str, Signed]" = collections.OrderedDict()
        self.extending = asyncio.Semaphore(MOST_EXTENDING)
        self.to_extend = 0
        self.closing = False
        self.between = 0
        """How many requests wait for the next plan."""

    # signing

    def admit(self, count: int = 1) -> None:
        with refusals():
            if self.closing:
                raise Stopping("the service stops")
            self.service.host.desk.see_room(count)

    def is_full(self) -> bool:
        return self.service.host.desk.admission.is_full()

    def retry_after(self) -> int:
        return self.service.host.desk.admission.retry_after()

    def refused_early(self) -> None:
        self.service.host.desk.busy += 1

    async def sign(self, imprints: List[str], is_gone: Callable[[], bool], name: Optional[str] = None) -> Signings:
        self.admit(len(imprints))
        began = time.monotonic()
        batch = Batch(imprints, name)
        refusal: Optional[Refusal] = None
        try:
            with refusals():
                await in_time(self.signed(batch, is_gone), ANSWER_SECONDS)
        except Refusal as reason:
            if not any(batch.found):
                raise
            refusal = reason
        self.spans.add(time.monotonic() - began)
        return [self.remember(imprint, *found) if found else refusal for imprint, found in zip(imprints, batch.found)]

    async def signed(self, batch: Batch, is_gone: Callable[[], bool]) -> None:
        """Fills in the signatures of a batch by the plan of the time. Once that is over, the next plan is waited for, and gives those that
        are missing."""
        while True:
            service = self.service
            try:
                return await service.host.desk.sign_all(batch, is_gone=is_gone)
            except Over:
                await self.next_plan(service)

    async def next_plan(self, service) -> None:
        """Waits until the next plan's service takes requests."""
        if self.between >= MOST_BETWEEN or not service.host.succession.is_followed():
            raise Between(OVER)
        self.between += 1
        try:
            end = time.monotonic() + BETWEEN_SECONDS
            while self.service is service or not self.service.is_ready:
                if time.monotonic() > end:
                    raise Between("the plan is over, and the next one is not begun here yet")
                await asyncio.sleep(BETWEEN_LOOK_SECONDS)
        finally:
            self.between -= 1

    def remember(self, imprint: str, text: str, second: int) -> Signed:
        signed = self.remembered[imprint] = Signed(imprint, bytes.fromhex(text), second)
        self.remembered.move_to_end(imprint)
        while len(self.remembered) > MOST_REMEMBERED:
            self.remembered.popitem(last=False)
        return signed

    async def lookup(self, imprint: str) -> Signed:
        return self.remembered.get(imprint) or await self.service.finding.lookup(imprint)

    # extending

    async def extend(self, contents: List[bytes], to: Optional[int]) -> Extensions:
        if self.service.publications.last() is None and not self.service.earlier:
            raise Refusal("nothing-published", f"nothing was published yet: a core publishes {self.service.publishing.next_time()}")
        if to is not None and not any(it.has(to) for it in (self.service.publications, *self.service.earlier)):
            raise Refusal("no-such-publication", f"second {to} was not published")
        if self.to_extend + len(contents) > MOST_TO_EXTEND:
            raise Refusal("too-many-extensions", "too many signatures wait to be extended", Retry_After="2")
        self.to_extend += len(contents)
        try:
            return await asyncio.gather(*(self.extend_one(it, to) for it in contents))
        finally:
            self.to_extend -= len(contents)

    async def extend_one(self, content: bytes, to: Optional[int]) -> Union[Extended, Refusal]:
        try:
            async with self.extending:
                extended, last = await self.extended(content, to)
        except extension.NotExtended as reason:
            return Refusal(reason.code, str(reason))
        parts = parts_of(extended)
        return Extended(parts.imprint, extended, parts.second, last)

    async def extended(self, content: bytes, to: Optional[int]) -> Tuple[bytes, int]:
        """A signature that is extended to a publication of its plan, and that publication's second."""
        plan = plan_of(self.service.earlier, self.service.plan.start, content)
        if plan is not None:
            work = asyncio.get_running_loop().run_in_executor(None, plan.extended, content, to)
            return await work, plan.last if to is None else to
        last = self.service.publications.last() if to is None else to
        if last is None:
            raise extension.NotExtended("not-yet-published", f"nothing of this plan was published yet: a core publishes {self.service.publishing.next_time()}")
        return await self.service.extend(content, last), last

    # reading

    def publications(self) -> Optional[bytes]:
        return self.service.all_publications.file(self.service.earlier, self.service.publications.published) if self.service.earlier else self.service.publications.content

    def book(self) -> bytes:
        if self.service.book.packed is None:
            raise Refusal("no-book", "this machine has no earlier plan" if self.service.book.content is None else "the book of the earlier plans leads to no publication yet")
        return self.service.book.packed

    def calendars(self) -> Dict[str, Calendar]:
        return {**{it.calendar.plan.digest: it.calendar for it in self.service.earlier}, **self.service.calendar.calendars()}

    def page(self) -> Optional[bytes]:
        return page()

    def not_ready(self) -> Optional[str]:
        if self.closing:
            return "the service stops"
        if not self.service.is_ready:
            return "the service starts, or waits for other machines"
        host = self.service.host
        if host.now() > host.last_second + 1 and not host.succession.is_followed():
            return OVER
        desk = host.desk
        return None if desk.has_majority else desk.why_not()

    def counters(self) -> Dict[str, Any]:
        return {**self.service.counters(), "sign_seconds": self.spans.told()}
