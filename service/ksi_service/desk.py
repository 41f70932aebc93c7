"""Requests at this machine's doors: each is given to an aggregator below the core that leads its second, on whichever machine it is."""
import asyncio
import collections
import time
from typing import Callable, Dict, List, NamedTuple, Optional, Tuple

from .admission import MOST_WAITING, Admission, Busy
from .errors import ServiceError
from .overload import is_on

TURNS = 60
"""How often a request is made before it is refused."""
PLACE_SECONDS = 60
"""How long a request waits for a second that has aggregators."""
ASK_SECONDS = 25.0
"""How long after its second a door waits for an aggregator's machine that is up."""
LOOK_SECONDS = 0.05
"""How often is looked which aggregators take requests."""
MINORITY_SECONDS = 0.5
"""After this time without a majority of the cores, requests are refused: with the pauses between looks, within a second."""
MINORITY_SECONDS_GATEWAY = 0.25
"""The same of a gateway, which notices later that others are away."""
SWEEP_SECONDS = 0.25


class NotSigned(ServiceError):
    """A request was tried in many seconds, and none took it."""


class Minority(ServiceError):
    """This machine sees no majority of the cores, or its clock is off."""


class Over(ServiceError):
    """The plan has no second for a request any more: the next plan has."""


class Batch:
    """Hashes that are signed together, and the signatures so far."""

    def __init__(self, imprints: List[str], name: Optional[str] = None) -> None:
        self.imprints = imprints
        """The 64 hex digits of each."""
        self.name = name
        """The name that is hashed with each, if there is one."""
        self.found: List[Optional[Tuple[str, int]]] = [None] * len(imprints)
        """The signature of each hash in hex, with its second."""

    def left(self) -> List[int]:
        """The places of the hashes that have no signature yet."""
        return [place for place, it in enumerate(self.found) if it is None]


class Answers:
    """The answers to requests that an aggregator was asked for at once."""

    def __init__(self, count: int) -> None:
        self.texts: List[Optional[str]] = [None] * count
        self.left = count
        self.all: asyncio.Future = asyncio.get_running_loop().create_future()
        """Done once each request was answered."""

    def end(self, place: int, text: Optional[str]) -> None:
        self.texts[place] = text
        self.left -= 1
        if not self.left and not self.all.done():
            self.all.set_result(self.texts)


class Pending:
    """A request that an aggregator was asked for."""

    def __init__(self, answers: Answers, place: int, machine: str, aggregator: str, until: float, is_gone: Callable[[], bool]) -> None:
        self.answers = answers
        self.place = place
        self.machine = machine
        self.aggregator = aggregator
        self.until = until
        self.is_gone = is_gone
        self.is_done = False

    def end(self, text: Optional[str]) -> None:
        """Answers it, if it was not answered before."""
        if not self.is_done:
            self.is_done = True
            self.answers.end(self.place, text)


class Place(NamedTuple):
    """Where the requests of a second go."""
    leader: int
    aggregators: List[str]


class Desk:
    def __init__(self, host, most_waiting: int = MOST_WAITING) -> None:
        self.host = host
        self.plan = host.plan
        self.admission = Admission(host, most_waiting)
        self.pending: Dict[int, Pending] = {}
        self.asks = 0
        self.turns: collections.Counter = collections.Counter()
        """How many requests went below each core: the aggregators there take turns."""
        self.places: Dict[int, Place] = {}
        self.placed = asyncio.get_running_loop().create_future()
        """Done once there are places: all requests that wait for one are woken together."""
        self.minority_seconds = MINORITY_SECONDS_GATEWAY if host.places.is_gateway else MINORITY_SECONDS
        homes = [host.places.mine] if host.places.is_gateway else host.places.full.values()
        near = {it for its in homes for it in its}
        self.below = {core: [it for it in numbers if f"a{it}" in near] for core, numbers in self.plan.below.items()}
        """The aggregators below each core to which requests go: a gateway's own ones, or those of all machines but gateways."""
        self.above = {above for numbers in self.below.values() for it in numbers for above in self.plan.ways[it]}
        """These, and all between them and their cores."""
        self.has_majority = not host.trusted
        """Whether requests are taken. Of several machines not before a majority was seen: the door is open by then."""
        self.majority_seen = float("-inf") if host.trusted else time.monotonic()
        self.signed = 0
        self.again = 0
        self.busy = 0
        self.gone = 0
        """How many requests were dropped since their client left."""
        self.last_signed = 0

    async def sign(self, imprint: str, second: Optional[int] = None, is_gone: Callable[[], bool] = lambda: False) -> Tuple[str, int]:
        """Returns the signature of an imprint's 64 hex digits, and its second. Raises Busy, NotSigned, Minority or Over."""
        batch = Batch([imprint])
        await self.sign_all(batch, second, is_gone)
        return batch.found[0]

    async def sign_all(self, batch: Batch, second: Optional[int] = None, is_gone: Callable[[], bool] = lambda: False) -> None:
        """Fills in the signatures of a batch. Raises Busy if nothing was begun, and NotSigned, Minority or Over if a hash got
        none. Those that have one already are left as they are."""
        count = len(batch.left())
        self.see_room(count)
        key = self.admission.begin(count)
        try:
            await self.sign_in_turn(batch, max(self.plan.start, int(self.host.now()) if second is None else second), is_gone)
        finally:
            self.admission.end(key)

    @property
    def waiting(self) -> int:
        return self.admission.waiting

    def see_room(self, count: int = 1) -> None:
        """Raises Busy or Minority if a request of this many hashes would be refused now."""
        if self.admission.is_full(count):
            self.busy += 1
            raise Busy(self.admission.retry_after())
        if not self.has_majority:
            raise Minority(self.why_not())

    async def sign_in_turn(self, batch: Batch, second: int, is_gone: Callable[[], bool]) -> None:
        for _ in range(TURNS):
            second, aggregator = await self.place(second)
            if is_on("left") and is_gone():
                break
            left = batch.left()
            for place, text in zip(left, await self.ask([batch.imprints[it] for it in left], second, aggregator, is_gone, batch.name)):
                if text is not None:
                    batch.found[place] = text, second
                    self.signed += 1
                    self.last_signed = max(self.last_signed, second)
            left = batch.left()
            if not left:
                return
            if is_gone():
                break
            self.again += len(left)
            second = max(second + 1, int(self.host.now()))
        raise NotSigned("no second took the request")

    async def place(self, second: int) -> Tuple[int, str]:
        """The first second from this one on that has aggregators which take requests, and one of them."""
        end = time.monotonic() + PLACE_SECONDS
        while time.monotonic() < end:
            if max(second, int(self.host.now())) > self.host.last_second:
                raise Over("the plan is over")
            if not self.has_majority:
                raise Minority(self.why_not())
            for at, (leader, aggregators) in self.places.items():
                if at >= second and not self.comes_late(leader, at):
                    self.turns[leader] += 1
                    return at, aggregators[self.turns[leader] % len(aggregators)]
            await asyncio.wait([self.placed], timeout=PLACE_SECONDS)
            if len(self.places) and max(self.places) < second:
                # it waits for a later second, not for any place
                await asyncio.sleep(LOOK_SECONDS)
        raise NotSigned("no second has an aggregator that takes requests")

    def comes_late(self, leader: int, second: int) -> bool:
        """Whether a request would reach the leader's machine only when the rounds of the second are closed, by how long batches take."""
        machine = self.host.places.machine_of[f"c{leader}"]
        if machine == self.host.places.me or self.host.places.is_gateway or not is_on("ahead"):
            return False
        return self.host.now() + min(2.0, 2 * self.host.outbox.usual(machine)) > second + 1

    def why_not(self) -> str:
        """Why this machine takes no request."""
        return self.host.clock.fault() or "this machine sees no majority of the cores, or its clock is off"

    async def run(self) -> None:
        """Looks which seconds have places, and drops requests that nobody answers."""
        swept = 0.0
        while True:
            self.look()
            self.admission.judge(self.signed)
            if time.monotonic() - swept > SWEEP_SECONDS:
                swept = time.monotonic()
                self.sweep(swept)
            await asyncio.sleep(LOOK_SECONDS)

    def look(self) -> None:
        """Notes where requests go: of each second to the aggregators below the core that is to drive it."""
        now = time.monotonic()
        may_sign = self.host.view.is_majority() and not self.host.view.is_off(self.host.places.me)
        if may_sign:
            self.majority_seen = now
        self.has_majority = now - self.majority_seen < self.minority_seconds
        self.places = self.places_now() if may_sign else {}
        if self.places or not self.has_majority or self.host.now() > self.host.last_second + 1:
            placed = self.placed
            self.placed = asyncio.get_running_loop().create_future()
            placed.set_result(None)

    def places_now(self) -> Dict[int, Place]:
        view = self.host.view
        first = int(self.host.now())
        taking = {it for it in self.above if view.takes(f"a{it}")}
        places = {}
        for second in range(first, min(first + self.plan.cores, self.host.last_second) + 1):
            leader = view.leader(second)
            if leader is not None:
                up = [f"a{it}" for it in self.below[leader] if taking.issuperset(self.plan.ways[it])]
                if second < self.host.rounds.next:
                    # the rounds of this machine are closed
                    up = [it for it in up if it not in self.host.nodes]
                if up:
                    places[second] = Place(leader, up)
        return places

    async def ask(self, imprints: List[str], second: int, aggregator: str, is_gone: Callable[[], bool], name: Optional[str] = None) -> List[Optional[str]]:
        """The signatures that an aggregator gives, each or None."""
        machine = self.host.places.machine_of[aggregator]
        answers = Answers(len(imprints))
        until = time.monotonic() + second + ASK_SECONDS - self.host.now()
        first = self.asks + 1
        self.asks += len(imprints)
        try:
            for place in range(len(imprints)):
                self.pending[first + place] = Pending(answers, place, machine, aggregator, until, is_gone)
            if machine == self.host.places.me:
                self.host.rounds.ask_all(machine, first, second, aggregator, imprints, name)
            else:
                for ask, imprint in enumerate(imprints, first):
                    self.host.send(machine, ["ask", ask, second, aggregator, imprint, *([name] if name else [])])
            return await answers.all
        finally:
            for ask in range(first, first + len(imprints)):
                self.pending.pop(ask, None)

    def got(self, machine: str, ask: int, text: Optional[str]) -> None:
        """A machine answers a request."""
        pending = self.pending.get(ask)
        if pending and pending.machine == machine:
            pending.end(text)

    def away(self, gone: str) -> None:
        """A machine is away, or an aggregator is down: requests there are made again."""
        for it in self.pending.values():
            if gone in (it.machine, it.aggregator):
                it.end(None)

    def sweep(self, now: float) -> None:
        """Gives up requests that took too long, whose client left, or that a minority cannot sign."""
        looks = is_on("left")
        gone: Dict[Answers, bool] = {}
        for it in self.pending.values():
            if not it.is_done:
                if looks and it.answers not in gone:
                    gone[it.answers] = it.is_gone()
                is_gone = looks and gone[it.answers]
                self.gone += is_gone
                if is_gone or not self.has_majority or now > it.until:
                    it.end(None)
