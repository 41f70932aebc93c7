"""The rounds of this machine's aggregators: which requests they took, when each round is closed, and the answers to its requests."""
import asyncio
import collections
import functools
import time
from typing import Callable, Dict, List, Optional, Set, Tuple

from .grouped import MOST_SIGNATURES, handed, request_of
from .lines import Down, Line

RESPONSE_SECONDS = 1.5
"""How long a round waits for its response after its second is decided: at least this, and at most twice this."""
MOST_RESPONSE_SECONDS = 20.0
"""How long it waits at most. While its second is undecided, the response may still come: requests made again would be more load."""
ANNOUNCED_SECONDS = 0.6
"""How long it takes at most until the other machines know that an aggregator takes no requests."""
GATEWAYS_SECONDS = 4.0
"""How long it takes at most until gateways have submitted the requests that they took before they knew that."""
KEPT_SECONDS = 60


class Asked:
    """A request at an aggregator of this machine."""

    def __init__(self, machine: str, ask: int, number: int, imprint: str, line: Line) -> None:
        self.machine = machine
        """Which machine's door it came to."""
        self.ask = ask
        """That door's number of it."""
        self.number = number
        """Its number in the plan."""
        self.imprint = imprint
        self.line = line
        self.is_answered = False


class Rounds:
    def __init__(self, host) -> None:
        self.host = host
        self.plan = host.plan
        self.me = host.places.me
        self.resting: Dict[str, float] = {}
        """The aggregators that are to forget, each with the time since when they take no requests."""
        self.handed: Dict[str, int] = {}
        """The last second of which each aggregator had a part in a signature."""
        self.rounds: Dict[int, Dict[str, List[Asked]]] = collections.defaultdict(lambda: collections.defaultdict(list))
        self.items: Dict[str, Set[int]] = collections.defaultdict(set)
        """The seconds for which each aggregator accepted a submission, and which are not closed."""
        self.responses: Dict[Tuple[str, int], asyncio.Future] = {}
        self.next = max(self.plan.start, host.record.state.second, int(host.now()))
        """The first second whose rounds are open: none before takes a request, whatever the machine's clock says."""
        self.levels = {core: [[it for it in level if f"a{it}" in host.places.mine] for level in levels] for core, levels in self.plan.levels.items()}
        """The aggregators of this machine below each core by levels, the deepest first."""
        self.stride = max(1, len(host.places.full))
        first = int(host.now() * 1000) << 20
        self.number = first - first % self.stride + host.places.number
        """The number of the last request. Numbers of different machines have different remainders; those of a gateway need only differ at each
        of its own aggregators."""
        self.late = 0
        self.on_signed: Callable[[str, int, Tuple[int, int]], None] = lambda imprint, second, place: None
        """Is called with each hash that was signed, its second, and the place of its signature on the record."""
        self.tasks: Set[asyncio.Task] = set()

    # requests

    def ask(self, machine: str, ask: int, second: int, aggregator: str, imprint: str, name: Optional[str] = None) -> None:
        """Takes a request from a door, or answers it with none."""
        self.ask_all(machine, ask, second, aggregator, [imprint], name)

    def ask_all(self, machine: str, first: int, second: int, aggregator: str, imprints: List[str], name: Optional[str] = None) -> None:
        """Takes requests from a door, whose numbers there begin with the first one; or answers each with none."""
        last = min(int(self.host.now()) + self.plan.cores + 1, self.host.last_second)
        if not self.next <= second <= last or not self.accepts(aggregator):
            self.late += len(imprints)
            for ask in range(first, first + len(imprints)):
                self.answer(machine, ask, None)
            return
        requests, lines = self.rounds[second][aggregator], []
        for ask, imprint in enumerate(imprints, first):
            self.number += self.stride
            line = Line(request_of(self.number, second, imprint, name))
            asked = Asked(machine, ask, self.number, imprint, line)
            requests.append(asked)
            line.answer.add_done_callback(functools.partial(self.taken, asked))
            lines.append(line)
        self.host.nodes[aggregator].send_all(lines)

    def taken(self, asked: Asked, answer: asyncio.Future) -> None:
        """The aggregator answered. A request that it did not take, or may not have taken, is answered with none at once."""
        if answer.cancelled() or answer.exception() or not answer.result()[0].startswith("answer number "):
            self.end(asked, None)

    def accepts(self, aggregator: str) -> bool:
        """Whether an aggregator takes a request. One that is to forget still takes what was sent before other machines knew that."""
        since = self.resting.get(aggregator)
        is_known = since is not None and (not self.host.peers or time.monotonic() - since >= ANNOUNCED_SECONDS)
        return self.host.view.is_up(aggregator) and not is_known

    def answer(self, machine: str, ask: int, text: Optional[str]) -> None:
        if machine == self.me:
            self.host.desk.got(machine, ask, text)
        else:
            self.host.send(machine, ["got", ask, text])

    def end(self, asked: Asked, text: Optional[str]) -> None:
        if not asked.is_answered:
            asked.is_answered = True
            self.answer(asked.machine, asked.ask, text)

    # forgetting

    def rests(self, aggregator: str) -> bool:
        """Whether an aggregator takes no requests for now."""
        return self.host.leaving or aggregator in self.resting

    def rest(self, aggregator: str) -> None:
        self.resting[aggregator] = time.monotonic()
        self.host.desk.look()

    def wake(self, aggregator: str) -> None:
        self.resting.pop(aggregator, None)
        self.host.desk.look()

    async def drained(self, aggregator: str, seconds: float) -> bool:
        """Waits until no request waits for an aggregator or for one below it, and other machines know that it takes none. Returns
        whether that is so within this many seconds."""
        end = time.monotonic() + seconds
        while self.accepts(aggregator) and self.host.peers or self.waits_for(aggregator) or self.awaits_gateways(aggregator):
            if time.monotonic() > end:
                return False
            await asyncio.sleep(0.02)
        return True

    def awaits_gateways(self, aggregator: str) -> bool:
        """Whether submissions of gateways may still come for an aggregator that takes no more: of requests from before they knew."""
        has_gateways = any(map(self.host.links.is_of_gateway, self.host.children[aggregator]))
        return has_gateways and time.monotonic() - self.resting.get(aggregator, 0.0) < GATEWAYS_SECONDS

    def waits_for(self, aggregator: str) -> bool:
        number = int(aggregator[1:])
        below = any(number in self.plan.ways[int(it[1:])] for requests in self.rounds.values() for it in requests)
        return below or any(it >= self.next for it in self.items[aggregator])

    def settled(self) -> int:
        """The second before which each request was answered, by its signature or by none."""
        return min([self.next, *self.rounds])

    # closing

    async def run(self) -> None:
        """Closes the rounds of each second when it is over."""
        try:
            while True:
                last = int(self.host.now() - self.host.after)
                if last >= self.next:
                    self.begin_closing(last)
                left = max(last + 1, self.next) + self.host.after - self.host.now()
                await asyncio.sleep(max(0.005, min(left, 1.0)))
        finally:
            for task in self.tasks:
                task.cancel()
            await asyncio.gather(*self.tasks, return_exceptions=True)

    def begin_closing(self, last: int) -> None:
        """Closes all rounds up to a second: also those of seconds that passed while this process did not run. By a clock that may not
        drive only rounds with items are closed, and all others stay open: if it is far ahead, they are used once it is right again."""
        due = {it for it in (*self.rounds, *(second for seconds in self.items.values() for second in seconds)) if self.next <= it <= last}
        if not self.host.view.is_off(self.me):
            due.add(last)
            self.drop_old(last)
        self.next = max(due, default=self.next - 1) + 1
        self.host.desk.look()
        for second in sorted(due):
            self.spawn(self.close(second))

    def drop_old(self, last: int) -> None:
        for key in [it for it in self.responses if it[1] < last - KEPT_SECONDS]:
            del self.responses[key]

    def spawn(self, work) -> None:
        task = asyncio.create_task(work)
        self.tasks.add(task)
        task.add_done_callback(self.ended)

    def ended(self, task: asyncio.Task) -> None:
        self.tasks.discard(task)
        if not task.cancelled() and task.exception():
            self.host.fail(task.exception())

    async def close(self, second: int) -> None:
        """Closes the rounds of a second, level by level, so that each submission arrives before the round above it is closed."""
        async def close_below(core):
            for level in filter(None, self.levels[core]):
                await asyncio.gather(*(self.close_one(f"a{it}", second) for it in level))
        await asyncio.gather(*map(close_below, range(self.plan.cores)))

    async def close_one(self, aggregator: str, second: int) -> None:
        """Closes a round if it has items, and then reports it to the node above. A round without items would be a fact for nothing."""
        children = self.host.children[aggregator]
        if children:
            await self.host.closings.wait(children, second)
        asked = self.rounds.get(second, {}).get(aggregator, [])
        if second in self.items[aggregator] or any(it.line.step is not None or not it.is_answered for it in asked):
            try:
                await self.closed(aggregator, second)
            except Down:
                pass
        self.items[aggregator] = {it for it in self.items[aggregator] if it > second}
        self.host.closings.announce(aggregator, second)
        if asked:
            self.spawn(self.gather(aggregator, second, asked))

    def closed(self, aggregator: str, second: int) -> asyncio.Future:
        """Closes a round. The node above may go on at once if it is of this machine: it has the submission by then."""
        line = Line(f"close {second}", heard=lambda block: self.host.closings.note_here(aggregator, second))
        self.host.nodes[aggregator].send(line)
        return line.answer

    # signatures

    def response(self, aggregator: str, second: int) -> asyncio.Future:
        key = aggregator, second
        if key not in self.responses:
            self.responses[key] = asyncio.get_running_loop().create_future()
        return self.responses[key]

    def responded(self, aggregator: str, second: int) -> None:
        """An aggregator has its response."""
        there = self.response(aggregator, second)
        if not there.done():
            there.set_result(True)

    def none(self, aggregator: str, second: int) -> None:
        """No response comes for a round, nor for those below it."""
        for below in self.host.children[aggregator]:
            self.host.announce_none_to(below, second)
        if aggregator in self.rounds.get(second, ()):
            there = self.response(aggregator, second)
            if not there.done():
                there.set_result(False)

    def away(self, machine: str) -> None:
        """A machine is away: no response comes from it, so requests of rounds right below its nodes are made again."""
        for second, rounds in list(self.rounds.items()):
            for aggregator in list(rounds):
                if self.host.closings.machine_above(aggregator) == machine:
                    self.none(aggregator, second)

    def none_of(self, second: int) -> None:
        """No response comes for any round of a second: its root is zero."""
        for aggregator in list(self.rounds.get(second, ())):
            self.none(aggregator, second)

    async def comes(self, aggregator: str, second: int) -> bool:
        """Waits for a round's response. Returns whether it came."""
        there = self.response(aggregator, second)
        end = time.monotonic() + MOST_RESPONSE_SECONDS
        is_decided = False
        while not there.done() and not is_decided and time.monotonic() < end:
            is_decided = self.host.view.held_by_any() > second
            await asyncio.wait([there], timeout=RESPONSE_SECONDS)
        return there.done() and there.result()

    async def gather(self, aggregator: str, second: int, asked: List[Asked]) -> None:
        """Waits for a round's response, and gives each request its signature, or none."""
        try:
            came = await self.comes(aggregator, second)
            self.host.early.note(came)
            if came:
                await self.sign(aggregator, second, [it for it in asked if it.line.step is not None and not it.is_answered])
                await self.recorded()
        finally:
            for it in asked:
                self.end(it, None)
            self.rounds[second].pop(aggregator, None)
            if not self.rounds[second]:
                del self.rounds[second]

    async def sign(self, aggregator: str, second: int, asked: List[Asked]) -> None:
        """Asks for the signatures of a round, and hands them out together."""
        node = self.host.nodes[aggregator]
        lines = [Line(f"sign {it.number}") for it in asked]
        node.send_all(lines)
        found = []
        for it, line in zip(asked, lines):
            try:
                block = await line.answer
            except Down:
                continue
            if block[0].startswith("signature "):
                found.append((it, block[0].split(" ")[1]))
        if found:
            self.hand_out(aggregator, second, found)

    def hand_out(self, aggregator: str, second: int, found: List[Tuple[Asked, str]]) -> None:
        """Answers requests once their signatures are on the record, all in one group."""
        for at in range(0, len(found), MOST_SIGNATURES):
            portion = found[at:at + MOST_SIGNATURES]
            rows = [(it.line.step, text) for it, text in portion]
            place = self.host.record.place
            entry = handed(rows) if len(rows) > 1 else ["signed", *rows[0]]
            self.host.record.add(entry, functools.partial(self.handed_out, portion, second, place))
        for above in self.plan.ways[int(aggregator[1:])]:
            self.handed[f"a{above}"] = max(second, self.handed.get(f"a{above}", 0))

    def handed_out(self, found: List[Tuple[Asked, str]], second: int, place: Tuple[int, int]) -> None:
        """Signatures are on the record, at this place of it."""
        for it, text in found:
            self.on_signed(it.imprint, second, place)
            self.end(it, text)

    async def recorded(self) -> None:
        """Waits until all that was added to the record is on the disk."""
        there = asyncio.get_running_loop().create_future()
        self.host.record.after(lambda: there.done() or there.set_result(None))
        await there
