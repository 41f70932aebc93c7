"""The gateways right below this machine, and what it takes of them.

A gateway is a machine of somebody else, perhaps a hostile one. Of its messages these are taken, and only within its share:

    alive        a heartbeat, which counts for the gateway's own nodes alone
    closed       a round of one of its aggregators is closed
    line         a submission of one of its aggregators to the node above: one a second, of a second that is not long over, at a level
                 that the aggregators of the plan can reach

Everything else is dropped and counted. So a gateway that sends much costs its share, and the rounds of others are as before. Gateways come
and go while the host runs: the file of machines is read again after it changed."""
import asyncio
import logging
import re
from typing import Any, Dict, List, Optional, Set

from .carrier import Limit, Message, messages_in
from .errors import ServiceError
from .places import Places
from .plans import Content
from .shares import Share
from .view import Peer
from .watching import Watch

log = logging.getLogger(__name__)

ALIVE_SECONDS = 0.5
"""How often heartbeats go to a gateway, and from it: half as often as between other machines, since there may be many."""
AWAY_SECONDS = 1.1
"""After this silence a gateway is away, or a machine above one."""
CLOSE_SECONDS = 0.2
"""How long the node above waits for a gateway's round, for each aggregator on the longest path below."""
LEVELS = 17
"""By how many levels an aggregator's tree is higher than its highest item: 16 of its 65,536 items, and one of a name."""
MESSAGES, MESSAGES_OF_NODE, PAUSE_SECONDS = 8, 8, 4
"""How many messages a gateway may send a second, and how many more for each of its aggregators; and how many seconds' worth at once."""
MOST_BYTES, BATCHES, MOST_BATCHES = 1 << 16, 10.0, 40
"""The largest batch of a gateway, how many batches a second it may send, and how many at once."""
LATE_SECONDS = 10
"""A submission for a second that began longer ago than this is dropped."""
FREE_MISSES, MOST_MISSES = 2, 8
"""How often a gateway's round may be late until the next one is not waited for, and how many times count."""
SUBMISSION = re.compile(r"submission (0|[1-9][0-9]{0,3}) ([0-9]{1,12}) [0-9a-f]{64} ([0-9]{1,3})(?: [!-~]{1,64})?")
LOOK_SECONDS = 1.0


class Punctual:
    """For whose rounds the nodes above wait: not for a gateway's that was late several times. It is waited for again after 2, 4, 8 .. seconds."""

    def __init__(self) -> None:
        self.misses: Dict[str, int] = {}
        self.until: Dict[str, int] = {}

    def is_waited_for(self, aggregator: str, second: int) -> bool:
        return second >= self.until.get(aggregator, 0)

    def note(self, aggregator: str, second: int, in_time: bool) -> None:
        """Notes whether a round that was waited for was closed in time."""
        misses = max(0, min(MOST_MISSES, self.misses.get(aggregator, 0) + (-2 if in_time else 1)))
        self.misses[aggregator] = misses
        self.until[aggregator] = second + 1 + (0 if in_time or misses <= FREE_MISSES else 2 ** (misses - FREE_MISSES))


class Links:
    def __init__(self, host) -> None:
        self.host = host
        self.names: Set[str] = set()
        """The gateways right below."""
        self.shares: Dict[str, Share] = {}
        self.dropped: Dict[str, int] = {}
        """How many messages of each gateway were dropped since the start."""
        self.given: Dict[str, Set[int]] = {}
        """By aggregator of a gateway, the last seconds of which a submission was given to the node above."""
        self.punctual = Punctual()
        self.heights: Dict[str, int] = {}
        self.watch = Watch(host.places.path) if host.places.path else None
        for name in host.places.below(host.plan):
            self.add(name)

    # who

    def add(self, name: str) -> None:
        """A gateway may talk to this machine from now on."""
        host, nodes = self.host, self.host.places.nodes[name]
        rate = MESSAGES + MESSAGES_OF_NODE * len(nodes)
        self.names.add(name)
        self.shares[name] = Share(rate, PAUSE_SECONDS * rate)
        self.dropped.setdefault(name, 0)
        host.peers[name] = Peer(name, ALIVE_SECONDS, AWAY_SECONDS)
        if host.carrier is not None:
            host.outbox.add(name)
            host.carrier.add(name, host.places.addresses[name], Limit(MOST_BYTES, BATCHES, MOST_BATCHES))

    def remove(self, name: str) -> None:
        """A gateway may not talk to this machine any more."""
        host = self.host
        self.names.discard(name)
        self.shares.pop(name, None)
        if host.carrier is not None:
            host.carrier.remove(name)
            host.outbox.remove(name)
        host.peers.pop(name, None)
        host.heartbeat.taken.discard(name)
        host.heartbeat.odd.pop(name, None)
        host.desk.away(name)

    def is_slow(self, name: str) -> bool:
        """Whether heartbeats to a machine are those of gateways."""
        return name in self.names or self.host.places.is_gateway

    async def run(self) -> None:
        """Follows the file of machines."""
        if self.watch is not None:
            self.watch.has_changed()
        while True:
            await asyncio.sleep(LOOK_SECONDS)
            if self.watch is not None and self.watch.has_changed():
                # somebody may be writing it
                await asyncio.sleep(LOOK_SECONDS)
                self.watch.has_changed()
                self.read_again()

    def read_again(self) -> None:
        """Takes the gateways of the file of machines. Other changes of the file need a restart."""
        host, path = self.host, self.host.places.path
        try:
            found = Places.read(path, host.places.me, host.plan)
        except (ServiceError, OSError) as fault:
            log.error("%s: the machines stay as they were", fault)
            return
        if found.mine != host.places.mine or {it: (found.addresses[it], its) for it, its in found.full.items()} != {it: (host.places.addresses[it], its) for it, its in host.places.full.items()}:
            log.error("%s has other machines or addresses, which count after a restart: the machines stay as they were", path)
            return
        self.take_over(found)

    def take_over(self, found: Places) -> None:
        before = self.host.places
        self.host.places = found
        # the next plan that follows without a command has the same gateways
        self.host.succession.content = Content(self.host.plan, found.text())
        below = found.below(self.host.plan)
        for name in sorted(self.names):
            if name not in below or (before.nodes[name], before.addresses[name]) != (found.nodes[name], found.addresses[name]):
                self.remove(name)
                log.info("the gateway %s is removed", name)
        for name in sorted(below - self.names):
            self.add(name)
            log.info("the gateway %s is added: %s", name, " ".join(found.nodes[name]))

    # what is waited for

    def height(self, aggregator: str) -> int:
        """How many aggregators are on the longest path from an aggregator down."""
        if aggregator not in self.heights:
            self.heights[aggregator] = 1 + max(map(self.height, self.host.children[aggregator]), default=0)
        return self.heights[aggregator]

    def is_of_gateway(self, aggregator: str) -> bool:
        return self.host.places.machine_of.get(aggregator) in self.names

    # what is taken

    def take(self, name: str, batch: bytes) -> None:
        """Takes a batch of a gateway as far as it is within its share."""
        if len(batch) > MOST_BYTES:
            self.drop(name, batch.count(b"\n"))
            return
        rows = batch.splitlines()
        count = self.shares[name].take(len(rows))
        self.drop(name, len(rows) - count)
        for row in rows[:count]:
            message = self.message_in(row)
            if message is not None and self.is_allowed(name, message):
                self.host.inbox.take_one(name, message)
            else:
                self.drop(name, 1)

    def drop(self, name: str, count: int) -> None:
        if count and not self.dropped[name]:
            log.warning("the gateway %s sends more than its share, or other messages than a gateway does: these are dropped", name)
        self.dropped[name] += count

    @staticmethod
    def message_in(row: bytes) -> Optional[Message]:
        try:
            return messages_in(row)[0]
        except (ValueError, IndexError, RecursionError):
            return None

    def is_allowed(self, name: str, message: List[Any]) -> bool:
        kind, *words = message
        if kind == "line":
            return len(words) == 4 and all(isinstance(it, str) for it in words[:2]) and self.is_submission(name, *words[:2])
        return kind in ("alive", "closed")

    def is_submission(self, name: str, to: str, text: str) -> bool:
        """Whether a line is the first submission of a gateway's aggregator for a second, at a level that it can have."""
        found = SUBMISSION.fullmatch(text)
        if not found or int(found[1]) >= len(self.host.plan.parents):
            return False
        aggregator, second = f"a{found[1]}", int(found[2])
        is_own = self.host.places.machine_of.get(aggregator) == name and self.host.plan.parents[int(found[1])] == to
        if not is_own or int(found[3]) > LEVELS * self.height(aggregator) or second < self.host.now() - LATE_SECONDS:
            return False
        return self.is_first(aggregator, second)

    def is_first(self, aggregator: str, second: int) -> bool:
        given = self.given.setdefault(aggregator, set())
        if second in given:
            return False
        given.add(second)
        if len(given) > 2 * LATE_SECONDS:
            self.given[aggregator] = {it for it in given if it >= self.host.now() - LATE_SECONDS}
        return True
