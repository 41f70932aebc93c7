"""Which nodes are up as this machine sees them, and in which order cores drive a second.

Machines may see different things for a moment. That costs a ballot, or a request a second, and never changes a root."""
import time
from typing import Any, Dict, List, Optional, Set

from .places import Places

MOST_OFF = 2
"""By how many seconds a machine's clock may differ from the others'."""
MOST_LACKING = 6
"""How many seconds a core may lack, of those that another core holds, and still lead."""
AWAY_SECONDS = 1.0
"""After this silence a machine counts as away, or after four times its usual one."""
HUNG_SECONDS = 1.0
"""After this time without the return of a write of the record, heartbeats report this machine's nodes as down."""


class Peer:
    """Another machine, by its last heartbeat."""

    def __init__(self, name: str, gap: float, away: float = AWAY_SECONDS) -> None:
        self.name = name
        self.away = away
        """After which silence it is away, if heartbeats come as often as they should."""
        self.times = away / gap
        self.is_there = False
        self.heard = float("-inf")
        """When the last heartbeat arrived."""
        self.gap = gap
        """The time between heartbeats, as a moving average."""
        self.run: Optional[List[int]] = None
        """Which run of its host sent it."""
        self.up: Set[str] = set()
        self.takes: Set[str] = set()
        self.next: Dict[str, int] = {}
        """The first second that each of its cores lacks."""
        self.rests: Dict[str, int] = {}
        """Its cores that are to forget, each with the first second that it does not lead."""
        self.ahead = 0.0
        """How far its clock is ahead of this machine's."""
        self.is_off = False
        """Whether its host says that its clock may not drive."""
        self.program = ""
        """The version of its program."""
        self.protocol = 0
        """The version of the protocol that it runs."""
        self.seen: Any = None
        """For a gateway: what this machine right above it reports (gateway_view.py)."""

    def patience(self) -> float:
        """After which silence it is away now."""
        return max(self.away, self.times * self.gap)


class View:
    def __init__(self, host) -> None:
        self.host = host
        self.plan = host.plan
        self.hung_since = time.monotonic()
        self.groups = 0
        self.rests: Dict[str, int] = {}
        """The cores of this machine that are to forget, each with the first second that it does not lead."""

    @property
    def places(self) -> Places:
        return self.host.places

    def peer_of(self, name: str) -> Optional[Peer]:
        """The machine of a node, if this host talks to it."""
        return self.host.peers.get(self.places.machine_of.get(name))

    def hangs(self) -> bool:
        """Whether the disk of the record does not return a write, and other machines could go on without this one."""
        record = self.host.record
        if not record.writes or record.groups != self.groups:
            self.groups = record.groups
            self.hung_since = time.monotonic()
        return bool(self.host.trusted) and time.monotonic() - self.hung_since > HUNG_SECONDS

    def is_up(self, name: str) -> bool:
        node = self.host.nodes.get(name)
        if node:
            return node.alive and not self.hangs()
        peer = self.peer_of(name)
        return peer is not None and peer.is_there and name in peer.up

    def up(self) -> List[str]:
        return [it for it in self.plan.names() if self.is_up(it)]

    def takes(self, aggregator: str) -> bool:
        """Whether an aggregator takes requests."""
        if aggregator in self.host.nodes:
            # after a clock was set back, its rounds of the seconds until then are closed
            is_open = self.host.rounds.next <= int(self.host.now()) + 1
            return is_open and self.is_up(aggregator) and not self.is_off(self.places.me) and not self.host.rounds.rests(aggregator)
        peer = self.peer_of(aggregator)
        return peer is not None and peer.is_there and aggregator in peer.takes

    def next_of(self, core: str) -> int:
        """The first second that a core is known to lack."""
        mine = self.host.cores.get(core)
        if mine:
            return mine.next
        peer = self.peer_of(core)
        return peer.next.get(core, 0) if peer else 0

    def held_by_any(self) -> int:
        """The first second that no core which is up is known to hold with all before it."""
        return max((self.next_of(it) for it in self.cores_up()), default=self.plan.start)

    def cores_up(self) -> List[str]:
        return [f"c{it}" for it in range(self.plan.cores) if self.is_up(f"c{it}")]

    def is_majority(self) -> bool:
        return self.host.may_begin() and self.plan.is_majority(len(self.cores_up()))

    def is_off(self, machine: str) -> bool:
        """Whether a machine's clock is off. This machine's is if its own check fails, or if it differs from the middle one of all that
        are there."""
        if machine != self.places.me:
            return self.host.peers[machine].is_off or abs(self.host.peers[machine].ahead) > MOST_OFF
        if self.host.clock.fault():
            return True
        clocks = sorted([0.0, *(it.ahead for it in self.host.trusted.values() if it.is_there)])
        return min(abs(clocks[len(clocks) // 2]), abs(clocks[(len(clocks) - 1) // 2])) > MOST_OFF

    def resting(self) -> Dict[str, int]:
        """The cores of all machines that are to forget, each with the first second that it does not lead."""
        others = [it.rests for it in self.host.trusted.values() if it.is_there]
        return {name: second for rests in (self.rests, *others) for name, second in rests.items()}

    def leads(self, number: int, second: int) -> bool:
        """Whether a core is up, is not to forget, its machine's clock is right, and it lacks few of the seconds that another core holds.
        If all cores are late, it leads all the same."""
        name = f"c{number}"
        if second >= self.resting().get(name, second + 1) or second > self.host.succession.last_of(self.places.machine_of[name]):
            return False
        least = min(self.held_by_any(), int(self.host.now())) - MOST_LACKING
        return self.is_up(name) and not self.is_off(self.places.machine_of[name]) and self.next_of(name) >= least

    def order(self, second: int) -> List[int]:
        """The cores that are up, in the order in which they drive a second: those that have aggregators, from the leader on; then those
        without; and last those that do not lead."""
        leaders = self.plan.leaders
        first = second % len(leaders)
        cores = leaders[first:] + leaders[:first] + [it for it in range(self.plan.cores) if it not in leaders]
        return sorted((it for it in cores if self.is_up(f"c{it}")), key=lambda it: not self.leads(it, second))

    def leader(self, second: int) -> Optional[int]:
        """The core that drives a second first and takes items, if it leads."""
        first = next((it for it in self.order(second) if self.plan.below[it]), None)
        return first if first is not None and self.leads(first, second) else None

    def rank(self, second: int, number: int) -> int:
        """How many cores that are up drive a second before this one."""
        order = self.order(second)
        return order.index(number) if number in order else len(order)

    def holder(self, second: int, turn: int) -> Optional[str]:
        """A core that reports all seconds up to this one as held. If several do, they take turns."""
        holders = [it for it in self.cores_up() if self.next_of(it) > second]
        return holders[(second + turn) % len(holders)] if holders else None
