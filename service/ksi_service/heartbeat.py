"""Heartbeats between hosts: who is up, how far each machine's cores are, and what guards a machine against an older or second self.

A heartbeat is sent to each machine four times a second: `["alive", FIELDS]`, where FIELDS has

    version   of this protocol (version.py)
    program   the version of the program
    plan      a digest of the plan, of the machines and their nodes, of the interval of publications, and of the plan before and --succeed-after
    run       which run of the host this is: the steps of its record at its start, and the time of it in milliseconds
    you, had  which run of the receiver's host the sender knows, and how many steps the receiver's record has had by the lines that it sent
    now       the sender's clock
    off       whether that clock may not drive, by the sender's own check
    up        its nodes that are up
    takes     its aggregators that take requests
    next      the first second that each of its cores lacks
    rests     its cores that are to forget, each with the first second that it does not lead; older hosts leave it out
    waits     whether its plan succeeds another one, and it lacks retirements (succession.py); older hosts leave it out
    seen      to a gateway alone: which core leads each of the next seconds (gateway_view.py)

A machine takes part if its last heartbeat has this plan and a version of the protocol that runs together with this host's. Nothing else
is taken from a machine that does not: a core of another plan is another core. Apart from that, safety never depends on a heartbeat: a
wrong one costs time."""
import asyncio
import hashlib
import json
import logging
import time
from typing import Any, Dict, List, Optional, Set

from . import version
from .gateway_view import Seen, report_of
from .inbox import number_in
from .plan import SECONDS
from .storing import LostFacts
from .view import MOST_LACKING, Peer

log = logging.getLogger(__name__)

ALIVE_SECONDS = 0.25
"""How often a heartbeat is sent; to a gateway and by one, each second time."""
MOST_GAP = 2.0
LOG_SECONDS = 60.0
"""How often at most is logged that a gateway takes part or does not."""
MOST_VERSION = 40
"""How long the version of another machine's program may be. The rest is cut."""


class Fields:
    """The fields of a heartbeat. Raises ValueError, TypeError or KeyError if they are malformed."""

    def __init__(self, fields: Dict[str, Any], nodes) -> None:
        self.plan = fields["plan"]
        self.run = [number_in(it) for it in fields["run"]]
        self.you: Optional[List[int]] = None if fields["you"] is None else [number_in(it) for it in fields["you"]]
        self.had = number_in(fields["had"])
        self.now = float(fields["now"])
        self.is_off = bool(fields["off"])
        self.up = {it for it in nodes if it in fields["up"]}
        self.takes = {it for it in nodes if it in fields["takes"]}
        self.next = {it: number_in(fields["next"][it]) for it in nodes if it[0] == "c"}
        self.program = "".join(it for it in str(fields.get("program", "unknown"))[:MOST_VERSION] if " " <= it <= "~")
        rests = fields.get("rests", {})
        self.rests = {it: number_in(rests[it]) for it in nodes if it in rests}
        self.protocol = number_in(fields["version"])
        self.waits = bool(fields.get("waits", False))
        self.seen = Seen(fields["seen"]) if "seen" in fields else None


class Heartbeat:
    def __init__(self, host, publish_every: int) -> None:
        self.host = host
        self.peers = host.peers
        self.steps = host.record.state.steps
        """How many steps the record had when it was opened."""
        self.run_of_host = [self.steps, int(host.now() * 1000)]
        words = [host.plan.text(), sorted((name, list(nodes)) for name, nodes in host.places.full.items()), publish_every]
        words += [host.succession.before.origin] if host.succession.before else []
        words += [f"after {host.succeed_after}"] if host.succeed_after != SECONDS else []
        text = json.dumps(words)
        self.plan = hashlib.sha256(text.encode()).hexdigest()[:16]
        self.known_to: Set[str] = set()
        """Machines that know no later step of this one than its record has."""
        self.superseded: Set[str] = set()
        """Machines that know a later run of this machine's host."""
        self.odd: Dict[str, str] = {}
        """Machines that take no part, each with the reason."""
        self.taken: Set[str] = set()
        """Machines that take part."""
        self.looked = time.monotonic()
        self.logged: Dict[str, float] = {}
        self.reported = float("-inf")
        self.seen: Dict[str, Any] = {}
        self.late_since: Dict[str, float] = {}

    def message(self, peer: Peer) -> List[Any]:
        host = self.host
        report = {"seen": self.report()} if peer.name in host.links.names else {}
        return ["alive", {
            **report, "version": version.PROTOCOL, "program": version.version(), "plan": self.plan, "run": self.run_of_host, "you": peer.run, "had": host.record.state.heard.get(peer.name, 0), "now": host.now(),
            "off": host.clock.fault() is not None,
            "up": [] if host.left else [it for it in host.nodes if host.view.is_up(it)],
            "takes": [it for it in host.nodes if it[0] == "a" and host.view.takes(it)],
            "next": {it: core.next for it, core in host.cores.items()},
            "rests": host.view.rests, "waits": not host.succession.is_begun}]

    def report(self) -> Dict[str, Any]:
        """The field `seen`, the same for all gateways."""
        if time.monotonic() - self.reported > ALIVE_SECONDS / 2:
            self.reported = time.monotonic()
            self.seen = report_of(self.host.view)
        return self.seen

    async def run(self) -> None:
        """Sends heartbeats, and notes who is away."""
        is_second = False
        while True:
            self.send(is_second)
            is_second = not is_second
            self.look()
            self.note_lag()
            self.host.closings.drop_old()
            await asyncio.sleep(ALIVE_SECONDS)

    def send(self, is_second: bool = True) -> None:
        """Sends a heartbeat to all machines; each second one goes to gateways too, and leaves a gateway."""
        for peer in self.peers.values():
            if is_second or not self.host.links.is_slow(peer.name):
                self.host.send(peer.name, self.message(peer))

    def look(self) -> None:
        """Notes which machines are away: those that are silent for much longer than usual. While this process itself was kept from
        running, nobody was silent."""
        now = time.monotonic()
        kept = max(0.0, now - self.looked - ALIVE_SECONDS)
        self.looked = now
        for peer in self.peers.values():
            if kept > ALIVE_SECONDS / 2:
                peer.heard += kept
            if peer.is_there and now - peer.heard > peer.patience():
                peer.is_there = False
                log.warning("%s is away", peer.name)
                self.host.desk.away(peer.name)
                self.host.rounds.away(peer.name)

    def note_lag(self) -> None:
        """Logs when a core that was late holds all seconds again."""
        for name, core in self.host.cores.items():
            if self.host.now() - core.next > MOST_LACKING + 2:
                self.late_since.setdefault(name, time.monotonic())
            elif name in self.late_since:
                log.info("%s holds all seconds again, after %.1f s", name, time.monotonic() - self.late_since.pop(name))

    def take(self, machine: str, fields: Dict[str, Any]) -> None:
        """Takes a heartbeat of another machine. Of another version of the protocol only the version is read."""
        protocol = number_in(fields["version"])
        if not version.is_neighbour(protocol):
            self.refuse(machine, f"has version {protocol} of the protocol between machines, and this one has {version.PROTOCOL}")
        elif fields["plan"] != self.plan:
            self.refuse(machine, "has another plan, other machines, or another --publish-every or --succeed-after")
            self.host.succession.see_other_plan(machine)
        else:
            self.take_part(machine, Fields(fields, self.host.places.nodes[machine]))

    def take_part(self, machine: str, told: Fields) -> None:
        self.taken.add(machine)
        if self.odd.pop(machine, None) and self.may_log(machine):
            log.info("%s takes part again", machine)
        if told.waits:
            self.host.succession.answer(machine)
        if self.is_current(machine, told):
            self.note(self.peers[machine], told)

    def takes_part(self, machine: str) -> bool:
        return machine in self.taken

    def refuse(self, machine: str, reason: str) -> None:
        """Takes nothing more of a machine. Logs each reason once."""
        self.host.inbox.dropped += 1
        self.taken.discard(machine)
        if self.odd.get(machine) != reason:
            self.odd[machine] = reason
            if self.may_log(machine):
                log.error("%s %s: its messages are not taken", machine, reason)

    def may_log(self, machine: str) -> bool:
        """Whether what changes about a machine is logged: of a gateway not often, since it may say another thing each time."""
        now = time.monotonic()
        if machine in self.host.links.names and now - self.logged.get(machine, float("-inf")) < LOG_SECONDS:
            return False
        self.logged[machine] = now
        return True

    def is_current(self, machine: str, told: Fields) -> bool:
        """Guards: whether this machine's record is the last one that the other machine knows, no later run of this host is known to most
        others, and the heartbeat is not of an earlier run of the other host. A gateway below cannot stop this host: only the last one counts."""
        if machine in self.host.links.names:
            return self.is_of_this_run(machine, told)
        steps = self.host.record.state.steps if self.host.may_begin() else self.steps
        if told.had > steps:
            self.host.fail(LostFacts(f"{machine} knows {told.had} steps of this machine, whose record has {steps}: bring back the folder's last state"))
            return False
        (self.superseded.add if told.you and told.you > self.run_of_host else self.superseded.discard)(machine)
        if 2 * len(self.superseded) > len(self.host.trusted):
            self.host.fail(LostFacts(f"another host runs as {self.host.places.me} by now, and most others know it"))
            return False
        if not self.is_of_this_run(machine, told):
            return False
        self.known_to.add(machine)
        return True

    def is_of_this_run(self, machine: str, told: Fields) -> bool:
        run = self.peers[machine].run
        if run and told.run < run:
            self.host.inbox.dropped += 1
            return False
        return True

    def note(self, peer: Peer, told: Fields) -> None:
        now = time.monotonic()
        if peer.is_there:
            peer.gap += (min(MOST_GAP, now - peer.heard) - peer.gap) / 8
        for gone in peer.up - told.up:
            self.host.desk.away(gone)
        peer.run = told.run
        peer.heard = now
        peer.up = told.up
        peer.takes = told.takes
        peer.next = told.next
        peer.rests = told.rests
        peer.ahead = told.now - self.host.now()
        peer.is_off = told.is_off
        peer.program = told.program
        peer.protocol = told.protocol
        peer.seen = told.seen
        if not peer.is_there:
            peer.is_there = True
            log.info("%s is there", peer.name)
