"""One machine of a plan: its nodes, its record, and the messages between them and the hosts of other machines.

A host gives its own nodes lines, and nobody else does. Between machines go only messages that nodes sent, and the hints of inbox.py. With
one machine the host carries all lines itself: there is nobody to talk to."""
import asyncio
import contextlib
import logging
import os
import time
from typing import Callable, Dict, List, Optional, Set, Tuple

from . import gateway_links
from .admission import MOST_WAITING
from .carrier import Carrier, Message, Outbox
from .clocks import ClockCheck
from .closings import Closings
from .desk import Desk
from .driver import Driver
from .finding import Finding
from .forget import forget_between, see_program
from .gateway_links import Links
from .gateway_view import Early, GatewayView
from .heartbeat import ALIVE_SECONDS, Heartbeat
from .inbox import Inbox
from .known import ZERO, Core
from .lines import Down, Line, always
from .messages import FORGOTTEN, decree_of, is_of_vote, second_of
from .node import MOST_VAIN_STARTS, GivenUp, Node
from .overload import is_on
from .places import Places
from .plan import SECONDS, Plan
from .programs import program
from .record import Record, is_refusal
from .rounds import Rounds
from .storing import LostFacts
from .succession import Succession
from .view import Peer, View

log = logging.getLogger(__name__)

WITHOUT = "the service goes on without"
"""The words of the log for a node that is left out, or not ready yet."""
AFTER, AFTER_ALONE = 1.05, 1.01
"""How long after its beginning a second is driven, so that requests for it have arrived: from other machines' doors, or from this one's."""
QUIET_START_SECONDS, PATIENT_SECONDS = 5, 60
"""How long a start waits for nodes before it logs for which; and how long for all of them, if fewer are enough."""
AGAIN_SECONDS = 60
"""After how many seconds a node that does not start, and is left out, is tried again."""
OTHERS_SECONDS = 2.0
"""How long a start waits for machines beyond those that it needs: one of them may know a later step of this one."""
MOST_TELLING = 32
"""How many missing seconds are sent to one machine at once."""
AT_ONCE = 1024
"""Of how many seconds a core is asked at once."""
LAST_SECONDS = 5
"""How long nodes may take to end."""


class Host:
    def __init__(self, folder: str, plan: Plan, places: Optional[Places] = None, carrier: Optional[Carrier] = None, publish_every: int = 3600,
                 most_waiting: int = MOST_WAITING, now: Callable[[], float] = time.time, clock: Optional[ClockCheck] = None, succeed_after: int = SECONDS) -> None:
        self.folder = folder
        self.plan = plan
        self.succeed_after = succeed_after
        """After how many seconds of a plan the next one follows without a command; 0 is never."""
        self.places = places or Places.alone(plan)
        self.now = now
        self.clock = clock or ClockCheck(unchecked=True)
        self.record = Record(os.path.join(folder, "record"), plan.text(), self.clock.described())
        self.carrier = carrier
        self.published: Callable[[], Optional[int]] = lambda: None
        """The last second that this machine has published."""
        self.children: Dict[str, List[str]] = {it: [] for it in plan.names()}
        """The aggregators right below each node."""
        for number, parent in enumerate(plan.parents):
            self.children[parent].append(f"a{number}")
        self.nodes: Dict[str, Node] = {it: self.node(it) for it in self.places.mine}
        self.cores: Dict[str, Core] = {it: Core(it, plan.start) for it in self.places.mine if it[0] == "c"}
        self.trusted: Dict[str, Peer] = self.machines_trusted()
        """The machines whose reports on cores, clocks and this host count: all but gateways. For a gateway, those right above it."""
        self.peers: Dict[str, Peer] = dict(self.trusted)
        """All machines that this one talks to."""
        self.succession = Succession(self)
        self.outbox = Outbox(carrier, [*self.trusted, *self.succession.former]) if carrier else None
        self.links = Links(self)
        """The gateways right below, which are among the peers."""
        self.view = GatewayView(self) if self.places.is_gateway else View(self)
        self.closings = Closings(self)
        self.early = Early()
        self.rounds = Rounds(self)
        self.desk = Desk(self, most_waiting)
        self.inbox = Inbox(self)
        self.finding: Optional[Finding] = None
        """Finds signatures by their hashes, if the service does."""
        self.heartbeat = Heartbeat(self, publish_every)
        self.drivers = [Driver(self, it) for it in self.cores.values()]
        self.telling: Dict[Tuple[str, int], Set[str]] = {}
        """The seconds that a core is sending on `tell`, each with the cores that receive it."""
        self.told_to: Dict[str, int] = {it: 0 for it in self.trusted}
        """How many missing seconds are being sent to each machine."""
        self.told = 0
        self.seconds_decided = 0
        self.left_out: Dict[str, str] = {}
        """Nodes that are not used, each with the reason."""
        self.started = float("inf")
        """When it began to talk to other machines."""
        self.leaving = False
        """Whether this machine takes no more requests, since it is to stop."""
        self.left = False
        self.failed = asyncio.get_running_loop().create_future()
        self.ending = asyncio.Event()
        self.living: List[asyncio.Task] = []
        """The tasks of the record and of the nodes."""
        self.driving: List[asyncio.Task] = []
        """The tasks that drive seconds, and those that talk to other machines."""

    def node(self, name: str) -> Node:
        words = [program("ksi_serve"), os.path.join(self.folder, "plan"), name, self.folder, f"{name}.facts"]
        return Node(name, words, self.record, lambda step, block: self.route(name, step, block), lambda: self.may_lack(name), self.let_in,
                    lambda text: self.succession.may_take(name, text))

    @property
    def after(self) -> float:
        """How long after its beginning a second is driven, and its rounds are closed. A gateway closes them earlier, at least by
        how long batches take, since the nodes above do not wait long for it; later requests go to the next second."""
        if self.places.is_gateway and self.outbox is not None:
            return AFTER_ALONE - self.early.at_least(2 * max(map(self.outbox.usual, self.trusted), default=0.0))
        return AFTER_ALONE if self.carrier is None else AFTER

    def machines_trusted(self) -> Dict[str, Peer]:
        below = self.places.below(self.plan)
        words = (gateway_links.ALIVE_SECONDS, gateway_links.AWAY_SECONDS) if self.places.is_gateway else (ALIVE_SECONDS,)
        return {it: Peer(it, *words) for it in self.places.neighbours(self.plan) if it not in below}

    @property
    def last_second(self) -> int:
        """The last second that this machine takes part in: the plan's, or an earlier one at which its cores retired."""
        retired = self.record.state.retired
        return min(self.plan.last_second, retired.second) if retired else self.plan.last_second

    # messages

    def route(self, name: str, step: int, block: List[str]) -> None:
        """Forwards the messages of a node's step. They follow it in the record, so none leaves before the step is on the disk."""
        for place, row in enumerate(it for it in block if it.startswith("send ")):
            _, to, text = row.split(" ", 2)
            words = text.split(" ", 4)
            if words[0] == "synod" and words[3] in ("next", "begin"):
                self.cores[name].phase[int(words[2])] = words[3]
            if decree_of(text):
                second = second_of(text)
                only = self.telling.get((name, second))
                self.hold(name, second, decree_of(text))
                if only is not None and to not in only:
                    continue
            self.carry(to, text, [step, place])

    def carry(self, to: str, text: str, message: list) -> None:
        """Carries a message to its node, or to the machine that has the node once the step is on the disk."""
        if to in self.nodes:
            self.give(to, text, message)
        else:
            # a gateway that was removed has no machine any more
            machine = self.places.machine_of.get(to, "")
            self.record.after(lambda: self.send(machine, ["line", to, text, *message]), is_of_vote(text))

    def send(self, machine: str, message: Message) -> None:
        self.outbox.send(machine, message)

    def give(self, to: str, text: str, message: list) -> None:
        """Gives a node here a message of another node."""
        self.nodes[to].send(Line(text, message, self.is_needed(to, text), lambda block: self.taken(to, text, block)))

    def is_needed(self, to: str, text: str) -> Callable[[], bool]:
        """Whether a line of the vote still changes anything once its turn comes."""
        words = text.split(" ", 4)
        if words[0] != "synod" or words[3] not in ("last", "voted", "success") or not is_on("lean"):
            return always
        return lambda: self.cores[to].needs(words[3], int(words[2]))

    def taken(self, to: str, text: str, block: List[str]) -> None:
        """Notes a message that a node here has taken from another one. Its step is not on the disk yet."""
        words = text.split(" ", 4)
        if block == FORGOTTEN and to in self.cores:
            self.refused_as_forgotten(to, words)
        if is_refusal(block):
            return
        if words[0] == "synod":
            self.heard(to, int(words[1]), int(words[2]), words[3], words[-1])
        elif words[0] == "submission" and block[0] in ("answer done", "answer known"):
            self.submitted(to, f"a{words[1]}", int(words[2]))
        elif words[0] == "submission" and block[0] == "answer late":
            self.announce_none_to(f"a{words[1]}", int(words[2]))
        elif words[0] == "response" and block[0] == "answer done":
            self.rounds.responded(to, int(words[1]))

    def refused_as_forgotten(self, to: str, words: List[str]) -> None:
        """A core keeps the root alone of a line's second, so it took no part. The core that sent the line lacks the second, and is sent
        the root; an aggregator's requests are made again."""
        second = int(words[2])
        self.cores[to].hold(second)
        if words[0] == "submission":
            self.announce_none(to, second)
        elif words[0] == "synod" and words[3] in ("next", "begin"):
            self.tell_core(f"c{words[1]}", second)

    def tell_core(self, lacking: str, second: int) -> None:
        """Has a core here send the root of a second to a core, of this machine or of another one."""
        if lacking not in self.nodes:
            self.tell_peer(self.places.machine_of[lacking], lacking, second)
        elif not self.cores[lacking].holds(second):
            self.rounds.spawn(self.tell(lacking, second))

    def heard(self, to: str, sender: int, second: int, kind: str, decree: str) -> None:
        core = self.cores[to]
        if kind == "success":
            self.hold(to, second, decree)
        elif kind in ("next", "begin") and sender != core.number:
            core.hear(second, kind == "next")

    def submitted(self, to: str, aggregator: str, second: int) -> None:
        if to in self.cores:
            self.cores[to].items[second].add(aggregator)
        else:
            self.rounds.items[to].add(second)

    def hold(self, name: str, second: int, root: str) -> None:
        """Notes that a core here holds a second."""
        is_known = any(it.holds(second) for it in self.cores.values())
        if self.cores[name].hold(second) and not is_known:
            self.seconds_decided += 1
            if root == ZERO:
                self.rounds.none_of(second)

    # seconds that a core lacks

    def ask_for(self, lacking: str, holder: str, second: int) -> None:
        """Has a core that holds a second send its root to one that lacks it."""
        if holder in self.nodes:
            self.rounds.spawn(self.tell(lacking, second))
        else:
            self.send(self.places.machine_of[holder], ["lacks", lacking, second])

    def tell_peer(self, machine: str, lacking: str, second: int) -> None:
        """Has a core here send the root of a second to a core of another machine, unless too many are being sent to that machine."""
        async def tell():
            self.told_to[machine] += 1
            try:
                await self.tell(lacking, second)
            finally:
                self.told_to[machine] -= 1
        if self.told_to[machine] < MOST_TELLING:
            self.rounds.spawn(tell())

    async def tell(self, lacking: str, second: int) -> None:
        """Has a core here send the root of a second to one other core, and to no third one."""
        name = next((it for it, core in self.cores.items() if core.holds(second) and self.nodes[it].alive and it != lacking), None)
        if name is None:
            return
        key = name, second
        self.telling.setdefault(key, set()).add(lacking)
        self.told += 1
        try:
            await self.nodes[name].ask(f"tell {second}")
        except Down:
            pass
        finally:
            self.telling.pop(key, None)

    def announce_none(self, core: str, second: int) -> None:
        """Reports to the aggregators below a core that no response comes for a second."""
        for aggregator in self.children[core]:
            self.announce_none_to(aggregator, second)

    def announce_none_to(self, aggregator: str, second: int) -> None:
        machine = self.places.machine_of.get(aggregator)
        if machine == self.places.me:
            self.rounds.none(aggregator, second)
        elif machine is not None:
            self.send(machine, ["none", aggregator, second])

    # life

    def may_begin(self) -> bool:
        """Whether the nodes may be given lines: the plan before is over, and other machines, enough to have a majority of the cores with this
        one, know no later step of this machine than its record has. So a folder that lost its end is noticed before its core votes again.
        The others are waited for too, for a moment: the first ones to answer may have lost their ends as well. A gateway has no core, and one
        machine above it is enough."""
        if not self.trusted or not self.succession.is_begun:
            return self.succession.is_begun
        known = self.heartbeat.known_to
        if len(known) < len(self.trusted) and time.monotonic() - self.started < OTHERS_SECONDS:
            return False
        cores = sum(name[0] == "c" for machine in (self.places.me, *known) for name in self.places.nodes[machine])
        is_enough = bool(known) if self.places.is_gateway else self.plan.is_majority(cores)
        return is_enough and not self.failed.done()

    def fail(self, reason: BaseException) -> None:
        """Ends the host for a reason."""
        if not self.failed.done():
            self.failed.set_exception(reason)

    async def begin(self, cut_every: float = 3600.0) -> None:
        """Starts the nodes, waits until they are ready, and drives seconds."""
        await self.start(cut_every)
        await self.ready()
        await self.drive()

    async def start(self, cut_every: float = 3600.0) -> None:
        """Starts the nodes, and talks to other machines."""
        see_program(self.folder, self.record.state)
        self.rounds.spawn(self.record.see_last_hour())
        self.living = [asyncio.create_task(it) for it in (self.record.run(cut_every), *map(self.keep, self.nodes.values()))]
        self.driving.append(asyncio.create_task(self.succession.run()))
        if self.carrier:
            await self.carrier.begin(self.inbox.take)
            self.started = time.monotonic()
            self.driving += [asyncio.create_task(it) for it in (self.outbox.run(), self.heartbeat.run(), self.links.run())]

    async def drive(self) -> None:
        for name in self.cores:
            await self.look(name)
        self.desk.look()
        self.driving += [asyncio.create_task(it.run()) for it in (self.rounds, self.desk, *self.drivers)]

    @property
    def tasks(self) -> List[asyncio.Future]:
        """All that runs until the host is stopped. If one of them ends, the host has failed."""
        return [self.failed, *self.living, *self.driving]

    async def ready(self) -> None:
        """Waits until other machines let this one begin, and all nodes here are up but for those that are left out. After a while it
        waits only for nodes that are needed."""
        began = time.monotonic()
        is_logged = False
        while not self.may_begin() or self.missing() and not (time.monotonic() > began + PATIENT_SECONDS and self.is_enough()):
            self.see_tasks()
            if not is_logged and time.monotonic() - began > QUIET_START_SECONDS:
                log.info("%s", self.waits_for())
                is_logged = True
            await asyncio.sleep(0.02)
        if self.missing():
            log.warning("%s %s until they are ready", WITHOUT, " ".join(self.missing()))

    def waits_for(self) -> str:
        if self.missing():
            return f"waits for {' '.join(self.missing())} to start and to read their files"
        if not self.succession.is_begun:
            return "waits until a majority of the cores of the plan before retired to this plan"
        there = [it.name for it in self.peers.values() if it.is_there]
        return f"waits for other machines, so that a majority of the cores is there, and sees {' '.join(there) or 'none'}"

    def missing(self) -> List[str]:
        """The nodes here that are not up and not left out."""
        return [name for name, node in self.nodes.items() if not node.alive and name not in self.left_out]

    def is_enough(self) -> bool:
        """Whether the nodes that are up here can sign, or other machines' nodes may."""
        return bool(self.trusted) or self.plan.may_sign({it for it, node in self.nodes.items() if node.alive})

    def see_tasks(self) -> None:
        """Raises the reason if a task has ended."""
        for task in self.tasks:
            if task.done():
                task.result()

    async def look(self, name: str) -> None:
        """Asks a core which seconds it holds."""
        core, node = self.cores[name], self.nodes[name]
        last = min(max(int(self.now()) - 1, self.record.state.second), self.last_second)
        if not node.alive or last < self.plan.start:
            return
        with contextlib.suppress(Down):
            words = (await node.ask(f"publish {last}"))[0].split(" ")
            core.hold_before(int(words[2]) if words[1] == "undecided" else last + 1)
            for first in range(core.next, last + 1, AT_ONCE):
                for row in await node.ask(f"held {first} {min(AT_ONCE, last + 1 - first)}"):
                    if row.startswith("root "):
                        core.hold(int(row.split(" ")[1]))

    def may_lack(self, name: str) -> bool:
        """Whether the other nodes that are up can sign."""
        return self.plan.may_sign(set(self.view.up()) - {name})

    async def keep(self, node: Node) -> None:
        """Runs a node. If it cannot be used it is left out, provided that the others are enough. It is tried again after a while if it
        just ended. If its file is not the record's it is given nothing more: a core whose file lacks facts would vote twice."""
        while True:
            try:
                return await node.run()
            except GivenUp as reason:
                self.leave_out(node, reason, f"{node.name}, and tries it again each minute")
                seconds = AGAIN_SECONDS
            except LostFacts as reason:
                self.leave_out(node, reason, f"{node.name} until it is started again")
                seconds = None
            if await self.ends_within(seconds):
                return
            node.vain_starts = MOST_VAIN_STARTS - 1

    def leave_out(self, node: Node, reason: Exception, what: str) -> None:
        """Goes on without a node, or raises the reason if the others are not enough. Logs each reason once."""
        node.leave_alone()
        if not self.plan.may_sign(set(self.plan.names()) - self.left_out.keys() - {node.name}):
            raise reason
        known = self.left_out.get(node.name)
        self.left_out[node.name] = str(reason)
        if known != str(reason):
            log.error("%s: %s %s", reason, WITHOUT, what)

    def let_in(self, name: str) -> None:
        """A node is ready. If it was left out, it no longer is."""
        if self.left_out.pop(name, None):
            log.info("%s is there again", name)

    async def ends_within(self, seconds: Optional[float]) -> bool:
        """Waits until the host is to end, or for this long. Returns whether it is."""
        with contextlib.suppress(asyncio.TimeoutError):
            await asyncio.wait_for(self.ending.wait(), seconds)
        return self.ending.is_set()

    def settled(self, name: str) -> int:
        """The second before which a node may forget. For an aggregator: all requests of the seconds before were answered. For a core
        also: it holds them, nobody waits for its response, and the items that it sealed are in closed files of the record."""
        settled = self.rounds.settled()
        if name[0] == "a":
            return settled
        driven = [second for it in self.drivers if it.name == name for second in it.driven]
        core = self.cores[name]
        return min([settled, self.record.state.closed_before(), core.next, *driven, *core.items])

    async def forget(self, name: str, before: int) -> Tuple[int, int]:
        """Has a node forget the seconds before this one. Returns how many facts are left, and how many there were."""
        node = self.nodes[name]
        return await node.rest(lambda: forget_between(self.folder, node, before))

    async def stop(self) -> None:
        """Leaves the other machines, ends the nodes by the end of their input, and writes what is left of the record."""
        self.leaving = self.left = True
        if self.carrier and self.driving:
            self.heartbeat.send()
            await asyncio.sleep(0.05)
        await cancelled(self.driving)
        if self.carrier:
            await self.carrier.stop()
        self.ending.set()
        for node in self.nodes.values():
            node.end()
        if self.living:
            await self.end_living(*self.living)
        await self.record.close()

    async def end_living(self, writing: asyncio.Task, *living: asyncio.Task) -> None:
        if living:
            await asyncio.wait(living, timeout=LAST_SECONDS)
        for node in self.nodes.values():
            node.kill()
        await asyncio.gather(*living, return_exceptions=True)
        await cancelled([writing])


async def cancelled(tasks: List[asyncio.Task]) -> None:
    """Cancels tasks, and waits for their end."""
    for task in tasks:
        task.cancel()
    await asyncio.gather(*tasks, return_exceptions=True)
