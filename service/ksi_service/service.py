"""The service of one machine: its host, publications and door, over one folder."""
import asyncio
import logging
import os
import time

from . import checked, earlier, extension, files, roots, subtrees
from .admission import MOST_WAITING
from .anchors import Anchors
from .asking import Questions
from .book import Book
from .calendar_writing import CalendarWriting
from .finding import Finding
from .host import Host, cancelled
from .hours import Broken
from .indexing import Indexing
from .left import free_bytes, seconds_left
from .lines import Down
from .metrics import Spans, memory
from .plan import SECONDS, Odd, Plan, parents_of
from .programs import Missing
from .publishing import Publishing
from .resting import Resting
from .version import PROTOCOL, version

log = logging.getLogger(__name__)

REFUSES = "the door answers 503"
"""The words of the log for a clock that may not drive."""
CORES, AGGREGATORS = 3, "2"
"""The nodes of a new folder."""
LAST_SECONDS = 5
"""How long a service that stops still waits for requests that it has taken."""


def plan_of(folder, cores=None, aggregators=None):
    """The plan of a folder, which is made if it is missing. An old folder has to have the numbers that are asked for."""
    path = os.path.join(folder, "plan")
    if not os.path.exists(path):
        if os.path.exists(os.path.join(folder, "record")):
            raise Broken(f"{path} is not there, and the folder has a record: bring it back")
        parents = parents_of(aggregators or AGGREGATORS, cores or CORES)
        files.write(path, Plan(cores or CORES, int(time.time()) + 1, parents).text().encode())
    plan = Plan.read(path)
    if cores not in (None, plan.cores) or aggregators is not None and parents_of(aggregators, plan.cores) != plan.parents:
        raise Odd(f"{folder} has a plan already, {plan.told()}: another one needs a new folder")
    return plan


class Service:
    def __init__(self, folder, plan, publish_every=3600, most_waiting=MOST_WAITING, cut_every=3600, forget_every=3600, places=None, carrier=None,
                 clock=None, discard=0, on_publication=None, succeed_after=SECONDS):
        self.plan = plan
        self.cut_every = cut_every
        self.forget_every = forget_every
        self.host = Host(folder, plan, places, carrier, publish_every, most_waiting, clock=clock, succeed_after=succeed_after)
        self.host.record.discard = discard
        self.publishing = Publishing(self.host, folder, publish_every)
        self.publications = self.publishing.publications
        self.earlier = earlier.earlier_plans(folder)
        """The plans before, as far as this machine has them."""
        self.all_publications = earlier.AllPublications()
        self.book = Book(self, folder, self.earlier)
        self.calendar = CalendarWriting(self.host, folder)
        self.anchors = Anchors(folder, on_publication)
        self.publishing.on_published = self.anchors.published
        self.indexing = Indexing(folder, self.host.record)
        self.host.rounds.on_signed = self.indexing.note
        self.finding = self.host.finding = Finding(self.host, self.indexing)
        self.resting = Resting(self.host)
        self.questions = Questions(self.host, self.publishing)
        self.extensions = Spans()
        self.chains = extension.Chains()
        self.began = time.monotonic()
        self.door = None
        self.own = []
        self.is_ready = False
        """Whether all began. One of several machines waits for others, so that a majority of the cores is there."""

    async def begin(self):
        # a majority may be lost for good
        await self.questions.begin(is_waiting=True)
        await self.host.begin(self.cut_every)
        await self.questions.begin()
        self.is_ready = True
        self.own = [asyncio.create_task(it.run()) for it in (self.publishing, self.calendar, self.anchors, self.indexing, *([self.book] if self.book.content else []))]
        if self.publications.published:
            self.anchors.published(*self.publications.published[-1])
        if self.forget_every:
            self.own.append(asyncio.create_task(self.resting.run(self.forget_every)))

    async def extend(self, signature, last):
        """A signature that is extended to the publication of second `last`."""
        with self.extensions.timed():
            return await self.extended(signature, last)

    async def extended(self, signature, last):
        """By a core of this machine that holds all seconds to the publication. If none answers, by the calendar files."""
        parts = extension.wanted(signature, last)
        chain = self.chains.get(parts.second, last) or await self.chain_to(parts.second, last)
        if chain is not None:
            make = extension.making(parts, last, chain)
            return await asyncio.get_running_loop().run_in_executor(None, extension.accepted, make, parts, self.publications.path)
        content = await asyncio.get_running_loop().run_in_executor(None, extended_by_files, self.calendar.subtrees, signature, parts, last, self.publications)
        if content is not None:
            return content
        others = ": ask another machine's door" if self.host.trusted else ""
        raise extension.NotExtended("seconds-missing", f"no core that answers holds all seconds to {last}{others}")

    async def chain_to(self, second, last):
        """The calendar chain from a second to a publication by the first core that holds all seconds, or None."""
        for name in self.host.cores:
            try:
                chain = await self.asked(self.host.nodes[name], extension.asking_chain(second, last))
            except Down:
                continue
            if chain is not None:
                self.chains.add(second, last, chain)
                return chain
        return None

    async def asked(self, core, work):
        """The result of work that asks a core questions."""
        answer = None
        try:
            while True:
                answer = await core.ask(work.send(answer))
        except StopIteration as end:
            return end.value

    def counters(self):
        host, desk, record, nodes = self.host, self.host.desk, self.host.record, self.host.nodes
        return {
            "version": version(), "protocol": PROTOCOL,
            "ready": self.is_ready,
            "up_seconds": int(time.monotonic() - self.began),
            "nodes": len(nodes), "nodes_up": sum(node.alive for node in nodes.values()),
            "nodes_left_out": len(host.left_out), **({"left_out": host.left_out} if host.left_out else {}),
            "node_restarts": sum(node.restarts for node in nodes.values()),
            "door_connections": len(self.door.open) if self.door else 0, "door_refused": self.door.refused if self.door else 0,
            "lines_refused": sum(node.refused for node in nodes.values()),
            "signed": desk.signed, "asked_again": desk.again, "waiting": desk.waiting, "busy": desk.busy, "clients_left": desk.gone,
            "room": int(desk.admission.room), "lines_spared": sum(node.spared for node in nodes.values()),
            "seconds_decided": host.seconds_decided, "last_second": record.state.second,
            "ballots": sum(it.ballots for it in host.drivers),
            "steps": record.state.steps, "record_bytes": record.bytes, "record_syncs": record.syncs,
            "rounds_forgotten": self.resting.rounds, "core_facts_forgotten": self.resting.core_facts, **record.lost(), **checked.counters(host.folder),
            "publications": len(self.publications.published), "last_publication": self.publications.last() or 0,
            "lookup_complete": self.indexing.is_complete, "calendar_next": self.calendar.calendar.next, **self.anchors.counters(),
            "plan_seconds_left": seconds_left(host.last_second, host.now()), "next_publication": self.publishing.due(), "free_bytes": free_bytes({"data": host.folder}),
            "extend_seconds": self.extensions.told(), **({"requests": self.door.requests.told()} if self.door else {}),
            **self.between_machines(),
            **self.host.succession.counters(),
            "clock": self.clock(),
            "processes": self.processes(), "memory_bytes": memory({"host": os.getpid(), **self.processes()}),
        }

    def clock(self):
        """Whether this machine's clock is checked, and why it may not drive, if it may not."""
        clock = self.host.clock
        return {**clock.described(), "fault": clock.fault() or ""}

    def accept_clock(self):
        """The operator has checked the clock after it was set."""
        self.host.clock.accept()
        log.warning("the clock was accepted as it is now")

    def between_machines(self):
        """Counters of a service of several machines."""
        host = self.host
        if not host.peers:
            return {}
        now = time.monotonic()
        return {
            "machine": host.places.me,
            "machines": {it.name: "refused" if it.name in host.heartbeat.odd else "there" if it.is_there else "away" for it in host.peers.values()},
            "versions": {it.name: it.program for it in host.peers.values() if it.program},
            "silent_seconds": {it.name: round(now - max(it.heard, self.began), 1) for it in host.peers.values()},
            "clock_offsets": {it.name: round(it.ahead, 3) for it in host.peers.values() if it.program},
            "cores_next": {f"c{it}": host.view.next_of(f"c{it}") for it in range(self.plan.cores)},
            "messages_sent": host.outbox.sent, "messages_lost": host.outbox.lost, "batches_sent": host.outbox.batches,
            "messages_dropped": host.inbox.dropped, "lines_forged": host.inbox.forged,
            "requests_late": host.rounds.late, "seconds_told": host.told,
            **({"gateways_dropped": dict(host.links.dropped)} if host.links.dropped else {}),
        }

    def processes(self):
        """The numbers of the nodes' processes that run on this machine."""
        return {name: node.process.pid for name, node in self.host.nodes.items() if node.process and node.process.returncode is None}

    async def idle(self, seconds):
        """Waits until no request waits, but not for long. Other machines learn that the aggregators here take none."""
        self.host.leaving = bool(self.host.peers)
        for _ in range(int(seconds * 20)):
            if not self.host.desk.waiting and not (self.host.peers and self.host.rounds.rounds):
                return
            await asyncio.sleep(0.05)

    async def stop(self):
        await cancelled(self.own)
        await self.questions.stop()
        await self.calendar.stop()
        await self.indexing.stop()
        await self.host.stop()

    async def watch(self):
        """Ends when one of the tasks that run for ever has ended, and raises its error, or when the plan is over and succeeded."""
        done, _ = await asyncio.wait([*self.own, *self.host.tasks, self.host.succession.over], return_when=asyncio.FIRST_COMPLETED)
        for task in done:
            task.result()


def extended_by_files(kept, signature, parts, last, publications):
    """A signature that is extended to second `last` over the calendar files, or None if they do not reach it."""
    if kept.calendar.next <= last:
        return None
    kept.calendar.flush()
    try:
        return subtrees.extend(kept, signature, parts, (last, publications.root(last)), publications.path)
    except (roots.NotComputed, roots.NotRun, Missing):
        return None
