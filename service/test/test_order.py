"""The order of writes: nodes and their host end between any two of them, and nothing that was acknowledged is lost.

A machine with two of three cores and an aggregator signs a request. The third core's machine only receives. The host ends before its
first write, before its second one, and so on until the request is signed: a group of the record, lines to a node, a batch to the other
machine, and the answer to the client. So do its nodes: a fact, and a block. Then the machine starts again, and signs."""
import asyncio
import collections
import contextlib
import json
import os
import sys
import tempfile
import time
import unittest
from unittest import mock

import stands
from hosted import imprint
from stand_in_retrace import Retrace
from ksi_service import host as hosts
from ksi_service import retrace
from ksi_service.admission import Busy
from ksi_service.carrier import messages_in
from ksi_service.desk import Minority, NotSigned
from ksi_service.host import Host
from ksi_service.places import Places
from ksi_service.plan import Plan
from ksi_service.record import QUESTIONS, Record, Signed, State, Step, told
from ksi_service.storing import LostFacts, Votes, count_happened, word

NODES = {"A": ("c0", "c1", "a0"), "B": ("c2",)}
AT_ONCE = 6
"""How many machines run at once."""
MOST_WRITES = 100
MEMORY = "/dev/shm"
PLAY_SECONDS = 200


class Ended(Exception):
    """The machine or its host has ended: it writes nothing more."""


class Ending:
    """Counts what a host writes, and ends it before one of its writes."""

    def __init__(self, number=None):
        self.left = number
        self.counts = False
        """Whether writes are counted by now."""
        self.over = False

    def write(self):
        """Is called before each write. Raises Ended if it does not happen."""
        if self.counts and self.left is not None and not self.over:
            self.left -= 1
            self.over = not self.left
        if self.over:
            raise Ended()


class Faults(list):
    """What was not in order."""

    def see(self, holds, *words):
        if not holds:
            self.append(words)


class Disk:
    """What is on the disk of a record, by the groups that were synced."""

    def __init__(self):
        self.steps = 0
        self.given = collections.defaultdict(collections.deque)
        """By node, the lines that are on the disk, and that its process does not have yet."""
        self.unsaid = collections.defaultdict(collections.deque)
        """By node, whether each line may store that the process has and whose answer is not on the disk."""
        self.votes = collections.defaultdict(Votes)

    def synced(self, content, steps):
        self.steps = steps
        for kind, name, *rest in map(json.loads, content.decode().splitlines()):
            if kind == "given":
                self.given[name].append((rest[0], self.votes[name].would_store(rest[0], 3)))
                self.votes[name].count(rest[0])
            elif kind == "said":
                self.unsaid[name].popleft()
            elif kind == "ready":
                self.given[name].clear()
                self.unsaid[name].clear()
                self.votes[name] = Votes()


class NoCarrier:
    """The other machine, which takes all and sends nothing."""

    def __init__(self, watched):
        self.watched = watched

    async def begin(self, take):
        pass

    async def send(self, machine, batch, patience):
        lines = [it for it in messages_in(batch) if it[0] == "line"]
        with contextlib.suppress(Ended):
            if lines:
                self.watched.ending.write()
            self.watched.leave(lines)
        return True

    def reachable(self):
        return []

    async def stop(self):
        pass


class Watched:
    """A host, and all that it writes."""

    def __init__(self, room, plan, ending, node_words=()):
        self.room = room
        self.ending = ending
        self.disk = Disk()
        self.faults = Faults()
        self.left = []
        """The messages that left the machine."""
        self.answered = []
        places = Places("A", {it: f"{it}:1" for it in NODES}, NODES)
        self.host = Host(room, plan, places, NoCarrier(self))
        self.write_group = self.host.record.write
        self.host.record.write = self.group
        for node in self.host.nodes.values():
            if node_words:
                node.words = [*node_words, *node.words[1:]]
            node.write = lambda node=node, write=node.write: self.lines(node, write)

    def group(self, content, steps):
        self.ending.write()
        self.write_group(content, steps)
        self.disk.synced(content, steps)

    def lines(self, node, write):
        try:
            self.ending.write()
        except Ended:
            node.ready_lines = []
            return
        given, unsaid = self.disk.given[node.name], self.disk.unsaid[node.name]
        for text in node.ready_lines:
            if word(text) not in QUESTIONS:
                on_disk, stores = given.popleft() if given else (None, True)
                self.faults.see(on_disk == text, "a node has a line that is not on the disk", node.name, text)
                unsaid.append(stores)
        self.faults.see(sum(unsaid) <= 1, "two unanswered lines may store", node.name, list(unsaid))
        write()

    def leave(self, lines):
        for line in lines:
            self.faults.see(line[3] < self.disk.steps, "a message left before its step was on the disk", line)
        self.left += lines

    async def sign(self, number):
        """Signs at the door, as a client that asks again."""
        while True:
            try:
                text, _ = await self.host.desk.sign(imprint(number))
                self.ending.write()
                self.answered.append(text)
                return
            except (Busy, Minority, NotSigned):
                await asyncio.sleep(0.1)

    async def life(self, number, is_power):
        """Runs the host until a request is signed, or until it has ended: its nodes with it, or by the end of their input."""
        running = asyncio.create_task(self.begin_and_sign(number))
        ended = [running]
        try:
            while not running.done() and not self.ending.over:
                ended = [running, *self.host.tasks]
                await asyncio.wait(ended, timeout=0.02, return_when=asyncio.FIRST_COMPLETED)
                if any(it.done() for it in ended[1:]):
                    break
        finally:
            if not running.done():
                running.cancel()
                self.end(is_power)
            await asyncio.gather(running, return_exceptions=True)
            with contextlib.suppress(Ended):
                await self.host.stop()
        for it in ended:
            if it.done() and not it.cancelled() and it.exception() and not isinstance(it.exception(), Ended):
                raise it.exception()

    async def begin_and_sign(self, number):
        await self.host.begin()
        self.ending.counts = True
        await self.sign(number)

    def end(self, is_power):
        """Ends the host."""
        self.ending.counts = self.ending.over = True
        self.host.record.failed = True
        for node in self.host.nodes.values():
            node.stopping = True
            if is_power:
                node.kill()


class OrderTest(unittest.TestCase):
    def setUp(self):
        # what is on the disk is counted here, and a disk that others use would only make it slow
        self.room = tempfile.TemporaryDirectory(prefix="ksi-test-", dir=MEMORY if os.path.isdir(MEMORY) else None)
        self.addCleanup(self.room.cleanup)
        self.serve = [sys.executable, "-S", "-E", os.path.join(stands.HERE, "ending_node.py")]
        self.runs = 0
        # the other machine sends nothing, so no start need wait for it
        for it in (mock.patch.dict(os.environ, KSI_BIN=stands.make(os.path.join(self.room.name, "bin"))), mock.patch.object(hosts, "OTHERS_SECONDS", 0.0)):
            it.start()
            self.addCleanup(it.stop)

    async def run_of(self, number, is_power, node=None):
        """A machine that ends before this write, of its host or of a node, and starts again. Returns whether it came to that write."""
        room = os.path.join(self.room.name, f"{node}-{number}-{is_power}")
        os.mkdir(room)
        plan, mark = Plan(3, int(time.time()), ("c0",)), os.path.join(room, "ended")
        with open(os.path.join(room, "plan"), "w", encoding="ascii") as file:
            file.write(plan.text())
        first = Watched(room, plan, Ending(None if node else number), [*self.serve, node or "none", str(number), mark])
        watching = asyncio.create_task(self.end_with_node(first, mark)) if node and is_power else None
        await asyncio.wait_for(first.life(1, is_power), PLAY_SECONDS)
        if watching:
            watching.cancel()
        came = first.ending.over or os.path.exists(mark)
        second = Watched(room, plan, Ending(), [*self.serve, "none", "0", mark])
        await asyncio.wait_for(second.life(2, False), PLAY_SECONDS)
        self.see(room, first, second)
        self.runs += 1
        return came

    async def end_with_node(self, watched, mark):
        """The machine ends with one of its nodes."""
        while not os.path.exists(mark):
            await asyncio.sleep(0.001)
        watched.ending.over = True

    def see(self, room, *lives):
        """The record is of one history, and has all that left the machine."""
        for it in lives:
            self.assertEqual(it.faults, [], room)
        run = list(told(os.path.join(room, "record")))
        steps = [it for it in run if isinstance(it, Step)]
        model = self.agreed(os.path.join(room, "plan"), run)
        for _, to, text, step, place in (it for life in lives for it in life.left):
            self.assertIsNotNone(steps[step].block, room)
            self.assertEqual(model.sent[step][place], f"send {to} {text}", room)
        signed = {it.text for it in run if isinstance(it, Signed)}
        self.assertEqual([it for life in lives for it in life.answered if it not in signed], [], room)
        self.assertEqual(len(lives[1].answered), 1, room)

    def agreed(self, plan, run):
        """Compares the record with fresh stand-ins. Returns them."""
        rows = iter("".join(retrace.entries(run)).splitlines()[1:])
        with tempfile.TemporaryDirectory() as room:
            model = Retrace(plan, None, room)
            try:
                for row in rows:
                    model.take(row.split(" "), lambda: list(iter(lambda: next(rows), ".")))
            finally:
                model.end()
        return model

    def play(self, is_power, node=None, least=1):
        """Machines that end before each write there is."""
        async def go():
            number, is_reached = 1, True
            while is_reached and number < MOST_WRITES:
                came = await asyncio.gather(*(self.run_of(number + it, is_power, node) for it in range(AT_ONCE)))
                number, is_reached = number + AT_ONCE, all(came)
        asyncio.run(go())
        self.assertGreaterEqual(self.runs, least)

    def test_a_host_that_is_killed_before_each_write(self):
        """Its nodes go on with the lines that they have, and then find the end of their input."""
        self.play(False, least=25)

    def test_a_power_cut_before_each_write_of_the_host(self):
        self.play(True, least=25)

    def test_a_core_that_is_killed_before_each_write(self):
        self.play(False, "c0", least=16)

    def test_a_power_cut_before_each_write_of_a_core(self):
        self.play(True, "c0", least=16)

    def test_an_aggregator_and_another_core_that_are_killed_before_each_write(self):
        self.play(False, "a0", least=5)
        self.play(False, "c1", least=5)

    def test_a_power_cut_before_each_write_of_an_aggregator(self):
        self.play(True, "a0", least=5)


class StoringTest(unittest.TestCase):
    def test_votes_store_only_from_a_majority_on(self):
        votes, lines = Votes(), [f"synod {core} 7 voted 16" for core in (1, 2, 0, 0)]
        told_of = []
        for line in lines:
            told_of.append(votes.would_store(line, 5))
            votes.count(line)
        self.assertEqual(told_of, [False, False, True, True])
        self.assertFalse(votes.would_store("synod 1 8 voted 16", 5))
        self.assertTrue(votes.would_store("synod 1 8 voted 16", 1))
        self.assertEqual([votes.would_store(f"synod 1 8 {it}", 5) for it in ("next 16", "last 16", "begin 16 aa", "success aa")], [True, False, True, True])

    def test_votes_of_seconds_that_are_not_counted_any_more_may_store(self):
        votes = Votes()
        for second in range(100, 200):
            votes.count(f"synod 1 {second} voted 16")
        self.assertEqual(len(votes.counts), 64)
        self.assertEqual([votes.would_store(f"synod 2 {second} voted 16", 9) for second in (100, 135, 136, 199, 200)], [True, True, False, False, False])
        again = Votes.of(json.loads(json.dumps(votes.told())))
        self.assertEqual((again.first, again.counts), (votes.first, votes.counts))
        self.assertTrue(Votes.of(None).would_store("synod 2 199 voted 16", 9))

    def test_a_record_that_is_read_again_knows_which_votes_may_store(self):
        """Also one whose last file is from before records had the plan."""
        votes = [["given", "c0", f"synod {core} 7 voted 16", None] for core in (0, 1, 2)]
        old = State().begins()
        old[1].pop("plan")
        plan = Plan(3, 5, ("c0",)).text()

        async def played(folder):
            for _ in range(2):
                record = Record(folder, plan)
                if not record.node("c0").unanswered:
                    for entry in (["ready", "c0", 0, 0], *votes):
                        record.add(entry)
                self.assertEqual([it.stores for it in record.node("c0").unanswered], [False, True, True])
                await record.close()
        with tempfile.TemporaryDirectory() as room:
            for name, lines in (("new", []), ("old", [old]), ("torn", [old, ["ready", "c0", 0, 0]])):
                path = os.path.join(room, name, "00000001")
                os.mkdir(os.path.dirname(path))
                if lines:
                    with open(path, "w", encoding="ascii") as file:
                        file.write("".join(json.dumps(it) + "\n" for it in lines) + '["giv')
                asyncio.run(played(os.path.dirname(path)))

    def test_which_lines_happened(self):
        for stores, found, happened in (([], 3, 0), ([False], 3, 0), ([False, True, False], 3, 0), ([False, True, False], 4, 2), ([True, True], 4, 1), ([True], 7, 0)):
            self.assertEqual(count_happened("c0", stores, [3, 7], found), happened, stores)
        for stores, found in (([False], 4), ([True], 5), ([True], 2), ([], 4)):
            with self.assertRaises(LostFacts):
                count_happened("c0", stores, [3], found)


if __name__ == "__main__":
    unittest.main()
