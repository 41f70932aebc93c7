"""Nodes that are slow, or cannot be used: the others go on without them."""
import asyncio
import contextlib
import os
import sys
import tempfile
import time
import unittest
from unittest import mock

import stands
from hosted import Hosted, imprint, sign_all
from ksi_service import host as hosts
from ksi_service import node as nodes
from ksi_service.host import Host
from ksi_service.lines import Down
from ksi_service.node import GivenUp
from ksi_service.plan import Plan
from ksi_service.record import Record, Step, told
from test_node import FAKE

ALONE = "nodes count as late by time"

SLOW = [sys.executable, os.path.join(stands.HERE, "slow_node.py")]


@contextlib.contextmanager
def looked_often():
    """A node is late within a second."""
    with mock.patch.object(nodes, "LOOK_SECONDS", 0.1), mock.patch.object(nodes, "FIRST_PAUSE", 0.001):
        yield


async def started_again(node, *words):
    """Has a node's process started again by these words."""
    starts, node.words = node.starts, [*words, *node.words]
    node.kill()
    while node.starts == starts:
        await asyncio.sleep(0.01)


class SlowTest(Hosted):
    def signed_beside(self, name):
        """How many requests are signed beside a node that takes a minute for each line."""
        async def work(host):
            await started_again(host.nodes[name], *SLOW, "60")
            asks = []
            for number in range(25):
                asks.append(asyncio.create_task(host.desk.sign(imprint(number))))
                await asyncio.sleep(0.2)
            return len(await asyncio.gather(*asks))
        with looked_often():
            return self.play(work)

    def test_a_leader_that_is_slow_holds_up_nothing_for_long(self):
        self.assertEqual(self.signed_beside("c0"), 25)

    def test_a_core_that_is_slow_and_does_not_lead_holds_up_nothing(self):
        self.assertEqual(self.signed_beside("c2"), 25)

    def test_an_aggregator_that_is_slow_holds_up_nothing_for_long(self):
        self.assertEqual(self.signed_beside("a0"), 25)


class LateTest(unittest.TestCase):
    def played(self, may_lack):
        """What a node answers that takes a second for a line, whether it is up then, and its record."""
        async def go(room):
            record = Record(os.path.join(room, "record"))
            node = nodes.Node("c0", [*SLOW, "1", sys.executable, FAKE, os.path.join(room, "facts")], record, lambda *_: None, may_lack=may_lack)
            tasks = [asyncio.create_task(record.run()), asyncio.create_task(node.run())]
            while not node.alive:
                await asyncio.sleep(0.01)
            asks = [asyncio.create_task(node.ask(text)) for text in ("seal 5", "seal 6")]
            said = await asyncio.gather(asks[0], return_exceptions=True)
            up, last = [node.alive], (await asyncio.gather(node.ask("tell 7"), return_exceptions=True))[0]
            while not node.alive:
                await asyncio.sleep(0.01)
            up.append(node.alive)
            await asyncio.gather(*asks, return_exceptions=True)
            node.end()
            await asyncio.wait(tasks[1:], timeout=5)
            tasks[0].cancel()
            await record.close()
            return [type(it) for it in (*said, last)], up, [it.line for it in told(os.path.join(room, "record")) if isinstance(it, Step)]
        with tempfile.TemporaryDirectory() as room, looked_often():
            return asyncio.run(go(room))

    def test_a_node_that_is_late_is_left_alone_until_it_has_answered(self):
        self.assertEqual(self.played(lambda: True), ([Down, Down], [False, True], ["seal 5"]))

    def test_a_node_that_the_others_need_is_waited_for(self):
        self.assertEqual(self.played(lambda: False), ([list, list], [True, True], ["seal 5", "seal 6", "tell 7"]))


class BusyTest(unittest.TestCase):
    def answered(self, lines, *words):
        """How many lines a node answers that are given to it at once, and that the others can go on without."""
        async def go(room):
            record = Record(os.path.join(room, "record"))
            node = nodes.Node("c0", [*words, sys.executable, FAKE, os.path.join(room, "facts")], record, lambda *_: None)
            tasks = [asyncio.create_task(record.run()), asyncio.create_task(node.run())]
            while not node.alive:
                await asyncio.sleep(0.01)
            said = await asyncio.gather(*map(node.ask, lines), return_exceptions=True)
            node.end()
            await asyncio.wait(tasks[1:], timeout=5)
            tasks[0].cancel()
            await record.close()
            return sum(isinstance(it, list) for it in said)
        with tempfile.TemporaryDirectory() as room, looked_often():
            return asyncio.run(go(room))

    def test_a_node_to_which_much_is_given_is_not_late(self):
        """Its lines would be given to another one, which would be late in its place, and so on."""
        with mock.patch.object(nodes, "MANY_ANSWERS", 2):
            self.assertEqual(self.answered([f"tell {number}" for number in range(1500)], *SLOW, "0.001"), 1500)

    def test_a_node_is_not_late_for_a_record_that_is_slow(self):
        write = Record.write

        def slowly(record, *words):
            time.sleep(0.2)
            write(record, *words)
        with mock.patch.object(Record, "write", slowly):
            self.assertEqual(self.answered([f"seal {number}" for number in range(8)]), 8)


class StartTest(Hosted):
    def started(self, *names):
        """What a start logs two of whose nodes do not get ready, and whether it begins."""
        plan = Plan(3, 5, ("c0", "c2"))

        async def go():
            host = Host(self.folder, plan)
            for name in names:
                host.nodes[name].words = ["/bin/sleep", "100"]
            await host.start()
            try:
                await asyncio.wait_for(host.ready(), 10)
                return True
            except asyncio.TimeoutError:
                return False
            finally:
                for node in host.nodes.values():
                    node.kill()
                await host.stop()
        with open(os.path.join(self.folder, "plan"), "w", encoding="ascii") as file:
            file.write(plan.text())
        said = stands.logged(self, "ksi_service.host")
        with mock.patch.object(hosts, "QUIET_START_SECONDS", 4), mock.patch.object(hosts, "PATIENT_SECONDS", 5):
            return asyncio.run(go()), said

    def test_a_start_that_lacks_a_majority_fails_before_it_is_ready(self):
        """Else the door would be open for a moment, and `start` would say so."""
        async def work(*_):
            self.fail("it is ready")
        real = Host.start

        def start(host, *words):
            for name in ("c1", "c2"):
                host.nodes[name].words = ["/bin/false"]
            return real(host, *words)
        with mock.patch.object(Host, "start", start), mock.patch.object(nodes, "FIRST_PAUSE", 0.01), self.assertRaises(GivenUp):
            self.play(work)

    def test_a_start_says_which_nodes_it_waits_for(self):
        self.assertEqual(self.started("c1", "c2"), (False, ["waits for c1 c2 to start and to read their files"]))

    def test_a_start_waits_for_all_for_a_minute(self):
        self.assertEqual(self.started("c2", "a1"), (True, ["waits for c2 a1 to start and to read their files", "the service goes on without c2 a1 until they are ready"]))


class LeftOutTest(Hosted):
    def left_out(self, *names, aggregators="c0,c1,c1", cores=3):
        """Which cores respond once the processes of these nodes end whenever they are started, and which nodes are left out."""
        async def work(host):
            for name in names:
                host.nodes[name].words = ["/bin/false"]
                host.nodes[name].kill()
            while len(host.left_out) < len(names):
                await asyncio.sleep(0.01)
            await asyncio.wait_for(sign_all(host, range(20)), 120)
            return host.left_out
        with looked_often():
            return self.play(work, cores=cores, aggregators=aggregators)

    def test_a_node_that_does_not_start_is_left_out(self):
        self.assertEqual(self.left_out("c0"), {"c0": "c0 ended with status 1, 8 times in a row"})
        self.assertEqual(self.responders(), {"c1"})

    def test_aggregators_that_do_not_start_are_left_out(self):
        self.assertEqual(set(self.left_out("a0", "a1")), {"a0", "a1"})
        self.assertEqual(self.responders(), {"c1"})

    def test_a_node_whose_file_cannot_be_opened_is_left_out(self):
        """As on a disk with a fault. Its process is not started: it could read what the disk does not have."""
        real = nodes.files.drop_cache

        def drop_cache(path):
            if path.endswith("c0.facts"):
                raise OSError(5, "Input/output error", path)
            real(path)
        with mock.patch.object(nodes.files, "drop_cache", drop_cache):
            reasons = self.left_out("c0")
        self.assertEqual(self.responders(), {"c1"})
        self.assertRegex(reasons["c0"], "^c0 is not started: .*c0.facts: Input/output error, 8 times in a row$")

    def test_a_node_that_can_be_started_again_is_left_out_no_more(self):
        """As one whose file another process held, which a host that was killed had started, on a disk that hung."""
        async def work(host):
            node = host.nodes["c0"]
            words, node.words = node.words, ["/bin/false"]
            node.kill()
            while not host.left_out:
                await asyncio.sleep(0.01)
            await asyncio.sleep(0.5)
            node.words = words
            while not node.alive:
                await asyncio.sleep(0.01)
            self.assertEqual(host.left_out, {})
            await asyncio.gather(*[host.desk.sign(imprint(number), host.rounds.next + number) for number in range(2, 8)])
        said = stands.logged(self, "ksi_service.host")
        with looked_often(), mock.patch.object(hosts, "AGAIN_SECONDS", 0.1):
            self.play(work)
        self.assertEqual(self.responders(), {"c0", "c1"})
        self.assertEqual(said, ["c0 ended with status 1, 8 times in a row: the service goes on without c0, and tries it again each minute", "c0 is there again"])

    def test_nodes_that_the_service_needs_stop_it(self):
        for number, names in enumerate((["c0", "c2"], ["a0", "a1", "a2"], ["c1", "a0"])):
            self.fails_without(number, *names)
        self.fails_without("alone", "c0", cores=1, aggregators="1")

    def fails_without(self, folder, *names, **plan):
        self.folder = os.path.join(self.room.name, str(folder))
        os.mkdir(self.folder)
        with self.assertRaisesRegex(GivenUp, "8 times in a row"):
            self.left_out(*names, **plan)


if __name__ == "__main__":
    unittest.main()
