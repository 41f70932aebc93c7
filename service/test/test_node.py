"""Nodes that are not proved ones, and die on demand: what the record tells after a kill, and after one of the host."""
import asyncio
import os
import signal
import sys
import tempfile
import unittest
from unittest import mock

from stands import logged
from ksi_service.lines import Down
from ksi_service.node import GivenUp, Node
from ksi_service import node as nodes
from ksi_service.record import Record, told
from ksi_service.storing import LostFacts

FAKE = os.path.join(os.path.dirname(os.path.abspath(__file__)), "fake_node.py")


class NodeTest(unittest.TestCase):
    def setUp(self):
        self.room = tempfile.TemporaryDirectory()
        self.addCleanup(self.room.cleanup)
        self.path = os.path.join(self.room.name, "record")
        self.facts = os.path.join(self.room.name, "facts")
        self.log = logged(self, "ksi_service.node")

    def play(self, work, waits=True):
        """Runs a node, and a play with it, over the folder's record."""
        async def go():
            record, steps = Record(self.path), []
            node = Node("c0", [sys.executable, FAKE, self.facts], record, lambda step, block: steps.append((step, block)))
            tasks = [asyncio.create_task(record.run()), asyncio.create_task(node.run())]
            while not node.alive:
                for task in tasks:
                    if task.done():
                        task.result()
                await asyncio.sleep(0.005)
            said = await work(node)
            node.end()
            await asyncio.wait(tasks[1:], timeout=5)
            tasks[0].cancel()
            await record.close()
            return said, steps
        return asyncio.run(go())

    def recorded(self, text):
        os.makedirs(self.path)
        with open(os.path.join(self.path, "00000001"), "w", encoding="ascii") as file:
            file.write(text)

    def told(self):
        return [(it.line, it.block) for it in told(self.path)]

    def test_answers_come_in_order_and_are_on_the_record(self):
        async def work(node):
            return await asyncio.gather(node.ask("tell 5"), node.ask("seal 5"), node.ask("bad"))
        said, steps = self.play(work)
        self.assertEqual(said, [["answer done"], ["answer done", "stored", "send c0 synod 0 5 success aa"], ["refused word"]])
        self.assertEqual([step for step, _ in steps], [0, 1])
        self.assertEqual([line for line, _ in self.told()], ["tell 5", "seal 5"])

    def test_a_line_that_it_may_not_take_is_neither_given_nor_recorded(self):
        """A single one, one of many requests, and all of them."""
        async def work(node):
            node.may_take = lambda text: not text.endswith("ff")
            asks = [node.ask_all(f"request {number} 5 {'ff' if number in (3, 7) else '00'}")[0] for number in range(9)]
            asks += node.ask_all("tell ff") + node.ask_all("close 5")
            asks += [node.ask_all(f"request {number} 6 ff")[0] for number in (10, 11)] + node.ask_all("close 6")
            return await asyncio.gather(*asks, return_exceptions=True), node.withheld, node.unsynced, len(node.flying)
        (said, *counts), _ = self.play(work)
        self.assertEqual([number for number, it in enumerate(said) if isinstance(it, Down)], [3, 7, 9, 11, 12])
        self.assertEqual([it for it in said if not isinstance(it, Down)], [["answer done"]] * 9)
        self.assertEqual(counts, [5, 0, 0])
        self.assertEqual([line for line, _ in self.told()], [*(f"request {number} 5 00" for number in (0, 1, 2, 4, 5, 6, 8)), "close 5", "close 6"])

    def test_requests_are_given_together_and_before_their_round_is_closed(self):
        async def work(node):
            before = node.record.syncs
            asks = [node.ask_all(f"request {number} 5 00")[0] for number in range(20)]
            self.assertEqual(len(node.flying), 0)
            asks += node.ask_all("close 5", "tell 6")
            said = await asyncio.gather(*asks)
            return said, node.record.syncs - before
        (said, syncs), _ = self.play(work)
        self.assertEqual(said, [["answer done"]] * 22)
        self.assertEqual([line for line, _ in self.told()], [*(f"request {number} 5 00" for number in range(20)), "close 5", "tell 6"])
        self.assertLess(syncs, 12)

    def test_many_requests_do_not_wait(self):
        async def work(node):
            asks = [node.ask_all(f"request {number} 5 00")[0] for number in range(nodes.MANY_REQUESTS)]
            self.assertEqual((len(node.flying), len(node.requests)), (nodes.MANY_REQUESTS, 0))
            await asyncio.gather(*asks)
        self.play(work)

    def test_requests_of_a_node_that_ends_are_lost(self):
        async def work(node):
            asked = node.ask_all("request 1 5 00")[0]
            node.kill()
            self.assertEqual([type(it) for it in await asyncio.gather(asked, return_exceptions=True)], [Down])
        self.play(work)

    def test_a_step_that_was_stored_and_never_said_is_on_the_record(self):
        async def work(node):
            asks = [node.ask("tell 5"), node.ask("ballot 5"), node.ask("tell 6")]
            said = await asyncio.gather(*asks, return_exceptions=True)
            while not node.alive or node.starts < 2:
                await asyncio.sleep(0.005)
            return said, await node.ask("tell 7")
        (said, after), _ = self.play(work)
        self.assertIsInstance(said[1], Down)
        self.assertEqual(after, ["answer done"])
        self.assertEqual(self.told()[-3:], [("ballot 5", None), (None, None), ("tell 7", ["answer done"])])

    def test_a_node_that_is_silent_is_killed_and_one_that_is_asked_nothing_is_not(self):
        async def work(node):
            await asyncio.sleep(1)
            before = node.starts, await node.ask("tell 5")
            said = await asyncio.wait_for(asyncio.gather(node.ask("hang"), node.ask("seal 6"), return_exceptions=True), 10)
            while not node.alive:
                await asyncio.sleep(0.005)
            return before, [type(it) for it in said], await node.ask("tell 7")
        with mock.patch.object(nodes, "SILENT_SECONDS", 0.3):
            self.assertEqual(self.play(work)[0], ((1, ["answer done"]), [Down, Down], ["answer done"]))
        self.assertEqual(self.log, ["c0 is silent, and is killed", "c0 was killed by signal 9, and is started again"])

    def test_a_node_that_is_to_rest_and_does_not_end_is_killed(self):
        async def work(node):
            async def between():
                return "done"
            node.process.send_signal(signal.SIGSTOP)
            done = await asyncio.wait_for(node.rest(between), 10)
            while not node.alive:
                await asyncio.sleep(0.005)
            return done, await node.ask("tell 7")
        with mock.patch.object(nodes, "SILENT_SECONDS", 0.3):
            self.assertEqual(self.play(work)[0], ("done", ["answer done"]))
        self.assertEqual(self.log, ["c0 is silent, and is killed"])

    def test_a_step_that_was_not_stored_left_no_trace(self):
        async def work(node):
            said = await asyncio.gather(node.ask("die"), node.ask("seal 6"), return_exceptions=True)
            while not node.alive or node.starts < 2:
                await asyncio.sleep(0.005)
            return said
        said, _ = self.play(work)
        self.assertTrue(all(isinstance(it, Down) for it in said))
        self.assertEqual(self.told(), [(None, None)])
        self.assertEqual(self.log, ["c0 ended with status 1, and is started again"])

    def test_a_host_that_was_killed_finds_what_its_node_did(self):
        self.recorded('["ready","c0",0,0]\n["given","c0","tell 5",null]\n["given","c0","seal 5",null]\n')
        with open(self.facts, "w", encoding="ascii") as file:
            file.write("x")

        async def work(node):
            return await node.ask("tell 6")
        self.play(work)
        self.assertEqual(self.told(), [("tell 5", None), ("seal 5", None), (None, None), ("tell 6", ["answer done"])])

    def test_a_node_that_does_not_start_is_given_up(self):
        self.facts = os.path.join(self.room.name, "absent", "facts")

        async def work(node):
            return None
        with self.assertRaises(GivenUp), mock.patch.object(nodes, "FIRST_PAUSE", 0.001):
            self.play(work)

    def test_a_file_that_the_record_does_not_know_stops_the_host(self):
        with open(self.facts, "w", encoding="ascii") as file:
            file.write("x")

        async def work(node):
            return None
        with self.assertRaises(LostFacts):
            self.play(work)

    def test_half_a_line_is_no_line(self):
        async def work(node):
            await node.ask("seal 5")
            node.cut()
            while not node.alive or node.starts < 2:
                await asyncio.sleep(0.005)
            return await node.ask("tell 7")
        self.assertEqual(self.play(work)[0], ["answer done"])
        self.assertEqual([line for line, _ in self.told()], ["seal 5", None, "tell 7"])

    def test_a_node_rests_behind_what_it_was_given(self):
        async def work(node):
            asks = [asyncio.create_task(node.ask(f"seal {second}")) for second in range(5)]
            await asyncio.sleep(0)
            seen, process = [], node.process

            async def between():
                seen.append((process.returncode, node.alive, len(node.flying)))
                return os.path.getsize(self.facts)
            resting = asyncio.create_task(node.rest(between))
            await asyncio.sleep(0)
            with self.assertRaises(Down):
                await node.rest(between)
            with self.assertRaises(Down):
                await node.ask("tell 6")
            result = await resting
            while not node.alive:
                await asyncio.sleep(0.002)
            said = await asyncio.gather(*asks, return_exceptions=True)
            return seen, result, [isinstance(it, Down) for it in said], await node.ask("tell 7"), node.restarts
        (seen, result, down, after, restarts), _ = self.play(work)
        self.assertEqual((seen, after, restarts), ([(0, False, 0)], ["answer done"], 1))
        # what was on its way to the process came to its end, and what waited behind it was told so
        self.assertEqual((down.count(False), down), (result, sorted(down)))
        self.assertEqual([line for line, _ in self.told()], [*(f"seal {second}" for second in range(result)), None, "tell 7"])
        self.assertEqual(self.log, [])

    def test_a_node_goes_on_behind_work_that_fails(self):
        async def work(node):
            async def between():
                raise OSError(28, "No space left on device")
            with self.assertRaises(OSError):
                await node.rest(between)
            node.kill()
            while not node.alive:
                await asyncio.sleep(0.002)
            return await node.ask("seal 5")
        self.assertEqual(self.play(work)[0][0], "answer done")

    def test_a_node_that_is_killed_while_it_is_to_rest_rests(self):
        async def work(node):
            asked = asyncio.create_task(node.ask("ballot 5"))
            await asyncio.sleep(0)

            async def between():
                return node.record.node("c0").may_have(os.path.getsize(self.facts))
            result = await node.rest(between)
            self.assertEqual([type(it) for it in await asyncio.gather(asked, return_exceptions=True)], [Down])
            while not node.alive:
                await asyncio.sleep(0.002)
            return result, await node.ask("tell 7")
        # it stored a fact and did not tell: who counts facts is to leave the file alone
        self.assertEqual(self.play(work)[0], (False, ["answer done"]))
        self.assertEqual(self.told(), [("ballot 5", None), (None, None), ("tell 7", ["answer done"])])

    def test_a_node_that_is_to_rest_ends(self):
        async def work(node):
            async def between():
                await asyncio.sleep(100)
            resting = asyncio.create_task(node.rest(between))
            await asyncio.sleep(0)
            resting.cancel()
        self.play(work)
        self.assertEqual(self.told(), [])

    def test_a_lost_fact_stops_the_host(self):
        self.recorded('["ready","c0",0,0]\n["given","c0","seal 5",null]\n["said","c0",["answer done","stored"]]\n')

        async def work(node):
            return None
        with self.assertRaises(LostFacts):
            self.play(work)


if __name__ == "__main__":
    unittest.main()
