"""Aggregators that forget rounds of a stopped service. The run stays the proved world's."""
import concurrent.futures
import os
import time
import unittest
from unittest import mock

import stands
from ksi_service import check, cuts, files, forget
from ksi_service.folders import Folders
from ksi_service.record import NodeState, State, last_state
from ksi_service.storing import LostFacts
from recorded import most_left
from served import Served, imprint

WHY = stands.missing("ksi", "ksi_retrace", stands.NODE)


def last_count(folder):
    """How many facts the record has of all nodes."""
    return sum(node.facts for node in last_state(os.path.join(folder, "record"))[0].nodes.values())


def removes_once():
    """What removes the first file that it is given, and then none: what runs behind a crash has no effect."""
    steps = iter([files.remove])
    return lambda path: next(steps, lambda path: None)(path)


class StateTest(unittest.TestCase):
    def test_both_counts_are_right_until_the_node_tells_which_it_found(self):
        state = State()
        for entry in (["ready", "a0", 0, 0], ["given", "a0", "close 5", None], ["said", "a0", ["answer done", "stored"]],
                      ["given", "a0", "close 6", None], ["forgot", "a0", 9, 4]):
            self.assertLessEqual(len(state.take(entry)), 1)
        again = State()
        again.take(state.begins())
        for it in (state, again):
            node = it.node("a0")
            self.assertEqual([count for count in range(12) if node.may_have(count)], [4, 9])
            self.assertEqual((len(node.unanswered), it.steps), (0, 1))
            it.take(["ready", "a0", 9, 0])
            self.assertEqual([count for count in range(12) if node.may_have(count)], [9])

    def test_a_cut_of_an_older_host_is_read(self):
        state = State()
        state.take(["begins", {"steps": 3, "second": 7, "nodes": [["a0", 2, []]], "seen": {}, "sent": {}}])
        self.assertEqual([count for count in range(5) if state.node("a0").may_have(count)], [2])


@unittest.skipIf(WHY, WHY)
class ForgetTest(Served):
    def sign(self, numbers):
        with concurrent.futures.ThreadPoolExecutor(20) as pool:
            self.assertEqual({status for status, _ in pool.map(lambda number: self.ask("/sign", imprint(number)), numbers)}, {200})

    def sizes(self):
        return [os.path.getsize(os.path.join(self.folder, f"a{number}.facts")) for number in range(2)]

    def facts(self):
        return [last_state(os.path.join(self.folder, "record"))[0].node(f"a{number}").facts for number in range(2)]

    def forget(self):
        with mock.patch.dict(os.environ, self.outside):
            forget.forget(self.folder, 0, lambda text: None)

    def rest(self):
        """Stops behind one more second, so that each second with requests is over."""
        last = self.status()["last_second"]
        while self.status()["last_second"] <= last:
            time.sleep(0.05)
        self.command("stop")

    def test_a_folder_that_forgets_goes_on(self):
        self.start()
        self.sign(range(90))
        self.assertIn("another service runs", self.command("forget", self.folder, status=1))
        self.rest()
        before, facts = self.sizes(), self.facts()
        self.assertIn("nothing to forget", self.command("forget", self.folder))
        with mock.patch.object(forget.Record, "node", lambda *_: NodeState(1)):
            self.assertRaises(LostFacts, self.forget)
        self.assertEqual((self.sizes(), self.facts()), (before, facts))
        self.assertIn(" keeps ", self.command("forget", self.folder, "--before", "0"))
        most = [most_left(os.path.join(self.folder, "record"), f"a{number}") for number in range(2)]
        self.assertTrue(all(left <= it for left, it in zip(self.sizes(), most)), (before, self.sizes(), most))
        self.assertLess(sum(self.facts()), sum(facts))
        self.assertNotIn("a0.forgetting", os.listdir(self.folder))
        self.assertEqual(check.facts_there(Folders(self.folder)), last_count(self.folder))
        self.start("--cut-every", "1")
        self.sign(range(90, 120))
        self.kill()
        self.start()
        self.sign(range(120, 130))
        self.rest()
        self.command("forget", self.folder, "--before", "0")
        found = self.checked()
        self.assertEqual((found.signatures, found.facts, found.extended, found.audited), (130, last_count(self.folder), 10, 10))

    def test_a_crash_at_any_place_leaves_a_folder_that_starts(self):
        """After the new file, after the entry, after the old file was kept, and after the new name."""
        class Crash(Exception):
            pass

        for at, (owner, name) in enumerate([(forget.Record, "add"), (cuts, "keep"), (files, "keep"), (files, "sync_folder")]):
            self.start("--cores", "1")
            self.sign(range(at * 10, at * 10 + 10))
            self.rest()
            before = self.sizes()
            with mock.patch.object(cuts, "keep"), mock.patch.object(owner, name, side_effect=Crash), mock.patch.object(files, "remove", removes_once()):
                self.assertRaises(Crash, self.forget)
            self.assertEqual(self.sizes()[0] < before[0], at == 3)
            self.assertEqual(os.path.exists(os.path.join(self.folder, "a0.forgetting")), at < 3)
            self.assertEqual(check.facts_there(Folders(self.folder)), last_count(self.folder))
        self.start("--cores", "1")
        self.sign(range(40, 50))
        self.rest()
        before = self.sizes()
        self.forget()
        self.assertTrue(all(new < old for new, old in zip(self.sizes(), before)), (before, self.sizes()))
        self.assertEqual(self.checked().signatures, 50)


if __name__ == "__main__":
    unittest.main()
