"""Flipped bits in files of nodes: a node refuses the file, or opens a beginning of it, which the host refuses."""
import os
import random
import tempfile
import types
import unittest
from unittest import mock

import stand_in_files
import stands
from ksi_chaos import flips
from ksi_service import files
from ksi_service.marks import Mark, end_of
from ksi_service.plan import Plan
from ksi_service.proved import Refused, Stopped
from ksi_service.record import NodeState
from ksi_service.storing import LostFacts
from ksi_service.watched import Watched, see

FACTS = 50
ONES = "1" * 64


class FileTest(unittest.TestCase):
    def setUp(self):
        room = tempfile.TemporaryDirectory()
        self.addCleanup(room.cleanup)
        self.folder = room.name
        self.plan = os.path.join(self.folder, "plan")
        files.write(self.plan, Plan(3, 5, ("c0", "c1")).text().encode())
        self.path = os.path.join(self.folder, "c0.facts")

    def refuses_each(self, found_in, state, content):
        """Each byte up to the end of the facts, with one of its bits flipped: refused by the node, or by the host. Returns how many were by each."""
        dice, counts = random.Random(4), {"by the node": 0, "by the host": 0}
        for at in range(state.mark.place):
            self.write(content[:at] + bytes([content[at] ^ 1 << dice.randrange(8)]) + content[at + 1:])
            counts[self.refused(found_in, state)] += 1
        self.write(content)
        self.assertEqual(self.seen(state, found_in()), state.mark)
        return counts

    def write(self, content):
        """Without a sync: thousands of files are written."""
        with open(self.path, "wb") as file:
            file.write(content)

    def seen(self, state, found):
        """The end of the facts of a file that the host takes for that of the record."""
        watched = Watched("c0", self.path)
        self.addCleanup(watched.end)
        return watched.begin(state, found)

    def refused(self, found_in, state):
        """Who refuses the file."""
        try:
            found = found_in()
        except (Refused, SystemExit):
            return "by the node"
        # too few facts, or other bytes
        if found >= state.facts:
            self.assertRaises(LostFacts, see, "c0", self.path, state, found)
        return "by the host"

    def found_in_stand_in(self):
        with mock.patch("builtins.print"):
            file = stand_in_files.opened(self.plan, "c0", self.path, True)
        file.file.close()
        return len(file.facts)

    def test_each_byte_of_a_stand_ins_file(self):
        file = stand_in_files.opened(self.plan, "c0", self.path, True)
        for number in range(FACTS):
            file.add(["held", str(5 + number), ONES])
        file.file.close()
        state = NodeState(FACTS, mark=end_of(self.path))
        counts = self.refuses_each(self.found_in_stand_in, state, files.content_of(self.path))
        self.assertGreater(counts["by the host"], FACTS * len(ONES))

    @unittest.skipIf(stands.missing(stands.NODE), stands.missing(stands.NODE))
    def test_each_byte_of_a_proved_nodes_file(self):
        # the node makes its file of an empty one
        self.write(b"")
        with Stopped(self.folder, "c0") as node:
            count = sum("stored" in node.ask(line) for second in range(5, 30) for line in (f"seal {second}", f"ballot {second}"))
        self.assertEqual(count, FACTS)
        counts = self.refuses_each(self.found_in_node, NodeState(FACTS, mark=end_of(self.path)), files.content_of(self.path))
        self.assertGreater(counts["by the host"], 0)

    def found_in_node(self):
        with Stopped(self.folder, "c0") as node:
            return node.facts

    def test_records_that_are_exchanged_and_files_that_are_cut(self):
        file, sizes = stand_in_files.opened(self.plan, "c0", self.path, True), []
        for number in range(FACTS):
            sizes.append(file.size)
            file.add(["held", str(5 + number), ONES])
        file.file.close()
        content, state = files.content_of(self.path), NodeState(FACTS, mark=end_of(self.path))
        one, two, three = sizes[7:10]
        for changed in (content[:one] + content[two:three] + content[one:two] + content[three:], *(content[:size] + b"\0" for size in sizes),
                        *(content[:size] + b"\0" + content[size + 1:] for size in sizes)):
            self.write(changed)
            self.refused(self.found_in_stand_in, state)


class FlipsTest(unittest.TestCase):
    def setUp(self):
        room = tempfile.TemporaryDirectory()
        self.addCleanup(room.cleanup)
        self.folder = os.path.join(room.name, "data")
        os.makedirs(self.folder)
        self.notes = []
        plan = Plan(3, 5, ("c0", "c1"))
        self.nodes = {name: types.SimpleNamespace(name=name, path=os.path.join(self.folder, f"{name}.facts"), on_ready=lambda name: None) for name in plan.names()}
        for node in self.nodes.values():
            files.write(node.path, b"content of it")
        host = types.SimpleNamespace(plan=plan, nodes=self.nodes, left_out={})
        self.flips = flips.Flips(host, types.SimpleNamespace(add=self.notes.append), random.Random(3))
        self.state = NodeState(3, mark=Mark("0" * 16, 9))

    def test_one_node_at_a_time_has_a_flipped_bit_until_its_next_start(self):
        c0, c1 = self.nodes["c0"], self.nodes["c1"]
        with mock.patch.object(flips, "SHARE", 1):
            self.assertFalse(self.flips.before_start(c0, NodeState(3)))
            self.assertTrue(self.flips.before_start(c0, self.state))
            self.assertNotEqual(files.content_of(c0.path), b"content of it")
            self.assertEqual(files.content_of(c0.path)[9:], b"t of it"[3:])
            self.assertFalse(self.flips.before_start(c1, self.state))
            self.assertFalse(self.flips.before_start(c0, self.state))
            self.assertEqual(files.content_of(c0.path), b"content of it")
            self.assertTrue(self.flips.before_start(c1, self.state))
        flips.put_all_back(self.folder)
        self.assertEqual([files.content_of(it.path) for it in self.nodes.values()], [b"content of it"] * 5)

    def test_a_node_that_is_ready_with_a_flipped_bit_is_noted(self):
        c0 = self.nodes["c0"]
        c0.on_ready("c0")
        with mock.patch.object(flips, "SHARE", 1):
            self.flips.before_start(c0, self.state)
        c0.on_ready("c0")
        self.assertEqual(self.notes, [flips.FLIPPED, flips.BELIEVED])


if __name__ == "__main__":
    unittest.main()
