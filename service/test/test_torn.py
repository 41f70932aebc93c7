"""What a power cut leaves of a node's file: a proved node finds every fact that was acknowledged, and at most the one in work beside."""
import os
import random
import tempfile
import unittest

import stands
from ksi_chaos.torn import gate_behind, image_of, tear, torn_write
from ksi_service.files import lock_of
from ksi_service.plan import Plan
from ksi_service.proved import Stopped

MISSING = stands.missing(stands.NODE)
FACT = b"\x01\x00\x00\x00\x03abc"
FILE = b"KSINODE1" + bytes(10) + FACT + FACT + b"\x00"


class TornTest(unittest.TestCase):
    def setUp(self):
        self.room = tempfile.TemporaryDirectory()
        self.addCleanup(self.room.cleanup)
        self.dice = random.Random(9)

    def test_what_was_acknowledged_stays(self):
        self.assertEqual([gate_behind(FILE, facts) for facts in range(3)], [18, 26, 34])
        for _ in range(200):
            image = image_of(FILE, 26, self.dice)
            self.assertEqual((image[:26], image[27:]), (FILE[:26], FILE[27:]))
            self.assertTrue(image_of(FILE, 34, self.dice).startswith(FILE))

    def test_what_is_left_of_a_write(self):
        content = bytes(range(1, 256)) * 9
        for _ in range(200):
            left = torn_write(content, 700, self.dice)
            self.assertTrue(all(a in (b, 0) for a, b in zip(left, content)))
            self.assertEqual({at + 700 >> 9 for at, it in enumerate(left) if not it} & {at + 700 >> 9 for at, it in enumerate(left) if it}, set())

    def test_a_file_that_a_process_has_is_not_torn(self):
        path = os.path.join(self.room.name, "facts")
        with open(path, "wb") as file:
            file.write(FILE)
        with lock_of(path, "held"):
            self.assertFalse(tear(path, 1, self.dice))
        self.assertTrue(tear(path, 1, self.dice))

    @unittest.skipIf(MISSING, MISSING)
    def test_the_proved_nodes_find_what_was_acknowledged(self):
        folder, ones = self.room.name, "1" * 64
        with open(os.path.join(folder, "plan"), "w", encoding="ascii") as file:
            file.write(Plan(1, 5, ("c0", "a0")).text())
        lines = {"c0": lambda second: [f"submission 0 {second} {ones} 3", f"seal {second}", f"ballot {second}", f"synod 0 {second} next 16"],
                 "a0": lambda second: [f"request {second} {second} {ones}", f"submission 1 {second} {ones} 2", f"close {second}"]}
        for name, lines_of in lines.items():
            path, told, found = os.path.join(folder, f"{name}.facts"), 0, set()
            open(path, "ab").close()
            for second in range(5, 45):
                with Stopped(folder, name) as node:
                    found.add(node.facts - told)
                    told = node.facts + sum("stored" in node.ask(line) for line in lines_of(second))
                acknowledged = self.dice.choice([told, told - 1])
                self.assertTrue(tear(path, acknowledged, self.dice))
                told = acknowledged
            self.assertEqual(found, {0, 1}, name)


if __name__ == "__main__":
    unittest.main()
