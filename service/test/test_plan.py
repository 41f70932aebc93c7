"""The plan's file: one that is damaged, or gone, is named, and no other one is made over a folder that had one."""
import os
import tempfile
import unittest

from ksi_service import files
from ksi_service.hours import Broken
from ksi_service.plan import Plan
from ksi_service.service import plan_of


class PlanTest(unittest.TestCase):
    def setUp(self):
        self.room = tempfile.TemporaryDirectory()
        self.addCleanup(self.room.cleanup)
        self.path = os.path.join(self.room.name, "plan")

    def test_a_plan_is_read_as_it_was_made(self):
        for plan in (Plan(3, 1_700_000_000, ("c0", "c1", "a0")), Plan(1, 0, ("c0",) * 500)):
            files.write(self.path, plan.text().encode())
            self.assertEqual(Plan.read(self.path), plan)

    def test_a_file_that_is_no_plan_is_left_and_named(self):
        head = b"ksi-schedule 1\ncores 3\nstart 5\n"
        for content in (b"", b"junk", b"\xff", b"cores x\n", head, head + b"aggregator 0\n", head + b"aggregator 0 parent c7\n",
                        head + b"aggregator 0 parent 2\n", head + b"aggregator 0 parent a0\n"):
            files.write(self.path, content)
            for read in (lambda: Plan.read(self.path), lambda: plan_of(self.room.name)):
                with self.assertRaisesRegex(Broken, "plan is not the plan that was made"):
                    read()
            self.assertEqual(files.content_of(self.path), content)

    def test_no_plan_is_made_over_a_record(self):
        os.mkdir(os.path.join(self.room.name, "record"))
        with self.assertRaisesRegex(Broken, "plan is not there"):
            plan_of(self.room.name)
        self.assertFalse(os.path.exists(self.path))


if __name__ == "__main__":
    unittest.main()
