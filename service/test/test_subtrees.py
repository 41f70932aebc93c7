"""Chains from calendar files by the kept roots of full files: compared with an independent writer (page/sample.py)."""
import os
import tempfile
import unittest
from unittest import mock

from calendared import PLAN, sample
from ksi_service import files, subtrees
from ksi_service.calendar_files import SECONDS, Calendar, PlanName
from ksi_service.elements import Parts
from ksi_service.subtrees import Subtrees

START = 2 * SECONDS + 100
COUNT = 3 * SECONDS
"""Three full files, of which the first one is short, and one that grows."""


def leaf(second):
    return sample.ZERO if second < START else sample.sha(b"%d" % second)


class SubtreesTest(unittest.TestCase):
    def setUp(self):
        room = tempfile.TemporaryDirectory(prefix="ksi-test-")
        self.addCleanup(room.cleanup)
        self.calendar = self.made(os.path.join(room.name, "calendar"), START, COUNT)
        self.subtrees = Subtrees(self.calendar)
        self.last = self.calendar.next - 1
        self.parts = Parts([], START + 7, "00" * 32, None)

    def made(self, folder, start, count):
        calendar = Calendar(folder, PlanName(PLAN[1:].hex(), start))
        calendar.add(b"".join(sample.sha(b"%d" % it) for it in range(start, start + count)))
        calendar.flush()
        return calendar

    def compare(self, kept, start, second, last):
        leaf_at = (lambda it: sample.ZERO if it < start else sample.sha(b"%d" % it))
        links = [("left" if is_left else "right", sibling) for is_left, sibling in sample.calendar_path(leaf_at, start, second, 0, last + 1)]
        self.assertEqual(kept.chain(second, last), (leaf_at(second), links, sample.calendar(leaf_at, start, 0, last + 1)))

    def test_chains(self):
        self.assertTrue(self.subtrees.grow())
        for second, last in ((START, START), (START, self.last), (self.last, self.last), (3 * SECONDS, 4 * SECONDS - 1), (3 * SECONDS - 1, 4 * SECONDS), (START + 5, 3 * SECONDS)):
            with self.subTest(second=second, last=last):
                self.compare(self.subtrees, START, second, last)

    def test_a_plan_that_begins_and_ends_with_a_file(self):
        for name, start, count in (("one", SECONDS, 2 * SECONDS), ("two", 3, 9)):
            kept = Subtrees(self.made(f"{self.calendar.folder}.{name}", start, count))
            self.assertTrue(kept.grow())
            self.compare(kept, start, start, start + count - 1)
            self.compare(kept, start, start + count // 2, start + count - 1)

    def test_roots_are_kept_and_grow(self):
        self.assertEqual([self.subtrees.grow(1) for _ in range(3)], [False, False, True])
        again = Subtrees(self.calendar)
        self.assertEqual(again.roots, self.subtrees.roots)
        self.calendar.add(b"".join(sample.sha(b"%d" % it) for it in range(self.last + 1, self.last + 1 + SECONDS)))
        with mock.patch.object(again, "leaves", wraps=again.leaves) as hashed:
            self.assertTrue(again.grow())
        self.assertEqual([it.args for it in hashed.call_args_list], [(5,)])

    def extend(self, root=None):
        """Whether the kept roots gave the extension."""
        root = root or sample.calendar(leaf, START, 0, self.last + 1)[1:].hex()
        with mock.patch.object(subtrees.extension, "accepted", lambda make, *_: make()), mock.patch.object(subtrees.roots, "extended", return_value=b"by ksi_roots"):
            return subtrees.extend(self.subtrees, b"", self.parts, (self.last, root), "publications") != b"by ksi_roots"

    def test_kept_roots_are_not_trusted(self):
        """If they do not lead to the published root they are dropped, and `ksi_roots` extends."""
        self.assertTrue(self.extend())
        with self.assertLogs(subtrees.log):
            self.assertFalse(self.extend("11" * 32))
        self.assertEqual((self.subtrees.roots, files.content_of(self.subtrees.path)), ([], None))
        self.assertTrue(self.extend())

    def test_what_the_kept_roots_do_not_give(self):
        """A second out of the calendar, another root, and a file that is damaged: `ksi_roots` decides."""
        for parts in (self.parts._replace(second=START - 1), self.parts._replace(second=self.last + 1), self.parts._replace(root="11" * 32)):
            self.parts = parts
            self.assertFalse(self.extend())
        self.parts = self.parts._replace(second=START, root=None)
        self.assertTrue(self.extend())
        files.write(self.calendar.path(2), b"damaged")
        with self.assertLogs(subtrees.log):
            self.assertFalse(self.extend())


if __name__ == "__main__":
    unittest.main()
