"""A node's file is compared with the marks of the record: a file that is another one is left out, and gets no line."""
import asyncio
import gzip
import hashlib
import json
import os
import shutil
import unittest

import stand_in_files
import stands
from hosted import Hosted
from recorded import Recorded
from stands import logged
from ksi_service import files, forget
from ksi_service.hours import Broken
from ksi_service.marks import Mark, end_of
from ksi_service.record import NodeState, State, told
from ksi_service.storing import LostFacts
from ksi_service.watched import Watched, see

PLAN = b"ksi-schedule 1\ncores 3\nstart 5\n"


def mark_of(content):
    return Mark(hashlib.sha256(content).hexdigest()[:16], len(content))


class FileTest(Recorded):
    """A file of the stand-in's, and what the host reads of it."""

    def setUp(self):
        super().setUp()
        self.path = os.path.join(self.room.name, "c0.facts")
        self.plan = os.path.join(self.room.name, "plan")
        files.write(self.plan, PLAN)

    def made(self, *facts, name="c0", plan=None):
        """Makes a file with these facts. Returns how many they are."""
        files.remove(self.path)
        file = stand_in_files.opened(plan or self.plan, name, self.path, True)
        for fact in facts:
            file.add(fact.split())
        file.file.close()
        return len(facts)

    def marked(self, *facts):
        return self.begun(NodeState(), self.made(*facts))

    def begun(self, state, found):
        """The mark of the file if it is that of the record."""
        watched = Watched("c0", self.path)
        self.addCleanup(watched.end)
        return watched.begin(state, found)

    def test_the_end_of_a_file_is_followed(self):
        file = stand_in_files.opened(self.plan, "c0", self.path, True)
        followed = Watched("c0", self.path)
        marks = [followed.begin(NodeState(), 0)]
        for number in range(50):
            file.add(["held", str(number), "1" * number])
            marks.append(followed.stored())
            self.assertEqual((marks[-1].place, marks[-1]), (os.path.getsize(self.path) - 1, end_of(self.path)))
        self.assertEqual(followed.begin(NodeState(50, mark=marks[-1]), 50), marks[-1])
        self.assertEqual(followed.begin(NodeState(49, mark=marks[-2]), 50), marks[-1])
        self.assertEqual(len(set(marks)), 51)
        followed.end()

    def test_a_mark_is_of_all_bytes_before_it(self):
        mark = self.marked("held 5 a")
        self.assertEqual(mark.place, 18 + 5 + 8)
        self.assertEqual(mark, mark_of(files.content_of(self.path)[:-1]))

    def test_bytes_after_the_last_record_are_not_looked_at(self):
        mark = self.marked("held 5 a", "held 6 b")
        with open(self.path, "ab") as file:
            file.write(b"\1" * 9 + os.urandom(3 << 20))
        self.assertEqual(self.begun(NodeState(2, mark=mark), 2), mark)

    def test_the_file_of_the_record_and_no_other(self):
        facts = [f"held {number} a{number}" for number in range(5, 10)]
        mark = self.marked(*facts)
        state = NodeState(5, mark=mark)
        self.assertEqual(self.begun(state, self.made(*facts)), mark)
        # one line more happened, and its reply was lost
        self.assertEqual(self.begun(state, self.made(*facts, "held 10 b")), end_of(self.path))
        files.write(os.path.join(self.room.name, "other"), b"another plan\n")
        for words in (dict(name="c1"), dict(plan=os.path.join(self.room.name, "other"))):
            for more in ([], ["held 10 b"]):
                self.refused(state, self.made(*facts, *more, **words))
        for changed in (["held 5 b", *facts[1:]], [facts[1], facts[0], *facts[2:]], [*facts[:4], "held 10 a"], ["held 5 b", *facts[1:], "held 10 b"]):
            self.refused(state, self.made(*changed))
        # fewer or more records than the node counted
        self.refused(state, self.made(*facts[:4]) + 1)
        self.refused(state, self.made(*facts, "held 10 b") - 1)
        # not in the form of a node's file
        files.write(self.path, b"held 5 a\n" * 5)
        self.refused(state, 5)

    def refused(self, state, found):
        self.assertRaisesRegex(LostFacts, "not the one of the record", see, "c0", self.path, state, found)

    def test_both_files_of_a_forgetting_are_known(self):
        facts = ["sealed 5 a", "held 5 a", "held 6 b"]
        whole, left = self.marked(*facts), self.marked(*facts[1:])
        state = State()
        for entry in (["ready", "c0", 3, 0, whole], ["forgot", "c0", 3, 2, whole, left]):
            state.take(json.loads(json.dumps(entry)))
        again = State()
        again.take(json.loads(json.dumps(state.begins())))
        node = again.node("c0")
        self.assertEqual([(it.mark, it.mark_before) for it in (node, state.node("c0"))], [(left, whole)] * 2)
        self.assertEqual([self.begun(node, self.made(*it)) for it in (facts, facts[1:])], [whole, left])
        self.refused(node, self.made(*facts[:2]))
        self.refused(node, self.made("sealed 5 b", *facts[1:]))

    def test_a_record_without_marks_and_a_file_of_another_form(self):
        self.assertEqual(self.begun(NodeState(2), self.made("held 5 a", "held 6 b")), end_of(self.path))
        files.write(self.path, b"held 5 a\n")
        self.assertIsNone(self.begun(NodeState(1), 1))
        self.assertIsNone(end_of(self.path))

    def test_a_fact_that_is_not_there_is_logged(self):
        said = logged(self, "ksi_service.watched")
        followed = Watched("c0", self.path)
        followed.begin(NodeState(), self.made("held 5 a"))
        self.assertIsNone(followed.stored())
        self.assertIn("has no fact after place 31", said[0])
        self.assertIsNone(followed.stored())


class LeftOutTest(Hosted):
    """A core whose file is another one takes no part."""

    def setUp(self):
        super().setUp()
        stands.make(os.path.join(self.folder, "bin"), "cores,records")
        self.path = os.path.join(self.folder, "c0.facts")

    async def grow(self, host):
        last = host.record.state.second + 2
        while min(core.next for name, core in host.cores.items() if name not in host.left_out) <= max(last, host.plan.start + 1):
            await asyncio.sleep(0.02)
        return dict(host.left_out), host.record.node("c0").facts

    def given(self):
        """How many steps core 0 took."""
        return sum(it.node == "c0" and it.line is not None for it in told(os.path.join(self.folder, "record")) if hasattr(it, "node"))

    def kept(self, name):
        return shutil.copy(self.path, os.path.join(self.folder, name))

    def test_an_older_file_another_one_and_one_from_before_a_forgetting(self):
        self.play(self.grow)
        older = self.kept("older")
        self.play(self.grow)
        whole = self.kept("whole")
        forget.forget(self.folder, 0, lambda text: None)
        compacted = self.kept("compacted")
        self.assertLess(os.path.getsize(compacted), os.path.getsize(whole))
        self.assertEqual(self.play(self.grow)[0], {})
        _, facts = self.play(self.grow)
        newest = self.kept("newest")
        # one with as many facts, which are others
        files.remove(self.path)
        file = stand_in_files.opened(os.path.join(self.folder, "plan"), "c0", self.path, True)
        for number in range(facts):
            file.add(["held", "7", str(number)])
        file.file.close()
        other = self.kept("other")
        steps = self.given()
        for path in (older, whole, compacted, other):
            shutil.copy(path, self.path)
            left = self.play(self.grow)[0]
            self.assertEqual(list(left), ["c0"], path)
            self.assertEqual(self.given(), steps)
        self.assertIn("not the one of the record", left["c0"])
        shutil.copy(newest, self.path)
        self.assertEqual(self.play(self.grow)[0], {})
        self.assertGreater(self.given(), steps)

    def test_a_closed_file_of_the_record_that_was_changed_ends_the_host(self):
        async def closed(host):
            await self.grow(host)
            await host.record.cut()
            await asyncio.wrap_future(host.record.packing[-1])
        self.play(closed)
        path = os.path.join(self.folder, "record", "00000001.gz")
        content = gzip.decompress(files.content_of(path))
        self.play(self.grow)
        files.write(path, gzip.compress(content.replace(b"answer done", b"answer none", 1)))
        self.assertRaisesRegex(Broken, "00000001.gz is not the file that was closed", self.play, self.grow)

    def test_a_record_of_before_has_marks_after_the_next_start(self):
        self.play(self.grow)
        path = os.path.join(self.folder, "record", sorted(os.listdir(os.path.join(self.folder, "record")))[-1])
        entries = [json.loads(row) for row in files.content_of(path).splitlines()]
        for entry in entries:
            if entry[0] in ("said", "ready"):
                del entry[3 if entry[0] == "said" else 4:]
        files.write(path, "".join(json.dumps(it) + "\n" for it in entries).encode())

        async def marked(host):
            left, _ = await self.grow(host)
            return left, host.record.node("c0").mark
        left, mark = self.play(marked)
        self.assertEqual((left, mark), ({}, mark_of(files.content_of(self.path)[:mark.place])))


if __name__ == "__main__":
    unittest.main()
