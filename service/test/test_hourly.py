"""A closed hour of a record, checked by itself: from the files that nodes were started over to the files that they left."""
import asyncio
import json
import os
import tempfile
import unittest
from unittest import mock

import stands
from hourly_run import PLAN, Run
from ksi_service import checked, cuts, hourly, hours, service
from ksi_service.hourly import NotKept
from ksi_service.retrace import Differs
from ksi_service.segments import cuts_in

NAMES = PLAN.names()


def lines_of(record, number):
    with open(os.path.join(record, f"{number:08}"), encoding="utf-8") as file:
        return [json.loads(line) for line in file]


class HourlyTest(unittest.TestCase):
    def setUp(self):
        self.room = tempfile.TemporaryDirectory(prefix="ksi-hourly-")
        self.addCleanup(self.room.cleanup)
        self.folder = os.path.join(self.room.name, "data")
        self.record = os.path.join(self.folder, "record")
        it = mock.patch.dict(os.environ, KSI_BIN=stands.make(os.path.join(self.room.name, "bin"), "cores,records"))
        it.start()
        self.addCleanup(it.stop)
        self.said = []

    def play(self, work):
        """Plays a run. Its files are not compressed, so that tests can change them."""
        async def go():
            with mock.patch.object(hours, "pack", lambda *_: True), mock.patch("ksi_service.record.pack", lambda *_: True):
                run = Run(self.folder)
                await work(run)
                await run.close()
        asyncio.run(go())

    async def hour(self, run, seconds=4, names=NAMES):
        """An hour in which nodes forget before its last second."""
        run.sign(seconds - 1)
        await run.forget(*names)
        run.sign()
        await run.record.cut()

    def check(self, number):
        self.said.clear()
        return hourly.check(self.folder, number, 5, self.said.append)

    def three(self, seconds=4):
        async def work(run):
            for _ in range(3):
                await self.hour(run, seconds)
        self.play(work)

    def test_each_hour_agrees(self):
        async def work(run):
            for number in (1, 2, 3):
                await self.hour(run)
                found = self.check(number)
                self.assertEqual((sorted(found.nodes), found.waiting, found.unknown), (sorted(NAMES), [], 0))
                self.assertEqual([it.hours() for it in found.nodes.values()], [(max(1, number - 1), number)] * len(NAMES))
                self.assertEqual(found.signatures, 3 if number == 1 else 4)
                self.assertGreater(found.lines, 20)
        self.play(work)
        self.assertIn("c0 agrees from the time that it forgot in hour 2 to the last time that it forgot in hour 3; its files of then are the computed ones", self.said)

    def test_an_hour_in_which_a_node_forgot_nothing_is_checked_with_the_next(self):
        async def work(run):
            await self.hour(run)
            await self.hour(run, names=[it for it in NAMES if it != "c1"])
            await self.hour(run)
            self.assertRaises(NotKept, self.check, 4)
        self.play(work)
        self.assertEqual(self.check(3).nodes["c1"].hours(), (1, 3))
        with mock.patch.object(hourly, "compare", lambda *_: (0, 0, 0, 0)):
            self.assertEqual(self.check(2).waiting, ["c1"])
        self.assertIn("c1 forgot nothing in hour 2: it is checked with a later one", self.said)

    def test_nodes_that_forget_twice_in_an_hour(self):
        """Of the second time the name alone is kept."""
        async def work(run):
            await self.hour(run)
            run.sign(2)
            await run.forget("c0", "a0")
            await self.hour(run)
            await self.hour(run, 2, ["c0"])
        self.play(work)
        self.assertEqual([len(it.cuts) for _, it in sorted(self.check(2).nodes.items())], [2, 1, 2, 1, 1])
        sizes = [os.path.getsize(it.path) > 0 for it in sorted(cuts.kept_in(self.folder), key=lambda it: it.place) if it.name == "c0"]
        self.assertEqual(sizes, [True, False, True])

    def test_a_node_that_started_again_within_the_hour(self):
        async def work(run):
            await self.hour(run)
            run.sign()
            run.start("c0")
            # its reply was lost: the fact is in the file
            run.give("c2", f"seal {run.second}", is_said=False)
            run.start("c2", unsaid=1)
            await self.hour(run)
        self.play(work)
        self.assertEqual(sorted(self.check(2).nodes), sorted(NAMES))

    def test_an_hour_that_begins_from_another_state_differs(self):
        """The file that is kept is the one of the hour before."""
        async def work(run):
            for _ in range(2):
                await self.hour(run)
                kept[len(kept)] = {it.name: it.path for it in cuts.kept_in(self.folder) if it.place[0] == len(kept) + 1}
        kept = {}
        self.play(work)
        os.replace(kept[0]["c1"], kept[1]["c1"])
        with self.assertRaisesRegex(Differs, "c1"):
            self.check(2)

    def changed(self, number, old, new):
        """The record with the first such text in an hour replaced. Its lines keep their places, and nobody looks at the digests."""
        path = os.path.join(self.record, f"{number:08}")
        with open(path, encoding="utf-8") as file:
            whole = file.read()
        self.assertIn(old, whole)
        self.assertEqual(len(old), len(new))
        with open(path, "w", encoding="utf-8") as file:
            file.write(whole.replace(old, new, 1))
        return path, whole

    def test_a_changed_line_or_block_or_signature_differs(self):
        self.three()
        signed = next(it for it in lines_of(self.record, 2) if it[0] == "signed")
        text = f'["signed",{signed[1]},"{signed[2][:1]}'
        for old, new, why in (('"close 9"', '"close 8"', "to the line close 8: the record has"),
                              ('"send c2 synod 0 9 success', '"send c2 synod 1 9 success', "no block sent c2 this line before|the record has"),
                              ('"answer done","stored"', '"answer done","stared"', "the record has `stared`, and the proved node says `stored`"),
                              ('["answer done"]', '["a.",".","bb"]', "has a line or block of .. that is none"),
                              (text, text[:-1] + "x", "the signature that was returned for request")):
            path, whole = self.changed(2, old, new)
            with mock.patch.object(hourly, "see_digests", lambda *_: None), self.subTest(old):
                self.assertRaisesRegex(Differs, why, self.check, 2)
            if old.startswith('["signed'):
                self.assertRaises(hours.Broken, self.check, 2)
            with open(path, "w", encoding="utf-8") as file:
                file.write(whole)

    def test_a_line_of_an_older_hour_is_looked_for_there(self):
        """It came late, or it is another line than was sent, or its hour was removed."""
        async def work(run):
            run.sign()
            step, block = run.give("c0", f"tell {PLAN.start}")
            for number in range(3):
                await self.hour(run, 2, ["c0"])
            run.give(*[*run.messages(step, block)][2])
            await self.hour(run, 2, ["c0"])
        self.play(work)
        self.assertEqual(self.check(4).unknown, 0)
        zeros = "0" * 60
        path, _ = self.changed(1, f'["said","c0",["answer done","send c0 synod 0 {PLAN.start} success {zeros}0001","send c1 synod 0 {PLAN.start} success {zeros}0001","send c2 synod 0',
                               f'["said","c0",["answer done","send c0 synod 0 {PLAN.start} success {zeros}0001","send c1 synod 0 {PLAN.start} success {zeros}0001","send c2 synod 1')
        with self.assertRaisesRegex(Differs, "did not send this line, which came in a later hour"):
            self.check(4)
        os.remove(path)
        self.assertEqual(self.check(4).unknown, 1)

    def test_files_are_kept_for_a_closed_hour(self):
        self.three()
        self.assertEqual({it.place[0] for it in cuts.kept_in(self.folder)}, {2, 3})
        with self.assertRaisesRegex(NotKept, "is not in .*cuts"):
            self.check(1)

    def test_a_crash_before_the_new_file_is_no_cut(self):
        async def work(run):
            await self.hour(run)
            run.sign()
            run.nodes["c0"].end()
            with mock.patch("ksi_service.files.keep", side_effect=KeyboardInterrupt):
                try:
                    await run.forget("c0")
                except KeyboardInterrupt:
                    pass
            run.start("c0")
            await self.hour(run, names=[it for it in NAMES if it != "c0"])
        self.play(work)
        self.assertEqual(self.check(2).waiting, ["c0"])
        self.assertNotIn("c0", [it.name for it in cuts_in([os.path.join(self.record, "00000002")])])

    def test_new_hours_are_noted_for_the_status(self):
        async def work(run):
            await self.hour(run)
            await self.hour(run)
            checked.check_new(self.folder, 5, self.said.append)
            self.assertEqual(checked.read(self.folder)[0::2], (2, 0))
            checked.check_new(self.folder, 5, self.said.append)
            self.assertEqual(self.said[-1], "no hour was closed since the last check")
            await self.hour(run)
            with mock.patch.object(hourly, "check", side_effect=Differs("c0 differs")):
                self.assertRaises(Differs, checked.check_new, self.folder, 5, self.said.append)
        self.assertEqual(checked.counters(self.room.name), {})
        self.play(work)
        found = checked.counters(self.folder)
        self.assertEqual((found["hour_checked"], found["hours_differ"]), (3, 1))
        self.assertIs(service.checked, checked)


if __name__ == "__main__":
    unittest.main()
