"""A backup while the service runs and signs: what it has is consistent, and no node could go on from it."""
import asyncio
import concurrent.futures
import gzip
import os
import shutil
import stat
import tempfile
import threading
import time
import unittest
from unittest import mock

import stands
from hosted import Hosted
from served import REAL, Served, imprint
from ksi_service import asking, backup, files
from ksi_service.elements import MAGIC_MIRROR, number_of, parts_of, publications_file, published_in, read
from ksi_service.folders import NotOneRun
from ksi_service.hours import Broken
from ksi_service.proved import Refused, Stopped, ksi
from ksi_service.record import Signed, told

KSI = """#!/bin/sh
# a ksi whose merge is the longer one of two mirrors, and whose journal is the mirror
case $1 in
merge) [ $(stat -c %s "$2") -ge $(stat -c %s "$3") ] && cp "$2" "$4.made" || cp "$3" "$4.made"; mv "$4.made" "$4";;
whole) cp "$2" "$3";;
esac
echo "$1"
"""


def roots_of(path):
    """The roots of a mirror in hex, by second."""
    roots = {}
    for it in read(files.content_of(path), len(MAGIC_MIRROR)):
        if it.kind == 0x02:
            parts = {part.kind: part.body for part in read(it.body)}
            roots[number_of(parts[0x01])] = parts[0x02][1:].hex()
    return roots


def contents_of(folder):
    """The files of a record, uncompressed, by their numbers."""
    found = {}
    for name in os.listdir(folder):
        with (gzip.open if name.endswith(".gz") else open)(os.path.join(folder, name), "rb") as file:
            found[name[:8]] = file.read()
    return found


class BackupRunningTest(Served):
    def setUp(self):
        super().setUp()
        if not REAL:
            path = os.path.join(self.outside["KSI_BIN"], "ksi")
            files.write(path, KSI.encode())
            os.chmod(path, stat.S_IRWXU)

    def out(self, *names):
        return os.path.join(self.room.name, "saved", *names)

    def test_a_backup_while_requests_are_signed(self):
        ending, signed = threading.Event(), []

        def sign(client):
            while not ending.is_set():
                hashed = imprint(client + 100 * len(signed))
                status, content = self.ask("/sign", hashed)
                self.assertEqual(status, 200, content)
                signed.append((hashed, content))
        self.start("--cut-every", "1")
        with concurrent.futures.ThreadPoolExecutor(4) as pool:
            asks = [pool.submit(sign, client) for client in range(4)]
            self.wait_for_publication(int(time.time()) + 2)
            for turn in range(3):
                self.assertIn("whole", self.command("backup", self.folder, self.out()))
                self.see_consistent()
                time.sleep(1 if turn < 2 else 0)
            ending.set()
            for it in asks:
                it.result()
        self.assertGreater(len(signed), 8)
        kept = published_in(files.content_of(self.out("publications")))
        self.command("stop")
        self.see_against_folder(kept)
        if REAL:
            self.see_extended(signed, kept)
        self.assertFalse(os.path.exists(os.path.join(self.folder, asking.NAME)))
        self.assertIn("whole", self.command("backup", self.folder, self.out()))
        self.see_consistent()
        self.checked()
        self.see_restored()

    def see_restored(self):
        """As the table of docs/SERVICE.md says: the plan, the publications and closed files of the record are brought back, and the service goes on."""
        record = os.path.join(self.folder, "record")
        for name in ("plan", "publications", os.path.join("record", "00000001.gz")):
            os.remove(os.path.join(self.folder, name))
        with self.assertRaises(Broken):
            list(told(record))
        for name in ("plan", "publications"):
            shutil.copyfile(self.out(name), os.path.join(self.folder, name))
        shutil.copyfile(self.out("hours", "00000001.gz"), os.path.join(record, "00000001.gz"))
        before = published_in(files.content_of(self.out("publications")))
        self.start("--cut-every", "1")
        self.assertEqual(self.ask("/sign", imprint(1))[0], 200)
        self.wait_for_publication(before[-1][0] + 1)
        self.command("stop")
        self.assertEqual(published_in(files.content_of(os.path.join(self.folder, "publications")))[:len(before)], before)
        self.assertGreater(sum(isinstance(it, Signed) for it in told(record)), 8)

    def see_consistent(self):
        """Each second to the last publication is in the mirror."""
        roots, published = roots_of(self.out("mirror.0")), published_in(files.content_of(self.out("publications")))
        first = min(roots)
        self.assertEqual(set(range(first, published[-1][0] + 1)) - roots.keys(), set())
        self.assertTrue(os.path.exists(self.out("journal.0")))
        self.assertEqual({it for it in os.listdir(self.out()) if not it.startswith(("mirror.", "journal."))}, {"plan", "publications", "hours"})

    def see_against_folder(self, kept):
        """What was copied is what the folder has at the end, or its beginning."""
        self.assertEqual(files.content_of(self.out("plan")), files.content_of(os.path.join(self.folder, "plan")))
        with open(os.path.join(self.folder, "publications"), "rb") as file:
            published = published_in(file.read())
        self.assertEqual(published[:len(kept)], kept)
        hours, all_hours = contents_of(self.out("hours")), contents_of(os.path.join(self.folder, "record"))
        self.assertGreater(len(hours), 2)
        self.assertEqual(sorted(hours), sorted(all_hours)[:len(hours)])
        self.assertEqual({it: hours[it] == all_hours[it] for it in hours}, dict.fromkeys(hours, True))
        roots = roots_of(self.out("mirror.0"))
        with mock.patch.dict(os.environ, self.outside), Stopped(self.folder, "c0") as core:
            held = dict(row.split(" ")[1:] for row in core.ask(f"held {min(roots)} {len(roots)}") if row.startswith("root "))
        self.assertEqual({it: roots[int(it)] for it in held if int(it) in roots}, {it: root for it, root in held.items() if int(it) in roots})

    def see_extended(self, signed, kept):
        """By the backup alone, a signature of a second before the last publication is extended and verified."""
        hashed, content = next(it for it in signed if parts_of(it[1]).second <= kept[-1][0])
        files.write(self.out("old"), content)
        with mock.patch.dict(os.environ, self.outside):
            ksi("extend", self.out("journal.0"), self.out("old"), str(kept[-1][0]), self.out("new"))
            self.assertIn("accepted", ksi("verify", self.out("new"), hashed, self.out("publications")))
        for name in ("old", "new"):
            os.remove(self.out(name))


class QuestionsTest(Hosted):
    def asked(self, work):
        """What work over the running host's folder returns, in a thread of its own."""
        async def play(host):
            questions = asking.Questions(host)
            await questions.begin()
            while host.cores["c0"].next < host.plan.start + 2:
                await asyncio.sleep(0.05)
            try:
                return await asyncio.get_running_loop().run_in_executor(None, work, host)
            finally:
                await questions.stop()
        return self.play(play)

    def test_only_cores_are_asked_and_only_what_they_hold(self):
        def work(host):
            with asking.Running(self.folder) as it:
                told = [it.told(line) for line in ("c0 seal 7", "a0 held 1 1", "c9 held 1 1", "c0 held 1 x", f"c0 held 1 {asking.AT_ONCE + 1}", "", "held 1 1")]
                last = it.second()
            with asking.Running(self.folder, "c1") as core:
                rows = core.ask(f"held {host.plan.start} 2")
            return told, last - host.plan.start, rows[0].split(" ")[:2], os.stat(os.path.join(self.folder, asking.NAME)).st_mode & 0o777
        told, last, row, mode = self.asked(work)
        self.assertEqual(told, [["refused word"]] * 4 + [["refused count"]] + [["refused word"]] * 2)
        self.assertGreaterEqual(last, 1)
        self.assertEqual((row[0], mode), ("root", 0o600))

    def test_a_core_that_is_down_is_left_out(self):
        def work(host):
            host.nodes["c1"].runs = False
            with asking.Running(self.folder, "c1") as core, self.assertRaisesRegex(Refused, "c1 does not run"):
                core.ask("held 1 1")
            host.nodes["c1"].runs = True
        self.asked(work)

    def test_nobody_answers_over_a_folder_without_a_service(self):
        self.assertRaisesRegex(Refused, "takes no questions", asking.Running, self.folder)

    def test_the_path_of_a_folder_may_be_long(self):
        with tempfile.TemporaryDirectory() as room:
            folder = os.path.join(room, "a" * 120)
            os.mkdir(folder)
            bound = asking.socket_in(folder, "bind")
            bound.listen(1)
            asking.socket_in(folder, "connect").close()
            bound.close()


class FilesTest(unittest.TestCase):
    def setUp(self):
        self.room = tempfile.TemporaryDirectory()
        self.addCleanup(self.room.cleanup)

    def backup(self, **contents):
        """A folder with these files, copied to the backup `out`."""
        folder = os.path.join(self.room.name, "data")
        os.makedirs(folder, exist_ok=True)
        for name, content in contents.items():
            files.write(os.path.join(folder, name), content)
        it = backup.Backup(os.path.join(self.room.name, "out"), 9, lambda text: None)
        it.add_files(folder)

    def test_plans_and_publications_have_to_fit(self):
        one, two, other = (publications_of(*seconds) for seconds in ([5], [5, 6], [7]))
        self.backup(plan=b"plan", publications=one)
        self.backup(publications=two)
        self.backup(publications=one)
        self.assertEqual(files.content_of(os.path.join(self.room.name, "out", "publications")), two)
        self.assertRaisesRegex(NotOneRun, "different publications", self.backup, publications=other)
        self.assertRaisesRegex(backup.NotSaved, "damaged", self.backup, publications=b"none")
        self.assertRaisesRegex(NotOneRun, "of another plan", self.backup, plan=b"another")


def publications_of(*seconds):
    return publications_file([(it, f"{it:064x}") for it in seconds])


if __name__ == "__main__":
    unittest.main()
