"""The judge, over the folders of three machines and what their clients saw: a run that is right, and runs in which something is wrong."""
import hashlib
import importlib.machinery
import importlib.util
import json
import os
import shutil
import subprocess
import sys
import tempfile
import unittest
from unittest import mock

import stands
from ksi_service import elements, files
from ksi_service.publications import Publications
from three_records import PLAN, Three

JUDGE = os.path.join(os.path.dirname(stands.HERE), "judge")
ROOM = tempfile.TemporaryDirectory(prefix="ksi-test-")


def setUpModule():
    global MADE
    with mock.patch.dict(os.environ, KSI_BIN=stands.make_retrace(os.path.join(ROOM.name, "bin"))):
        MADE = Three(os.path.join(ROOM.name, "made"))
    stands.make_counting(os.path.join(ROOM.name, "counting"))


def tearDownModule():
    ROOM.cleanup()


def write_bytes(path, content):
    """Unlike `files.write` it waits for no disk."""
    with open(path, "wb") as file:
        file.write(content)


def loaded():
    """The judge as a module."""
    loader = importlib.machinery.SourceFileLoader("judge_of_runs", JUDGE)
    module = importlib.util.module_from_spec(importlib.util.spec_from_loader("judge_of_runs", loader))
    loader.exec_module(module)
    return module


class JudgeTest(unittest.TestCase):
    def setUp(self):
        self.room = tempfile.TemporaryDirectory(prefix="ksi-test-")
        self.addCleanup(self.room.cleanup)
        self.folders = [stands.copied(it, os.path.join(self.room.name, os.path.basename(it))) for it in MADE.folders]
        self.a, self.b, self.c = self.folders
        self.rows = [self.signed(number, text) for number, text in enumerate(MADE.signed)]
        self.rows.append(["sign", "0" * 64, "A", "5.1", "7.2", "unknown", "-"])
        self.rows.append(["sign", "0" * 64, "B", "5.1", "5.2", "503", "-"])
        for door, at, count in (("A", 7, 1), ("B", 8, 3), ("C", 9, 4)):
            self.rows.append(self.fetched(door, at, Publications(self.a).published[:count]))

    def signed(self, number, text):
        second = PLAN.start + number
        return ["sign", text[:64], "ABC"[number % 3], f"{second}.3", f"{second + 1}.4", "200", text]

    def fetched(self, door, at, published):
        return ["publications", "-", door, f"{at}.0", f"{at}.1", "200", elements.publications_file(published).hex()]

    def judged(self, status=0, folders=None, programs="counting", judge=JUDGE, **environment):
        path = os.path.join(self.room.name, "rows")
        write_bytes(path, "".join(" ".join(it) + "\n" for it in self.rows).encode())
        ran = subprocess.run([sys.executable, judge, path, *(folders or self.folders), "--stand-ins"],
                             env={**os.environ, "KSI_BIN": os.path.join(ROOM.name, programs), **environment}, capture_output=True, text=True, check=False)
        self.assertEqual(ran.returncode, status, ran.stdout + ran.stderr)
        return ran.stdout

    def entries(self, folder):
        with open(os.path.join(folder, "record", "00000001"), encoding="ascii") as file:
            return [json.loads(row) for row in file]

    def write(self, folder, entries):
        with open(os.path.join(folder, "record", "00000001"), "w", encoding="ascii") as file:
            file.writelines(json.dumps(it) + "\n" for it in entries)

    def test_a_run_that_is_right(self):
        said = self.judged(programs="bin")
        steps = sum(it.steps for it in MADE.machines.values())
        self.assertIn(f"one history: {steps} steps (0 without a reply) and 4 signatures are the model's", said)
        self.assertIn("4 of 6 attempts were signed", said)
        self.assertIn("4 seconds in lines of nodes and 4 publications, also in 3 fetches, have one root each", said)
        self.assertIn("not compared: no signature was extended and verified (stand-ins sign here)", said)

    def test_it_is_short_and_imports_nothing_of_the_service(self):
        with open(JUDGE, encoding="utf-8") as file:
            text = file.read()
        self.assertLessEqual(text.count("\n"), 300)
        self.assertNotIn("ksi_service", text)

    def test_without_programs_that_is_said(self):
        """The judge is copied to a place next to which nothing is built."""
        there = os.path.join(self.room.name, "elsewhere", "service")
        os.makedirs(there)
        said = self.judged(programs="none", judge=shutil.copy(JUDGE, there), PATH=there)
        self.assertIn("not compared with the model: ksi_retrace is not built", said)

    def test_a_record_in_two_files_and_a_torn_end(self):
        entries = self.entries(self.b)
        with open(os.path.join(self.b, "record", "00000002"), "w", encoding="ascii") as file:
            file.writelines(json.dumps(it) + "\n" for it in [entries[0], *entries[50:]])
            file.write('["given", "c1", "se')
        self.write(self.b, entries[:50])
        self.judged()
        os.rename(os.path.join(self.b, "record", "00000002"), os.path.join(self.b, "record", "00000003"))
        with self.assertRaises(AssertionError):
            self.judged()

    def wrong(self, pattern, **words):
        self.assertRegex(self.judged(status=1, **words), f"WRONG: {pattern}")

    def test_a_lost_acknowledged_signature(self):
        self.write(self.a, [it for it in self.entries(self.a) if it[0] != "signed" or it[2] != MADE.signed[2]])
        self.wrong("lost: the signature of 0{63}7 that C answered is on no record")

    def test_a_signature_of_another_hash(self):
        self.rows[1][1] = "1" * 64
        self.wrong("B answered a signature of 0{63}6 for 1{64}")

    def test_a_second_out_of_bounds(self):
        for begin, end in (("8.1", "8.9"), ("1.0", "2.9")):
            self.rows[0][3:5] = begin, end
            self.wrong(f"A answered second 5 for a request from {begin} to {end}")
        for begin, end in (("7.9", "8.9"), ("1.0", "3.0")):
            self.rows[0][3:5] = begin, end
            self.judged()

    def test_a_second_root_that_one_client_fetched(self):
        published = Publications(self.a).published
        self.rows.append(self.fetched("B", 9, [*published[:2], (published[2][0], "1" * 64)]))
        self.wrong("two roots, or a lost publication: that of B at 9.0")

    def test_a_publication_that_was_lost(self):
        published = Publications(self.a).published
        self.rows.append(self.fetched("C", 9, [*published, (9, "1" * 64)]))
        self.wrong("two roots, or a lost publication: that of C at 9.0")

    def test_a_second_root_in_a_folder(self):
        path = os.path.join(self.c, "publications")
        write_bytes(path, elements.publications_file([(5, "1" * 64)]))
        self.wrong("two roots, or a lost publication: that of .*C/publications")

    def test_a_second_root_in_lines_of_nodes(self):
        entries = self.entries(self.c)
        at = max(number for number, it in enumerate(entries) if it[0] == "said")
        entries[at][2] = ["answer done", f"send c0 synod 2 6 success {'1' * 64}"]
        self.write(self.c, entries)
        self.wrong("second 6 has two roots in lines of nodes")

    def test_a_forged_entry(self):
        for change in (lambda it: [*it[:2], it[2].replace("synod 1", "synod 2"), it[3]], lambda it: [*it[:2], f"{it[2][:-1]}{'1' if it[2][-1] != '1' else '2'}", it[3]]):
            shutil.copy(os.path.join(MADE.folders[0], "record", "00000001"), os.path.join(self.a, "record"))
            entries = self.entries(self.a)
            at = next(number for number, it in enumerate(entries) if it[0] == "given" and it[2].startswith("synod 1") and "begin" in it[2])
            entries[at] = change(entries[at])
            self.write(self.a, entries)
            self.wrong("nobody sent this line to c0|there is no order")

    def test_a_forged_block(self):
        entries = self.entries(self.b)
        at = next(number for number, it in enumerate(entries) if it[0] == "said" and it[1] == "a1")
        entries[at][2] = ["answer late"]
        self.write(self.b, entries)
        self.wrong("ksi_retrace: differs", programs="bin")

    def test_a_step_before_its_cause(self):
        entries = self.entries(self.a)
        for it in entries:
            if it[0] == "given" and it[3] and it[3][0] == "B":
                it[3][1] += 500
        self.write(self.a, entries)
        self.wrong("there is no order in which each line follows the step that sent it")

    def test_a_folder_that_is_not_there(self):
        self.assertIn("WRONG: no folder has c2", self.judged(status=1, folders=[self.a, self.b]))

    def test_calendar_files_and_signatures_are_as_the_service_has_them(self):
        judge, plan, roots = loaded(), b"a plan", {it: f"{it:064x}" for it in range(4094, 8195)}
        folder = os.path.join(self.room.name, "calendar")
        judge.calendar(folder, plan, 4094, 8194, roots)
        head = b"KSIROOT1\x01" + hashlib.sha256(plan).digest() + (4094).to_bytes(8, "big")
        for number, first, count in ((0, 4094, 2), (1, 4096, 4096), (2, 8192, 3)):
            content = files.content_of(os.path.join(folder, str(number)))
            self.assertEqual(content[:61], head + number.to_bytes(8, "big") + count.to_bytes(4, "big"))
            self.assertEqual(content[61:], b"".join(b"\x01" + bytes.fromhex(roots[it]) for it in range(first, first + count)))
        del roots[5000]
        self.assertRaises(judge.Wrong, judge.calendar, f"{folder}.other", plan, 4094, 8194, roots)
        path = os.path.join(os.path.dirname(os.path.dirname(stands.HERE)), "crates", "ksi", "data", "signature")
        content = files.content_of(path)
        parts = elements.parts_of(content)
        self.assertEqual(judge.signed_in(content, False), (parts.imprint, parts.second))
        self.assertRaises(judge.Wrong, judge.signed_in, b"junk", False)

    def test_signatures_are_extended_over_the_roots_that_all_cores_hold(self):
        judge, asked = loaded(), []

        def ran(room, *words):
            asked.append(words)
            return "accepted 6"

        def extend(*signatures):
            with tempfile.TemporaryDirectory() as room:
                return judge.extend_all(judge.History(self.folders), signatures, publications, room)
        publications = files.content_of(os.path.join(self.a, "publications"))
        with mock.patch.dict(os.environ, KSI_BIN=os.path.join(ROOM.name, "bin")), mock.patch.object(judge, "ran", ran):
            self.assertEqual(extend(("ab" * 32, 6, b"its bytes"), ("cd" * 32, 9, b"after the last publication")), 1)
            self.assertEqual(asked, [("ksi_roots", "extend", "calendar", "signature", "8", "extended"), ("ksi", "verify", "extended", "ab" * 32, "publications")])
            self.assertRaises(judge.Wrong, extend, ("ab" * 32, 5, b"its bytes"))
            with mock.patch.object(judge, "held", lambda folder, name, first, last: [["root", str(it), name[1] * 64] for it in range(first, last + 1)]):
                self.assertRaises(judge.Wrong, extend, ("ab" * 32, 6, b"its bytes"))


if __name__ == "__main__":
    unittest.main()
