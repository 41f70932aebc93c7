"""The proved `ksi_serve`, run by itself: what an aggregator says of stored lines, what is left of a stored file, and the words."""
import os
import shutil
import subprocess
import tempfile
import unittest

import stands
from ksi_service.programs import TOP, program

WHY = stands.missing(stands.NODE)
PLAN = os.path.join(TOP, "crates", "ksi_serve", "data", "plan")
DATA = os.path.join(stands.HERE, "data")

SECOND = 1700000000
# SHA-256 of no bytes, the root of a round with this item alone
ROOT = "e3b0c44298fc1c149afbf4c8996fb92427ae41e4649b934ca495991b7852b855"

# the words behind the program's name, where FOLDER has a file `facts` of a0, and the word behind `failed`
WORDS = (
    ((), "words"),
    ((PLAN, "a0", "FOLDER"), "words"),
    ((PLAN, "a0", "FOLDER", "facts", "more"), "words"),
    (("no plan", "a0", "FOLDER", "facts"), "plan"),
    ((PLAN, "0", "FOLDER", "facts"), "node"),
    ((PLAN, "a", "FOLDER", "facts"), "node"),
    ((PLAN, "a+0", "FOLDER", "facts"), "node"),
    ((PLAN, "a1", "FOLDER", "facts"), "node"),
    ((PLAN, "c1", "FOLDER", "facts"), "node"),
    ((PLAN, "c0", "FOLDER", "facts"), "file"),
    ((PLAN, "a0", "FOLDER/none", "facts"), "file"),
    (("--forget", PLAN, "a0", "FOLDER", "facts", "1"), "words"),
    (("--forget", PLAN, "a0", "FOLDER", "facts", "+1", "new"), "words"),
    (("--forget", "no plan", "a0", "FOLDER", "facts", "1", "new"), "plan"),
    (("--forget", PLAN, "a1", "FOLDER", "facts", "1", "new"), "node"),
    (("--forget", PLAN, "c1", "FOLDER", "facts", "1", "new"), "node"),
    (("--forget", PLAN, "a0", "FOLDER", "facts", "1", "other"), "file"),
    (("--forget", PLAN, "a0", "FOLDER", "other", "1", "new"), "file"),
    (("--keep", PLAN, "a0", "FOLDER", "facts", "1", "new"), "words"),
)


def stored(name):
    with open(os.path.join(DATA, name), encoding="ascii") as file:
        return file.read()


@unittest.skipIf(WHY, WHY)
class ProgramsTest(unittest.TestCase):
    def setUp(self):
        room = tempfile.TemporaryDirectory()
        self.addCleanup(room.cleanup)
        self.folder = room.name

    def run_with(self, *words, given=""):
        return subprocess.run([program(stands.NODE), *words], input=given, capture_output=True, text=True, check=False)

    def test_stored_lines_of_an_aggregator(self):
        run = self.run_with(PLAN, "a0", self.folder, "facts", given=stored("aggregator.in"))
        self.assertEqual((run.stdout, run.returncode), (stored("aggregator.out"), 0))

    def test_what_is_left_of_a_stored_file(self):
        shutil.copyfile(os.path.join(DATA, "forgotten.facts"), os.path.join(self.folder, "facts"))
        run = self.run_with("--forget", PLAN, "a0", self.folder, "facts", "1700000002", "new")
        self.assertEqual((run.stdout, run.returncode), ("left 3 of 4\n", 0))
        run = self.run_with(PLAN, "a0", self.folder, "new")
        self.assertEqual((run.stdout, run.returncode), ("ready 3\n.\n", 0))

    def test_a_core_that_forgets(self):
        with open(os.path.join(TOP, "crates", "ksi_serve", "stdin"), encoding="ascii") as file:
            vote = "".join(file.readlines()[:8])
        self.run_with(PLAN, "c0", self.folder, "facts", given=vote)
        run = self.run_with("--forget", PLAN, "c0", self.folder, "facts", "1700000002", "new")
        self.assertEqual((run.stdout, run.returncode), ("left 1 of 5\n", 0))
        lines = [f"{word} {SECOND}" for word in ("seal", "ballot", "respond", "tell", "publish")]
        lines += [f"submission 0 {SECOND} {ROOT} 0", f"synod 0 {SECOND} next 32", f"synod 0 {SECOND} success {ROOT}", f"held {SECOND} 1", "seal 1700000001"]
        run = self.run_with(PLAN, "c0", self.folder, "new", given="\n".join([*lines, ""]))
        forgotten = ["refused forgotten"]
        told = ["answer done", f"send c0 synod 0 {SECOND} success {ROOT}"]
        blocks = [block.splitlines() for block in run.stdout.split(".\n")]
        self.assertEqual(blocks[1:5], [forgotten, forgotten, forgotten, told])
        self.assertTrue(blocks[5][0].startswith("answer published "))
        self.assertEqual(blocks[6:], [forgotten, forgotten, forgotten, [f"root {SECOND} {ROOT}"], ["answer done", "stored"], []])

    def test_words(self):
        shutil.copyfile(os.path.join(DATA, "forgotten.facts"), os.path.join(self.folder, "facts"))
        with open(os.path.join(self.folder, "other"), "wb") as file:
            file.write(b"other")
        for words, fault in WORDS:
            with self.subTest(words):
                run = self.run_with(*[it.replace("FOLDER", self.folder) for it in words])
                self.assertEqual((run.stdout, run.returncode), (f"failed {fault}\n", 1))
        self.assertEqual(sorted(os.listdir(self.folder)), ["facts", "new", "other"])
