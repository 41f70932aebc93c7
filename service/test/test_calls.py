"""What the proved `ksi_serve` asks of the system, in which order, and what it says where a call fails, by strace."""
import os
import re
import shutil
import subprocess
import tempfile
import unittest

import stands
from ksi_service.programs import TOP, program

WHY = stands.missing(stands.NODE) or (None if shutil.which("strace") else "strace is not here")
PLAN = os.path.join(TOP, "crates", "ksi_serve", "data", "plan")
NAMES = "openat,flock,fsync,fdatasync,ftruncate,read,pread64,write,pwrite64,rename,unlink"
CALL = re.compile(r"(?:\d+ +)?(\w+)\((?:AT_FDCWD[^,]*, \"([^\"]*)\"|\d+<([^>]*)>)")

# an opening: the file is this process's alone; then what is found, and its name, is on the disk before it is read
OPENED = ["openat facts", "flock facts", "fsync facts", "openat folder", "fsync folder", "read facts"]
# a record: its bytes are on the disk before its gate is open, and its gate before anything is said
KEPT = ["pwrite64 facts", "fdatasync facts"] * 2
NEW = [*OPENED, "pwrite64 facts", "fdatasync facts", *OPENED, "fdatasync facts", "write out", *KEPT, "write out", *KEPT, "write out"]
FOUND = [*OPENED, "fdatasync facts", "write out"]

# which call on the file fails, and with what error; how often it is made when lines are given to a new file
FAULTS = (("fsync", "EIO", 2), ("read", "EIO", 3), ("pwrite64", "ENOSPC", 5), ("fdatasync", "EIO", 6), ("flock", "EAGAIN", 2))


def stored(name):
    with open(os.path.join(stands.HERE, "data", name), encoding="ascii") as file:
        return file.read()


def blocks(text):
    return re.findall(r"(?:.+\n)*?\.\n", text)


@unittest.skipIf(WHY, WHY)
class CallsTest(unittest.TestCase):
    def setUp(self):
        room = tempfile.TemporaryDirectory()
        self.addCleanup(room.cleanup)
        self.room, self.folder = room.name, os.path.join(room.name, "folder")
        os.mkdir(self.folder)
        self.facts, self.out = os.path.join(self.folder, "facts"), os.path.join(room.name, "out")

    def run_under(self, *options, given=""):
        """What the program says, and its status, under strace with these options."""
        told = os.path.join(self.room, "calls")
        with open(self.out, "w", encoding="ascii") as out:
            run = subprocess.run(["strace", "-f", "-y", "-o", told, *options, program(stands.NODE), PLAN, "a0", self.folder, "facts"],
                                 input=given, stdout=out, stderr=subprocess.PIPE, text=True, check=False)
        if "PTRACE" in run.stderr:
            self.skipTest("strace may not trace here")
        with open(self.out, encoding="ascii") as out, open(told, encoding="ascii") as calls:
            return out.read(), run.returncode, calls.read().splitlines()

    def calls(self, lines):
        """Each call that has to do with the file, its folder or the output, but for the same one again."""
        where, found = {self.facts: "facts", self.folder: "folder", self.out: "out"}, []
        for name, path, of in (CALL.match(line).groups() for line in lines if CALL.match(line)):
            it = f"{name} {where.get(path or of)}"
            if (path or of) in where and it not in found[-1:]:
                found.append(it)
        return found

    def content(self):
        with open(self.facts, "rb") as file:
            return file.read()

    def fails_at(self, call, error, turn):
        return "-P", self.facts, "-e", f"trace={call}", "-e", f"inject={call}:error={error}:when={turn}"

    def test_calls_of_a_new_file(self):
        said, status, lines = self.run_under("-e", f"trace={NAMES}", given=stored("aggregator.in"))
        self.assertEqual((said, status, self.calls(lines)), (stored("aggregator.out"), 0, NEW))

    def test_calls_of_a_file_that_is_there(self):
        shutil.copyfile(os.path.join(stands.HERE, "data", "forgotten.facts"), self.facts)
        before = self.content()
        said, status, lines = self.run_under("-e", f"trace={NAMES}")
        self.assertEqual((said, status, self.calls(lines), self.content()), ("ready 4\n.\n", 0, FOUND, before))

    def test_a_file_that_cannot_be_read_is_left(self):
        shutil.copyfile(os.path.join(stands.HERE, "data", "forgotten.facts"), self.facts)
        before = self.content()
        for turn in (1, 2):
            said, status, _ = self.run_under(*self.fails_at("read", "EIO", turn))
            self.assertEqual((said, status, self.content()), ("failed file\n", 1, before), turn)

    def test_each_call_that_fails(self):
        """What was said before stands, the last line names the fault, and no fact is lost of which it was said that it is stored."""
        wanted = blocks(stored("aggregator.out"))
        for call, error, turns in FAULTS:
            for turn in range(1, turns + 1):
                with self.subTest(call=call, turn=turn):
                    said, status, _ = self.run_under(*self.fails_at(call, error, turn), given=stored("aggregator.in"))
                    told = blocks(said)
                    self.assertEqual((told, status), (wanted[:len(told)], 1))
                    self.assertRegex(said, r"(^|\n)failed (file|disk)\n$")
                    kept = said.count("\nstored\n")
                    again, status, _ = self.run_under("-e", "trace=flock")
                    self.assertRegex(again, f"^ready ({kept}|{kept + 1})\n\\.\n$")
                    os.remove(self.facts)
