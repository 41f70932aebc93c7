"""A service of one machine over a folder in which the file of a core is not the record's."""
import fcntl
import os
import shutil
import tempfile
import unittest
from unittest import mock

import stands
from ksi_service import backup, extension, files
from ksi_service.plan import Plan
from ksi_service.proved import Refused
from served import Served, imprint


class StoppedTest(unittest.TestCase):
    """A stopped service, the file of whose first core cannot be read."""

    def setUp(self):
        self.room = tempfile.TemporaryDirectory(prefix="ksi-test-")
        self.addCleanup(self.room.cleanup)
        self.folder = self.room.name
        named = mock.patch.dict(os.environ, KSI_BIN=stands.make(os.path.join(self.folder, "bin")))
        named.start()
        self.addCleanup(named.stop)
        files.write(os.path.join(self.folder, "plan"), Plan(3, 5, ("c0", "c1")).text().encode())
        for name in ("c0", "c1", "c2"):
            files.write(os.path.join(self.folder, f"{name}.facts"), b"")
        self.hold("c0")

    def hold(self, name):
        """Has a stand-in for a node end at its file."""
        file = open(os.path.join(self.folder, f"{name}.facts"), "ab")
        self.addCleanup(file.close)
        fcntl.flock(file, fcntl.LOCK_EX)

    def test_a_backup_is_made_of_the_other_cores(self):
        told, made = [], []
        with mock.patch.object(backup, "ksi", lambda word, *_: made.append(word) or word):
            backup.make(self.folder, os.path.join(self.folder, "backup"), 9, told.append)
            self.assertEqual((made, told[0][:24], len(told)), (["merge", "whole"], "core 0 is left out: c0 e", 3))
            self.hold("c1")
            self.hold("c2")
            self.assertRaisesRegex(Refused, "c2 ended", backup.make, self.folder, os.path.join(self.folder, "other"), 9, told.append)

    def test_a_backup_without_what_a_root_was_made_of_says_so(self):
        def ksi(word, *_):
            if word == "whole":
                raise Refused(1, "refused M4 7")
        with mock.patch.object(backup, "ksi", ksi), self.assertRaisesRegex(Refused, r"mirror.0 is saved, and has no journal: .* \(refused M4 7\)$"):
            backup.make(self.folder, os.path.join(self.folder, "backup"), 9, lambda text: None)

    def test_another_core_extends(self):
        with mock.patch.object(extension, "extend_by", lambda core, *_: (None, core.name)):
            self.assertEqual(extension.extend_stopped(self.folder, b"", None), "c1")
        self.hold("c1")
        with mock.patch.object(extension, "extend_by", side_effect=extension.NotExtended("seconds-missing", "c2 lacks a second up to 9")):
            self.assertRaisesRegex(extension.NotExtended, "c2 lacks", extension.extend_stopped, self.folder, b"", None)
        self.hold("c2")
        self.assertRaisesRegex(Refused, "c0 ended", extension.extend_stopped, self.folder, b"", None)


class LeftOutTest(Served):
    def path(self, name):
        return os.path.join(self.folder, f"{name}.facts")

    def log(self):
        with open(os.path.join(self.folder, "log"), encoding="utf-8") as file:
            return file.read()

    def sign(self, *numbers):
        for number in numbers:
            self.assertEqual(self.ask("/sign", imprint(number))[0], 200)

    def test_a_core_that_lacks_facts_takes_no_part(self):
        self.start()
        self.sign(1, 2)
        self.command("stop")
        whole = shutil.copy(self.path("c0"), self.file("whole", ""))
        os.remove(self.path("c0"))
        for number in (3, 4):
            self.assertIn("found 0: the service goes on without c0 until it is started again\nstarted over ", self.start())
            self.sign(number)
            told = self.command("status")
            self.assertRegex(told, r"nodes_left_out +1\n(.*\n)*left_out +c0=c0 acknowledged [0-9]+ facts and found 0")
            self.assertEqual((self.status()["nodes_up"], self.status()["nodes"]), (4, 5))
            self.assertIn("\nksi_nodes_left_out 1\n", self.ask("/metrics")[1].decode())
            self.command("stop")
        self.assertEqual(self.log().count("found 0: the service goes on without c0 until it is started again"), 2)
        # what the node made of its own takes no fact
        self.assertLess(os.path.getsize(self.path("c0")), 200)
        shutil.copy(self.path("c2"), other := self.file("other", ""))
        os.remove(self.path("c2"))
        self.assertIn("facts and found 0", self.command("run", self.folder, "--door", "127.0.0.1:0", status=3))
        shutil.copy(other, self.path("c2"))
        shutil.copy(whole, self.path("c0"))
        self.start()
        self.sign(5, 6)
        self.assertEqual((self.status()["nodes_up"], self.status()["nodes_left_out"]), (5, 0))
        self.command("stop")
        self.checked()


if __name__ == "__main__":
    unittest.main()
