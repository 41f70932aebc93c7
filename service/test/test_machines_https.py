"""Three machines over HTTPS: one is lost and comes back while clients sign."""
import glob
import os
import shutil
import time
import unittest

import stands
from machined import NODES, OverHttps
from ksi_service import certificates


class MachinesTest(OverHttps):
    def test_a_machine_is_lost_and_comes_back_while_requests_are_signed(self):
        self.start_all()
        with self.clients():
            self.signed_since(0, 5)
            for name in ("A", "C"):
                self.kill(name)
                self.signed_since(time.monotonic(), 5)
                self.start(name)
                self.wait(lambda: all(set(self.status(it)["machines"].values()) == {"there"} for it in NODES))
                self.signed_since(time.monotonic(), 3)
        self.assertEqual(self.failed, [])
        # a last publication may be missing from a machine that was told to stop before its core held the second
        self.assertEqual(self.stop_all(), {name: 0 for name in NODES})
        first, *others = sorted((self.published(name) for name in NODES), key=len)
        self.assertTrue(len(first) > 100 and all(it.startswith(first[:100]) for it in others))
        self.assertIn("A is away", self.log("B"))

    def stop(self, name):
        self.running[name].terminate()
        self.assertEqual(self.running.pop(name).wait(100), 0)

    def refused(self, name, words):
        """A start ends with status 3 and a sentence."""
        self.start(name)
        self.assertEqual(self.running.pop(name).wait(100), 3)
        self.assertRegex(self.log(name), words)

    def test_a_folder_that_was_carried_to_another_machine(self):
        """The others have to confirm that it is the newest: an older copy of it is refused."""
        self.start_all()
        with self.clients():
            self.signed_since(0, 5)
            self.stop("C")
            stands.copied(self.at("C"), self.at("older"))
            self.start("C")
            self.wait(lambda: self.is_complete("C"))
            self.signed_since(time.monotonic(), 9)
            self.stop("C")
            # as on another machine
            for path in glob.glob(self.at("state", "ksi", "*-C.identity")):
                os.remove(path)
            self.refused("C", "was run elsewhere: this machine has no identity of its plan")
            self.more = ["--moved"]
            os.rename(self.at("C"), self.at("newest"))
            os.rename(self.at("older"), self.at("C"))
            self.refused("C", "[AB] knows [0-9]+ steps of this machine, whose record has [0-9]+: bring back the folder's last state")
            shutil.rmtree(self.at("C"))
            os.rename(self.at("newest"), self.at("C"))
            self.start("C")
            self.wait(lambda: self.is_complete("C"))
            self.more = []
            self.signed_since(time.monotonic(), 5)
        self.assertEqual(self.failed, [])
        self.assertEqual(self.stop_all(), {name: 0 for name in NODES})

    def test_a_machine_that_the_file_does_not_have(self):
        certificates.make_all(self.at("etc"), ["D"])
        self.doors["D"] = self.doors["A"]
        shutil.copy(self.at("etc", "machines"), self.at("etc", "D"))
        self.start("D")
        self.assertEqual(self.running["D"].wait(100), 3)
        self.assertIn("has no machine 'D'", self.log("D"))


if __name__ == "__main__":
    unittest.main()
