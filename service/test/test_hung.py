"""A service of one machine one of whose nodes hangs, as on a disk that does not return, while it is told to stop."""
import os
import signal
import unittest

from served import Served, imprint


class HungTest(Served):
    def hang(self, name):
        os.kill(self.status()["processes"][name], signal.SIGSTOP)

    def stopped(self):
        """Stops the service, whose last publication covers all that was signed. The core that hung lacks seconds up to it."""
        last = self.status()["last_second"] - 2
        self.command("stop")
        with open(os.path.join(self.folder, "log"), encoding="utf-8") as file:
            told = file.read()
        self.assertRegex(told, "published second [0-9]+")
        self.assertGreaterEqual(int(told.rpartition("published second ")[2].split(",")[0]), last)
        found = self.checked()
        if found:
            self.assertGreaterEqual(found.extended, 2)

    def test_a_core_hangs_just_before_the_stop(self):
        self.start("--publish-every", "3600")
        for number in range(2):
            self.assertEqual(self.ask("/sign", imprint(number))[0], 200)
        self.hang("c0")
        self.stopped()

    def test_a_core_hangs_for_a_while(self):
        self.start("--publish-every", "3600")
        self.hang("c0")
        for number in range(2):
            self.assertEqual(self.ask("/sign", imprint(number))[0], 200)
        self.stopped()


if __name__ == "__main__":
    unittest.main()
