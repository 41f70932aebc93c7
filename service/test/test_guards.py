"""A plan goes on only in its newest folder, and only while the clock may be trusted: by the command, over real processes."""
import os
import shutil
import signal
import subprocess
import sys
import time

import stands
from ksi_service import identity
from served import Served, imprint


class GuardTest(Served):
    def path(self, name):
        return os.path.join(self.room.name, name)

    def of_plan(self):
        with open(os.path.join(self.folder, "plan"), "rb") as file:
            return identity.path_of(identity.digest_of(file.read()), "")

    def signed(self, *numbers):
        for number in numbers:
            self.assertEqual(self.ask("/sign", imprint(number))[0], 200)

    def refused(self, words, folder=None, *options):
        self.assertIn(words, self.command("run", folder or self.folder, "--door", "127.0.0.1:0", "--clock-unchecked", *options, status=3))

    def last_print(self):
        """The last publication, as the command prints it."""
        return self.command("publications", "-o", self.path("publications")).split("to be printed: ")[1].strip()

    def run_for_a_while(self, *numbers):
        self.start()
        self.signed(*numbers)
        self.command("stop")

    def test_a_restored_copy_and_then_the_older_folder(self):
        """Seen before there were identities: a copy was run, then the folder itself, and one second was published twice."""
        self.run_for_a_while(1)
        stands.copied(self.folder, self.path("restored"))
        older, self.folder = self.folder, self.path("restored")
        self.outside["KSI_SERVICE"] = self.folder
        self.run_for_a_while(2)
        self.refused("is an older copy", older)
        self.run_for_a_while(3)

    def test_a_copy_from_before_the_last_vote_never_goes_on(self):
        self.start()
        self.signed(1)
        stands.copied(self.folder, self.path("copy"))
        self.signed(2)
        self.kill()
        os.remove(os.path.join(self.path("copy"), "door"))
        self.refused("is an older copy", self.path("copy"))
        self.start()
        self.signed(3)

    def test_a_copy_does_not_run_next_to_the_folder(self):
        self.start()
        self.signed(1)
        stands.copied(self.folder, self.path("copy"))
        self.refused("another host of the plan", self.path("copy"))
        self.signed(2)

    def test_a_killed_host_goes_on(self):
        for number in range(3):
            self.start()
            self.signed(number)
            self.kill()

    def test_an_empty_folder_with_the_plan_is_refused(self):
        self.run_for_a_while(1)
        os.mkdir(self.path("empty"))
        shutil.copy(os.path.join(self.folder, "plan"), self.path("empty"))
        self.refused("is empty, and its plan ran on this machine before", self.path("empty"))

    def test_a_folder_from_elsewhere_needs_to_be_carried(self):
        self.run_for_a_while(1)
        os.remove(self.of_plan())
        self.refused("was run elsewhere")
        self.refused("--moved needs --mirror URL or --print 'SECOND ROOT'", None, "--moved")
        self.assertFalse(os.path.exists(self.of_plan()))
        self.start("--moved", "--print", self.last_print())
        self.signed(2)
        self.command("stop")
        self.run_for_a_while(3)

    def test_a_damaged_identity_is_refused(self):
        self.run_for_a_while(1)
        with open(self.of_plan(), "wb") as file:
            file.write(b"no identity")
        self.refused("is damaged")

    def test_a_folder_of_before_is_taken_in_once_and_that_is_logged(self):
        self.run_for_a_while(1)
        os.remove(self.of_plan())
        os.remove(os.path.join(self.folder, identity.MARK))
        self.start()
        with open(os.path.join(self.folder, "log"), encoding="ascii") as log:
            self.assertIn("is of a version without identities", log.read())
        self.signed(2)

    def test_a_clock_that_is_not_synchronised_signs_nothing(self):
        """The kernel of a test machine may or may not be synchronised: a bound that no clock keeps stands for the latter."""
        host = subprocess.Popen([sys.executable, stands.COMMAND, "run", self.folder, "--door", "127.0.0.1:0", "--clock-bound", "1e-9"], stderr=subprocess.DEVNULL, env=self.outside)
        self.addCleanup(host.wait)
        self.addCleanup(host.kill)
        while not os.path.exists(os.path.join(self.folder, "door")):
            time.sleep(0.02)
        status, body = self.ask("/sign", imprint(1))
        self.assertEqual(status, 503)
        self.assertRegex(body.decode(), "clock")
        self.assertIn("clock", self.status()["clock"]["fault"])
        host.send_signal(signal.SIGTERM)
        self.assertEqual(host.wait(200), 0)

    def test_the_operator_accepts_a_clock(self):
        self.start()
        self.assertIn("accepted", self.command("clock-accepted"))
        with open(os.path.join(self.folder, "log"), encoding="ascii") as log:
            for _ in range(600):
                if "the clock was accepted" in log.read():
                    break
                time.sleep(0.1)
            else:
                self.fail("the log does not say that the clock was accepted")
        self.signed(1)


del Served
