"""Which folder of a plan may go on on a machine: new ones, older copies, other copies, damaged identities, and power loss between
any two writes."""
import os
import tempfile
import unittest
from unittest import mock

import stands
from ksi_service import files, identity
from ksi_service.identity import NotHere, opened

PLAN = "ab" * 32


class PowerLoss(Exception):
    """The machine lost its power before this write."""


class Crash:
    """Lets some writes happen, and loses power at the next one."""

    def __init__(self, writes):
        self.left = writes
        self.real = {"keep": files.keep, "pwrite": os.pwrite}

    def call(self, name):
        def instead(*words):
            if not self.left:
                raise PowerLoss()
            self.left -= 1
            return self.real[name](*words)
        return instead

    def __enter__(self):
        self.patches = [mock.patch.object(files, "keep", self.call("keep")), mock.patch.object(os, "pwrite", self.call("pwrite"))]
        for it in self.patches:
            it.start()
        return self

    def __exit__(self, kind, *_):
        for it in self.patches:
            it.stop()
        return kind is PowerLoss


class TestIdentity(unittest.TestCase):
    def setUp(self):
        room = tempfile.TemporaryDirectory()
        self.addCleanup(room.cleanup)
        self.room = room.name
        self.folder = self.path("data")
        os.mkdir(self.folder)
        self.identity = self.path("state", "it.identity")
        self.said = []
        self.record = 0
        """How many steps the folder's record has. It is on the disk before the identity is written."""

    def path(self, *names):
        return os.path.join(self.room, *names)

    def open(self, steps, folder=None, plan=PLAN, machine="A"):
        return opened(folder or self.folder, plan, steps, machine, self.identity, self.said.append)

    def run_to(self, steps):
        it = self.open(self.record)
        self.record = steps
        try:
            it.reached(steps)
        finally:
            it.close()

    def refused(self, words, steps, folder=None, **options):
        with self.assertRaises(NotHere) as caught:
            self.open(steps, folder, **options).close()
        self.assertIn(words, str(caught.exception))
        self.assertEqual(caught.exception.status, 3)

    def test_a_folder_of_one_of_several_machines_is_not_run_alone(self):
        """As by a start without --machines: its other nodes would begin with empty files."""
        opened(self.folder, "5" * 64, 10, "A").close()
        with self.assertRaisesRegex(NotHere, "is the folder of machine A, one of several: start it with --machines"):
            opened(self.folder, "5" * 64, 10)

    def test_a_new_folder_gets_an_identity_and_goes_on(self):
        self.run_to(10)
        self.run_to(20)
        self.assertEqual(self.said, [])
        self.assertEqual(identity.read(self.identity).step, 20)

    def test_a_folder_ahead_of_its_identity_is_normal(self):
        self.run_to(10)
        self.record = 12
        self.run_to(15)

    def test_an_older_copy_never_goes_on(self):
        self.run_to(10)
        stands.copied(self.folder, self.path("copy"))
        self.run_to(11)
        self.refused("is an older copy: its record has 10 steps, and 11", 10, self.path("copy"))
        self.refused("is an older copy", 10)

    def test_a_copy_that_ran_on_makes_the_original_the_older_one(self):
        self.run_to(10)
        stands.copied(self.folder, self.path("restored"))
        it = self.open(10, self.path("restored"))
        it.reached(12)
        it.close()
        self.refused("is an older copy", 10)

    def test_an_empty_folder_does_not_go_on_for_a_plan_that_ran(self):
        self.run_to(10)
        os.mkdir(self.path("empty"))
        self.refused("is empty, and its plan ran on this machine before, 10 steps far", 0, self.path("empty"))

    def test_a_folder_that_ran_elsewhere_is_refused(self):
        self.run_to(10)
        os.remove(self.identity)
        self.refused("was run elsewhere", 10)

    def test_a_folder_of_before_is_taken_in_once(self):
        self.open(10).close()
        self.assertEqual(len(self.said), 1)
        stands.copied(self.folder, self.path("copy"))
        os.remove(self.path("copy", identity.MARK))
        self.refused("is not the folder of its plan that runs on this machine", 10, self.path("copy"))

    def test_another_folder_of_the_plan_is_refused(self):
        self.run_to(10)
        other = self.path("other")
        os.mkdir(other)
        files.write(os.path.join(other, identity.MARK), b"00" * 16 + b"\n")
        self.refused("is not the folder of its plan that ran on this machine last", 12, other)

    def test_two_hosts_of_one_plan_do_not_run_at_once(self):
        it = self.open(0)
        stands.copied(self.folder, self.path("copy"))
        self.refused("another host of the plan", 0, self.path("copy"))
        it.close()
        self.open(0).close()

    def test_a_damaged_identity_is_refused(self):
        self.run_to(10)
        whole = files.content_of(self.identity)
        for content in (b"", whole[:-1], b"\0" * len(whole), whole + whole):
            with open(self.identity, "wb") as file:
                file.write(content)
            self.refused("is damaged", 10)
        with open(self.identity, "wb") as file:
            file.write(whole)
        self.open(10).close()

    def test_each_flipped_byte_leaves_the_other_slot(self):
        self.run_to(10)
        whole = files.content_of(self.identity)
        for at in range(0, len(whole), 3):
            content = bytearray(whole)
            content[at] ^= 1
            with open(self.identity, "wb") as file:
                file.write(content)
            self.assertLessEqual(identity.read(self.identity).step, 10)

    def test_an_identity_of_another_plan_or_machine_is_refused(self):
        self.run_to(10)
        self.refused("of another plan or machine", 10, plan="cd" * 32)
        self.refused("of another plan or machine", 10, machine="B")

    def test_after_a_power_loss_between_any_two_writes_the_folder_goes_on(self):
        for writes in range(8):
            with self.subTest(writes=writes):
                self.setUp()
                with Crash(writes):
                    self.run_to(1)
                    self.run_to(2)
                self.run_to(3)

    def test_a_torn_write_leaves_the_step_before(self):
        self.run_to(10)
        it = self.open(10)
        with mock.patch.object(os, "pwrite", lambda file, content, at: TORN(file, content[:100], at)):
            it.reached(11)
        it.close()
        self.refused("is an older copy", 9)
        self.run_to(12)

    def test_a_folder_that_was_carried_goes_on_where_nothing_newer_ran(self):
        self.run_to(10)
        os.remove(self.identity)
        identity.moved_in(self.folder, PLAN, 10, "A", self.identity).close()
        self.run_to(11)
        with self.assertRaises(NotHere):
            identity.moved_in(self.folder, PLAN, 10, "A", self.identity)

    def test_its_place_is_what_systemd_gives_or_the_state_folder(self):
        with mock.patch.dict(os.environ, {"STATE_DIRECTORY": "/var/lib/ksi-identity:/other"}):
            self.assertEqual(identity.path_of(PLAN, "A"), f"/var/lib/ksi-identity/{PLAN[:32]}-A.identity")
        with mock.patch.dict(os.environ, {"STATE_DIRECTORY": "", "XDG_STATE_HOME": "/state"}):
            self.assertEqual(identity.path_of(PLAN, ""), f"/state/ksi/{PLAN[:32]}.identity")
        self.assertEqual(identity.path_of(PLAN, "", "/else"), "/else")


TORN = os.pwrite

if __name__ == "__main__":
    unittest.main()
