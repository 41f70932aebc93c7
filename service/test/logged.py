"""What tests of ksi-log share: a folder with logs, the server of log_door.py, and the proved programs or stand-ins for them."""
import contextlib
import io
import os
import subprocess
import sys
import tempfile
import unittest
from unittest import mock

import log_door
import stand_in_lines
import stands
from ksi_log import command, lines, programs

COMMAND = os.path.join(os.path.dirname(stands.HERE), "ksi-log")
SHARED = "/dev/shm"
LONG = b"x" * (lines.LONGEST + 1)


def missing():
    """Why the proved programs are not tried, or None."""
    return stands.missing("ksi", "ksi_blocks")


def make_programs(folder):
    """Makes the stand-ins in a folder, for processes."""
    for name in ("ksi", "ksi_blocks"):
        stands.make_program(folder, name, f"stand_in_lines.py {name}")
    return folder


def run_here(name, *words, keep):
    """A stand-in, without a process for each call."""
    return programs.Ran(*stand_in_lines.run(name, *words))


class Logged(unittest.TestCase):
    def setUp(self):
        # in memory, since each change of a store is synced
        folder = tempfile.TemporaryDirectory(dir=SHARED if os.access(SHARED, os.W_OK) else None)
        self.addCleanup(folder.cleanup)
        self.room = folder.name
        self.log = os.path.join(self.room, "app.log")
        self.calendar, self.url = log_door.opened(self)
        self.environment = {**os.environ, "PYTHONDONTWRITEBYTECODE": "1", "KSI_LOG_DOOR": self.url}
        if missing():
            self.enter(mock.patch.object(programs, "run", run_here))
            self.environment["KSI_BIN"] = make_programs(os.path.join(self.room, "bin"))

    def enter(self, manager):
        """Enters a context until the end of the test."""
        found = manager.__enter__()
        self.addCleanup(manager.__exit__, None, None, None)
        return found

    def path(self, name):
        return os.path.join(self.room, name)

    def write(self, content, name="app.log"):
        with open(self.path(name), "wb") as file:
            file.write(content)

    def append(self, content, name="app.log"):
        with open(self.path(name), "ab") as file:
            file.write(content)

    def run_log(self, name, *words):
        """What a command prints. Raises AssertionError with its reason if it fails."""
        status, out, reason = self.ended(name, *words)
        self.assertEqual(status, 0, reason)
        return out

    def refused(self, name, *words):
        """The reason of a command that fails."""
        status, _, reason = self.ended(name, *words)
        self.assertEqual(status, 1, reason)
        return reason

    def ended(self, name, *words):
        door = ["--door", self.url] if name in ("sign", "prove", "extend", "journal") else []
        out, reason = io.StringIO(), io.StringIO()
        with contextlib.redirect_stdout(out), contextlib.redirect_stderr(reason):
            status = command.main([name, *words, *door])
        return status, out.getvalue(), reason.getvalue()

    def process(self, *words):
        """A process of the command."""
        return subprocess.Popen([sys.executable, COMMAND, *words], env=self.environment, stdout=subprocess.PIPE, stderr=subprocess.STDOUT, text=True)

    def proved(self, number, log="app.log", *words):
        """The verdict on a line that is proved."""
        out = self.path(f"proof-{len(os.listdir(self.room))}")
        self.run_log("prove", self.path(log), "-n", str(number), "-o", out, *words)
        return self.run_log("verify", out)
