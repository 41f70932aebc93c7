"""What tests of the service share: it is started by its command, over real processes. The nodes are the proved programs where they are
built, else stand-ins, whose signatures are none; then what a run is checked by is skipped."""
import hashlib
import http.client
import json
import os
import signal
import subprocess
import sys
import tempfile
import time
import unittest

import stands
from ksi_service import check, replay

REAL = not stands.missing("ksi", "ksi_retrace", stands.NODE)


def imprint(number):
    return hashlib.sha256(b"document %d" % number).hexdigest()


class Served(unittest.TestCase):
    """A folder with a service, which is started by its command and checked at the end."""

    def setUp(self):
        self.room = tempfile.TemporaryDirectory(prefix="ksi-test-")
        self.addCleanup(self.room.cleanup)
        self.folder = os.path.join(self.room.name, "data")
        self.outside = {**os.environ, "KSI_SERVICE": self.folder}
        if not REAL:
            self.outside["KSI_BIN"] = stands.make(os.path.join(self.room.name, "bin"))

    def command(self, *words, status=0):
        told = subprocess.run([sys.executable, stands.COMMAND, *words], env=self.outside, capture_output=True, text=True, check=False, cwd=self.room.name)
        self.assertEqual(told.returncode, status, (words, told.stdout, told.stderr))
        return told.stdout + told.stderr

    def start(self, *words, folder=None):
        told = self.command("start", folder or self.folder, "--door", "127.0.0.1:0", "--publish-every", "2", "--clock-unchecked", *words)
        self.addCleanup(self.end)
        self.process = self.door()[1]
        return told

    def door(self):
        with open(os.path.join(self.folder, "door"), encoding="ascii") as file:
            address, number = file.read().split()
        return address, int(number)

    def end(self):
        try:
            os.kill(self.process, signal.SIGKILL)
        except ProcessLookupError:
            pass

    def kill(self, number=signal.SIGKILL):
        os.kill(self.process, number)
        while os.path.exists(f"/proc/{self.process}"):
            time.sleep(0.02)

    def ask(self, path, body=None):
        connection = http.client.HTTPConnection(self.door()[0], timeout=70)
        connection.request("GET" if body is None else "POST", path, body)
        answer = connection.getresponse()
        told = answer.status, answer.read()
        connection.close()
        return told

    def status(self):
        return json.loads(self.ask("/status")[1])

    def wait_for_publication(self, second):
        for _ in range(1800):
            if self.status()["last_publication"] >= second:
                return
            time.sleep(0.1)
        self.fail("nothing was published")

    def file(self, name, text):
        path = os.path.join(self.room.name, name)
        with open(path, "w", encoding="ascii") as file:
            file.write(text)
        return path

    def checked(self, samples=10):
        """The record is held against the proved world, and replayed to each signature, where the programs for it are here."""
        if not REAL:
            return None
        found = check.check(self.folder, samples, say=lambda text: None, audits=10)
        again = replay.replay(self.folder, os.path.join(self.room.name, "replay"), samples=1000, say=lambda text: None)
        self.assertEqual((again.events, again.signatures, again.signed, again.publications), (found.steps, found.signatures, found.signatures, found.publications))
        return found
