"""A fork that somebody makes: a folder is copied, and both copies are run by force. Two mirrors, each over one copy and the other mirror,
find it, keep evidence, and serve on. And a service that ends while a mirror has its calendar."""
import contextlib
import http.client
import json
import os
import shutil
import signal
import subprocess
import sys
import tempfile
import time
import unittest

import stands
from ksi_service import evidence, files
from ksi_service.elements import published_in
from machined import free_ports
from served import REAL, imprint

LONGEST_SECONDS = 60
"""Within this time both mirrors have found the fork."""


class Running(unittest.TestCase):
    """Services and mirrors, each a process of the command."""

    def setUp(self):
        self.room = tempfile.TemporaryDirectory(prefix="ksi-test-", ignore_cleanup_errors=True)
        self.addCleanup(self.room.cleanup)
        self.programs = self.at("bin")
        for name, script in (("ksi_roots", "stand_in_roots.py"), *([] if REAL else [(stands.NODE, "stand_in.py"), ("ksi", "stand_in_ksi.py")])):
            if stands.missing(name) or not REAL:
                stands.make_program(self.programs, name, script)
        self.running = {}
        self.addCleanup(self.end)

    def at(self, *names):
        return os.path.join(self.room.name, *names)

    def start(self, name, *words):
        """Starts a command in the background. Its state of identities is its own, as on another machine."""
        environment = {**os.environ, "KSI_BIN": self.programs, "XDG_STATE_HOME": self.at(f"{name}.state")}
        with open(self.at(f"{name}.log"), "ab") as log:
            self.running[name] = subprocess.Popen([sys.executable, stands.COMMAND, *words], env=environment, stdout=log, stderr=log)

    def service(self, name, port, every, *words):
        self.start(name, "run", self.at(name), "--door", f"127.0.0.1:{port}", "--publish-every", str(every), "--clock-unchecked", *words)

    def mirror(self, name, port, of, *words):
        self.start(name, "mirror", f"http://127.0.0.1:{of}", self.at(name), "--door", f"127.0.0.1:{port}", "--every", "1", *words)

    def stop(self, name):
        process = self.running.pop(name)
        process.send_signal(signal.SIGTERM)
        self.assertEqual(process.wait(200), 0, self.log(name))

    def end(self):
        for process in self.running.values():
            process.kill()
            process.wait()

    def log(self, name):
        return (files.content_of(self.at(f"{name}.log")) or b"").decode(errors="replace")[-1500:]

    def ask(self, port, path, content=None):
        connection = http.client.HTTPConnection(f"127.0.0.1:{port}", timeout=20)
        connection.request("GET" if content is None else "POST", path, content)
        answer = connection.getresponse()
        told = answer.status, answer.read()
        connection.close()
        return told

    def status(self, port):
        return json.loads(self.ask(port, "/status")[1])

    def wait(self, holds, seconds=120):
        end = time.monotonic() + seconds
        while time.monotonic() < end:
            with contextlib.suppress(OSError, ValueError, KeyError):
                if holds():
                    return
            time.sleep(0.2)
        self.fail("it did not come about in time: " + "".join(f"\n{name}: {self.log(name)}" for name in self.running))

    def sign(self, port, number):
        self.wait(lambda: self.ask(port, "/sign", imprint(number).encode())[0] == 200)


class ForkTest(Running):
    def test_two_copies_of_a_folder_that_are_run_by_force(self):
        ports = dict(zip("ABMN", free_ports(4)))
        self.service("A", ports["A"], 2)
        self.sign(ports["A"], 1)
        self.wait(lambda: self.status(ports["A"])["publications"] > 1)
        self.stop("A")
        stands.copied(self.at("A"), self.at("B"))
        self.service("A", ports["A"], 2)
        second, root = published_in(files.content_of(self.at("B", "publications")))[-1]
        self.service("B", ports["B"], 3, "--moved", "--print", f"{second} {root}")
        self.mirror("M", ports["M"], ports["A"], "--also", f"http://127.0.0.1:{ports['N']}")
        self.mirror("N", ports["N"], ports["B"], "--also", f"http://127.0.0.1:{ports['M']}")
        for name, number in (("A", 2), ("B", 3)):
            self.sign(ports[name], number)
        began = time.monotonic()
        self.wait(lambda: all(self.status(ports[name])["forks"] == 1 for name in "MN"))
        self.assertLess(time.monotonic() - began, LONGEST_SECONDS)
        for name in "MN":
            case, = evidence.cases(self.at(name, "evidence"))
            said = subprocess.run([sys.executable, os.path.join(os.path.dirname(stands.HERE), "confirm-fork"), case["path"]], capture_output=True, text=True, check=False)
            self.assertEqual(said.returncode, 0, said.stdout)
            self.assertFalse(case["is_door"])
        before = {name: self.status(ports[name])["publications"] for name in "MN"}
        self.wait(lambda: all(self.status(ports[name])["publications"] > before[name] + 1 for name in "MN"))
        for name, of in (("M", "A"), ("N", "B")):
            mine, theirs = published_in(self.ask(ports[name], "/publications")[1]), published_in(self.ask(ports[of], "/publications")[1])
            self.assertEqual({it for it in theirs if it[0] <= max(mine)[0]} - set(mine), set())
            self.assertEqual([(it["state"]) for it in self.status(ports[name])["sources"]], ["agrees", "fork"])


class GoneTest(Running):
    def test_a_service_whose_folder_is_deleted(self):
        ports = dict(zip("AM", free_ports(2)))
        self.service("A", ports["A"], 2)
        self.mirror("M", ports["M"], ports["A"])
        signed = {}
        for number in range(4):
            self.sign(ports["A"], number)
            signed[imprint(number)] = self.ask(ports["A"], f"/signature/{imprint(number)}")[1]
        last = self.status(ports["A"])["last_second"]
        self.wait(lambda: self.status(ports["M"])["last_publication"] > last)
        self.stop("A")
        shutil.rmtree(self.at("A"))
        self.wait(lambda: [it["state"] for it in self.status(ports["M"])["sources"]] == ["unknown"])
        self.assertEqual(self.ask(ports["M"], "/publications")[0], 200)
        if not REAL:
            # the stand-ins' signatures are none: test_mirror_served.py extends others
            return
        for signature in signed.values():
            self.assertEqual(self.ask(ports["M"], "/extend", signature)[0], 200)


if __name__ == "__main__":
    unittest.main()
