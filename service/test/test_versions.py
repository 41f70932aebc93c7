"""Machines whose programs have other versions of the protocol between them: neighbours run together, others take no part. And the status of
a machine about the others."""
import os
import re
import shutil
import urllib.request

from machined import OverHttps
from ksi_service import client, files, version

ONES = "1" * 64


class VersionsTest(OverHttps):
    def setUp(self):
        super().setUp()
        self.programs = {}

    def command_of(self, name):
        return self.programs.get(name) or super().command_of(name)

    def upgrade(self, name, protocol):
        """Gives a machine a program with another version of the protocol."""
        there = self.at(f"program of {name}")
        shutil.rmtree(there, ignore_errors=True)
        package = os.path.dirname(os.path.abspath(version.__file__))
        shutil.copytree(package, os.path.join(there, "ksi_service"), ignore=shutil.ignore_patterns("__pycache__"))
        path = os.path.join(there, "ksi_service", "version.py")
        text, count = re.subn(r"(?m)^PROTOCOL = \d+$", f"PROTOCOL = {protocol}", files.content_of(path).decode())
        self.assertEqual(count, 1)
        files.write(path, text.encode())
        files.write(os.path.join(there, "VERSION"), f"0.0.{protocol}\n".encode())
        self.programs[name] = shutil.copy(super().command_of(name), there)

    def metrics(self, name):
        with urllib.request.urlopen(f"http://{self.doors[name]}/metrics", timeout=10) as answer:
            return dict(row.rsplit(" ", 1) for row in answer.read().decode().splitlines() if row[0] != "#")

    def test_an_upgrade_by_one_version_goes_on_and_one_by_two_takes_no_part(self):
        self.upgrade("C", version.PROTOCOL + 1)
        self.start_all()
        self.assertEqual(len(client.sign([self.doors["C"]], ONES)), 72)
        self.assertEqual((self.status("A")["versions"], self.status("C")["version"], self.status("C")["protocol"]),
                         ({"B": version.version(), "C": f"0.0.{version.PROTOCOL + 1}"}, f"0.0.{version.PROTOCOL + 1}", version.PROTOCOL + 1))
        self.kill("C")
        self.upgrade("C", version.PROTOCOL + 2)
        self.start("C")
        self.wait(lambda: self.status("A")["machines"] == {"B": "there", "C": "refused"} and set(self.status("C")["machines"].values()) == {"refused"})
        self.assertEqual(len(client.sign([self.doors["C"], self.doors["A"]], "2" * 64)), 72)
        self.assertFalse(self.status("C")["ready"])
        logged = [row for row in self.log("A").splitlines() if "of the protocol between machines" in row]
        self.assertEqual(logged, [f"error: C has version {version.PROTOCOL + 2} of the protocol between machines, and this one has {version.PROTOCOL}: its messages are not taken"])
        # the older one again: it takes part
        self.kill("C")
        self.programs.clear()
        self.start("C")
        self.wait(lambda: self.status("A")["machines"]["C"] == "there" and self.status("C")["ready"])
        self.assertEqual(len(client.sign([self.doors["C"]], "3" * 64)), 72)

    def test_metrics_about_other_machines(self):
        self.start_all()
        found = self.metrics("A")
        self.assertEqual(found[f'ksi_build_info{{version="{version.version()}",protocol="{version.PROTOCOL}"}}'], "1")
        for name in "BC":
            # all are on one clock: the offset is the time of a message, which a busy machine makes longer
            self.assertLess(abs(float(found[f'ksi_clock_offset_seconds{{machine="{name}"}}'])), 30)
            self.assertEqual(found[f'ksi_machine_there{{machine="{name}"}}'], "1")
        self.kill("C")
        self.wait(lambda: self.metrics("A")['ksi_machine_there{machine="C"}'] == "0")
        self.wait(lambda: float(self.metrics("A")['ksi_machine_silent_seconds{machine="C"}']) > 3)
        self.assertEqual(self.metrics("A")['ksi_machine_there{machine="B"}'], "1")
