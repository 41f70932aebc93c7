"""The command `doctor`: a line for each thing, and the remedy if it is not well."""
import contextlib
import gzip
import io
import json
import os
import tempfile
import time
import unittest
from unittest import mock

from ksi_service import clocks, command, command_asking, doctor, files, programs
from ksi_service.calendar_files import packed, plan_name
from ksi_service.command_words import Failed
from ksi_service.elements import publications_file
from ksi_service.plan import Plan
from ksi_service.version import version

NOW = int(time.time())
WELL = clocks.Report(True, 0.002)
STATUS = {"ready": True, "version": version(), "clock": {"fault": "", "checked": True}, "plan_seconds_left": 100 * doctor.DAY}


class DoctorTest(unittest.TestCase):
    def setUp(self):
        room = tempfile.TemporaryDirectory(prefix="ksi-test-")
        self.addCleanup(room.cleanup)
        self.folder = room.name
        self.plan = Plan(3, NOW - 10 * doctor.DAY, ("c0", "c1"))
        self.write("plan", self.plan.text().encode())
        self.write("publications", publications_file([(NOW - 100, "ab" * 32)]))
        self.write("anchored", f"{NOW - 100} {'ab' * 32} {NOW - 90}\n".encode())
        os.mkdir(self.at("record"))
        for number in (1, 2):
            self.write(f"record/0000000{number}.gz", gzip.compress(b'["begins", {}]\n'))
        self.write("record/00000003", b'["begins", {}]\n')
        os.mkdir(self.at("calendar"))
        name = plan_name(self.at("plan"), self.plan.start)
        self.write(f"calendar/{name.first_file()}", packed(name, name.first_file(), b"\x01" + bytes(32)))

    def at(self, name):
        return os.path.join(self.folder, name)

    def write(self, name, content):
        files.write(self.at(name), content)

    def doctor(self, status=0, counters=None, report=WELL, absent=None):
        """The lines of the command, by their names."""
        told = io.StringIO()
        ask = mock.Mock(side_effect=Failed("no service runs")) if counters is None else mock.Mock(return_value=json.dumps(counters).encode())
        with contextlib.redirect_stdout(told), contextlib.redirect_stderr(told), mock.patch.object(clocks, "kernel_report", lambda: report), mock.patch.object(command_asking, "ask", ask):
            with mock.patch.object(programs, "missing", lambda names: absent):
                self.assertEqual(command.main(["doctor", self.folder]), status, told.getvalue())
        return {line.split()[1]: " ".join(line.split()) for line in told.getvalue().splitlines() if line[:5].strip() in ("ok", "soon", "wrong")}

    def test_all_is_well(self):
        with mock.patch.object(doctor, "free_bytes", lambda places: dict.fromkeys(places, 1 << 50)):
            found = self.doctor(0, STATUS)
        self.assertEqual(list(found), ["service", "programs", "clock", "disk", "files", "plan", "anchor"])
        self.assertEqual({it.split()[0] for it in found.values()}, {"ok"})
        self.assertIn("the plan, 1 publications, 2 closed files of the record (0 by their digests) and 1 calendar files are whole", found["files"])
        self.assertIn("in 100.0 days", found["plan"])

    def test_a_service_that_does_not_run(self):
        self.assertEqual(self.doctor(1)["service"], f"wrong service does not run: ksi-service start {self.folder}")
        held = files.lock(self.folder)
        self.addCleanup(held.close)
        self.assertIn("soon service the folder is in use", self.doctor(0)["service"])
        self.assertIn("wrong programs not built yet: ksi", self.doctor(1, STATUS, absent="not built yet: ksi")["programs"])

    def test_a_clock(self):
        far = clocks.Report(True, 3.0)
        self.assertIn("wrong clock the clock may be wrong by 3.000 seconds", self.doctor(1, STATUS, far)["clock"])
        out = clocks.Report(False, 0.0)
        self.assertIn("is not synchronised: start chrony", self.doctor(1, STATUS, out)["clock"])
        self.assertIn("soon clock runs with --clock-unchecked", self.doctor(0, {**STATUS, "clock": {"fault": "", "checked": False}}, out)["clock"])
        self.assertIn("the clock was set", self.doctor(1, {**STATUS, "clock": {"fault": "the clock was set by +9.0 seconds"}})["clock"])

    def test_a_disk_that_fills(self):
        for number in (1, 2):
            self.write(f"record/0000000{number}.gz", gzip.compress(b'["begins", {}]\n' + os.urandom(50_000).hex().encode() + b"\n"))
            os.utime(self.at(f"record/0000000{number}.gz"), (NOW, NOW - 3600 * (3 - number)))
        grows = doctor.bytes_a_day(self.at("record"))
        self.assertTrue(24 * 50_000 < grows < 24 * 70_000, grows)
        for free, days, state in ((2 << 30, None, "ok"), (1 << 29, None, "wrong")):
            with mock.patch.object(doctor, "free_bytes", lambda _, free=free: {"data": free}):
                self.assertTrue(self.doctor(int(state == "wrong"), STATUS)["disk"].startswith(state), days)
        with mock.patch.object(doctor, "free_bytes", lambda _: {"data": 2 << 30}), mock.patch.object(doctor, "bytes_a_day", lambda _: 1e9):
            self.assertIn("the room lasts 2 days: make room", self.doctor(0, STATUS)["disk"])

    def test_files_that_are_damaged(self):
        whole = files.content_of(self.at("record/00000001.gz"))
        calendar = self.at(os.path.join("calendar", os.listdir(self.at("calendar"))[0]))
        for path, content in ((self.at("record/00000001.gz"), whole[:-3]), (self.at("publications"), b"KSIPUBLF\x87"), (self.at("plan"), b"cores 9\n"), (calendar, b"KSIROOT1")):
            with self.subTest(path=path):
                kept = files.content_of(path)
                files.write(path, content)
                found = self.doctor(1, STATUS)
                self.assertIn(path, found["files"])
                self.assertIn("bring it back from a backup", found["files"])
                files.write(path, kept)
        self.assertIn("ok files", self.doctor(0, STATUS)["files"])

    def test_a_plan_that_ends(self):
        self.assertIn("soon plan ends", self.doctor(0, {**STATUS, "plan_seconds_left": doctor.DAY})["plan"])
        self.assertIn("wrong plan is over", self.doctor(1, {**STATUS, "plan_seconds_left": 0})["plan"])

    def test_other_machines(self):
        for state, told, wanted in (("there", version(), "ok machine B is there"), ("there", "0.1.0", "soon machine B has version 0.1.0"), ("away", version(), "wrong machine B is away since 77 s"),
                                    ("refused", "9.0.0", "wrong machine B is refused")):
            found = self.doctor(int(wanted.startswith("wrong")), {**STATUS, "machines": {"B": state}, "versions": {"B": told}, "silent_seconds": {"B": 77}})
            self.assertTrue(found["machine"].startswith(wanted), found["machine"])

    def test_anchors(self):
        self.write("anchored", f"{NOW - 400_000} {'ab' * 32} {NOW - 300_000}\n".encode())
        self.assertIn("see why --on-publication fails", self.doctor(1, STATUS)["anchor"])
        os.remove(self.at("anchored"))
        self.assertIn("soon anchor no publication was kept outside", self.doctor(0, STATUS)["anchor"])
        os.remove(self.at("publications"))
        self.assertIn("nothing was published yet", self.doctor(0, STATUS)["publications"])

    def test_a_folder_that_was_no_services(self):
        os.remove(self.at("plan"))
        self.assertEqual(self.doctor(1), {})


if __name__ == "__main__":
    unittest.main()
