"""The service as people use it."""
import concurrent.futures
import gzip
import http.client
import os
import subprocess
import sys
import time
import unittest

import stands
from ksi_service import hours, record
from ksi_service.elements import published_in
from served import REAL, Served, imprint


class ServiceTest(Served):
    def test_a_day_at_the_desk(self):
        self.start("--cut-every", "1")
        name = self.file("deed", "I owe you one.")
        self.assertIn("signed", self.command("sign", name))
        self.assertIn("another service runs", self.command("start", self.folder, status=1))
        self.wait_for_publication(int(time.time()))
        self.assertEqual(self.ask("/publications")[0], 200)
        if REAL:
            self.assertIn("extended", self.command("extend", f"{name}.ksig"))
        self.command("publications")
        if REAL:
            self.assertIn("accepted", self.command("verify", name, f"{name}.ksig"))
            other = self.file("other", "I owe you two.")
            self.assertIn("refused V1", self.command("verify", other, f"{name}.ksig", status=1))
        self.assertIn("stopped", self.command("stop"))
        self.assertIn("no service runs", self.command("status", status=1))
        if REAL:
            self.assertIn("extended", self.command("extend", f"{name}.ksig"))
            self.command("publications")
            self.assertIn("accepted", self.command("verify", name, f"{name}.ksig"))
        self.checked()
        self.assertIn("00000001.gz", os.listdir(os.path.join(self.folder, "record")))
        self.assertEqual(hours.pack_all(os.path.join(self.folder, "record")), 0)
        if REAL:
            first = os.path.join(self.folder, "record", "00000001")
            with gzip.open(f"{first}.gz") as packed, open(first, "wb") as whole:
                whole.write(packed.read())
            told = self.command("backup", self.folder, os.path.join(self.room.name, "backup"))
            self.assertIn("compressed 1 file of the record", told)
            self.assertIn("whole", told)
            self.assertNotIn("compressed", self.command("check", self.folder))

    def test_aggregators_below_aggregators(self):
        """Two cores; below the one aggregators in a row, as many as may be, below the other a tree of them."""
        self.start("--cores", "2", "--aggregators", "c0,a0,a1,a2,a3,a4,a5,c1,a7,a7,a8")
        with concurrent.futures.ThreadPoolExecutor(30) as pool:
            answers = list(pool.map(lambda number: self.ask("/sign", imprint(number)), range(90)))
        self.assertEqual({status for status, _ in answers}, {200})
        self.wait_for_publication(int(time.time()))
        self.command("stop")
        below = {it.node for it in record.told(os.path.join(self.folder, "record")) if isinstance(it, record.Step) and it.line and it.line.startswith("response ")}
        self.assertGreater(len(below), 4)
        found = self.checked()
        if found:
            self.assertEqual((found.signatures, found.extended), (90, 10))

    def test_two_services_over_one_folder(self):
        self.start()
        self.assertIn(f"another service runs over {self.folder}", self.command("run", self.folder, status=1))
        self.assertIn("another service", self.command("check", self.folder, status=1))
        self.assertEqual(self.ask("/sign", imprint(1))[0], 200)

    def test_who_is_told_to_stop_answers_all_that_it_took(self):
        self.start("--publish-every", "3600")
        told = []

        def sign(number):
            try:
                told.append(self.ask("/sign", imprint(number)))
            except (OSError, http.client.HTTPException) as error:
                told.append((0, error))
        self.assertEqual(self.ask("/sign", imprint(0))[0], 200)
        with concurrent.futures.ThreadPoolExecutor(40) as pool:
            asks = [pool.submit(sign, number) for number in range(1, 41)]
            # under much load some are signed before the last ones wait
            while self.status()["waiting"] + len(told) < 40:
                time.sleep(0.02)
            began = int(time.time()) - 2
            self.assertIn("stopped", self.command("stop"))
            for it in asks:
                it.result()
        self.assertEqual({status for status, _ in told}, {200})
        handed = {bytes.fromhex(it.text) for it in record.told(os.path.join(self.folder, "record")) if isinstance(it, record.Signed)}
        self.assertEqual({content for _, content in told} - handed, set())
        self.assertIn("no service runs", self.command("stop", status=1))
        found = self.checked()
        if found:
            # the last publication covers all of them
            self.assertEqual((found.signatures, found.extended), (41, 10))
        with open(os.path.join(self.folder, "publications"), "rb") as file:
            self.assertGreater(published_in(file.read())[-1][0], began)

    def test_a_log_that_cannot_be_written_ends_nothing(self):
        """As one on a disk that is full, or whose reader has ended."""
        with open("/dev/full", "w", encoding="ascii") as full, subprocess.Popen(
                [sys.executable, stands.COMMAND, "run", self.folder, "--door", "127.0.0.1:0", "--clock-unchecked"], stderr=full, env=self.outside) as host:
            self.addCleanup(host.kill)
            while host.poll() is None and not os.path.exists(os.path.join(self.folder, "door")):
                time.sleep(0.05)
            self.assertIsNone(host.poll())
            self.assertEqual(self.ask("/sign", imprint(1))[0], 200)
            self.assertIn("stopped", self.command("stop"))
            self.assertEqual(host.wait(20), 0)

    def test_a_host_that_was_killed_leaves_no_service_to_be_stopped(self):
        self.start()
        self.kill()
        self.assertIn("the last one was not stopped", self.command("stop", status=1))
        self.assertIn("no service runs", self.command("status", status=1))


if __name__ == "__main__":
    unittest.main()
