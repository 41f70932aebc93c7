"""One machine grows to three, and three to five, while files are signed."""
import asyncio
import json
import os
import signal
import subprocess
import sys
import time

import stands
from machined import OverHttps, free_ports
from several import Several
from test_book import run
from test_succession_doors import AHEAD, MOST_PAUSE, second_of
from test_succession_machines import NextMachines, rows
from ksi_service import client, files, plans
from ksi_service.errors import ServiceError
from ksi_service.plan import Plan
from ksi_service.plans import Before, Content

FIVE = {"A": ("c0", "a0"), "B": ("c1", "a1"), "C": ("c2", "a2"), "D": ("c3",), "E": ("c4",)}


class OneToThreeTest(OverHttps):
    """The only machine of a plan is A of the next one."""

    def setUp(self):
        super().setUp()
        self.seconds = []

    def start_alone(self):
        words = ["run", self.at("A"), "--door", self.doors["A"], "--publish-every", "5", "--clock-unchecked", "--cores", "1", "--aggregators", "1"]
        with open(self.at("A.log"), "ab") as log:
            self.running["A"] = subprocess.Popen([sys.executable, stands.COMMAND, *words], env=self.environment, stdout=log, stderr=log)
        self.wait(lambda: self.status("A")["ready"])

    def options(self, name):
        return ["--machines", self.at("next", name, "machines")]

    def sign_on(self, number):
        at = 0
        while not self.ending.is_set():
            at += 1
            try:
                content = client.sign(list(self.doors.values()), f"{number + 1:032x}{at:032x}")
                self.seconds.append((time.time(), second_of(content)))
            except ServiceError as reason:
                self.failed.append(str(reason))

    def signed_after(self, second, count=5):
        self.wait(lambda: sum(it > second for _, it in list(self.seconds)) >= count)

    def stop(self, name):
        self.running[name].send_signal(signal.SIGTERM)
        self.assertEqual(self.running.pop(name).wait(60), 0)

    def test_while_files_are_signed(self):
        self.start_alone()
        words = [f"{name}=127.0.0.1:{port}:c{number},a{number}" for number, (name, port) in enumerate(zip("ABC", free_ports(3)))]
        with self.clients():
            self.signed_after(0)
            self.assertIn("--alone NAME says which", run(self, "plan", self.at("other"), *words, "--of", self.at("A"), status=1))
            run(self, "plan", self.at("next"), *words, "--of", self.at("A"), "--alone", "A", "--in", str(AHEAD + 15))
            run(self, "certificates", self.at("next"))
            start = plans.content_in(self.at("next")).plan.start
            self.assertIn("was started with --machines", run(self, "succeed", self.at("next"), "--folder", self.at("A"), status=3))
            self.stop("A")
            for name in "ABC":
                self.start(name)
            self.wait(lambda: self.status("A")["ready"])
            self.assertIn(f"retired at second {start - 1}", run(self, "succeed", self.at("next"), "--folder", self.at("A")))
            self.signed_after(start + 1)
            self.wait(lambda: all(self.is_complete(name) for name in "ABC"))
            times = sorted(at for at, _ in self.seconds)
            # the restart with the certificate of the next plan counts too
            self.assertLessEqual(max(after - before for before, after in zip(times, times[1:])), 2 * MOST_PAUSE)
            # the service survives the loss of the machine that was the only one
            self.kill("A")
            self.signed_after(max(it for _, it in self.seconds))
            self.start("A")
            self.wait(lambda: self.is_complete("A"))
        self.assertEqual(self.failed, [])
        self.assertTrue(min(it for _, it in self.seconds) < start <= max(it for _, it in self.seconds))
        self.assertEqual(json.loads(files.content_of(self.at("B", "retirements"))), [""])
        self.assertEqual(self.status("B")["retired_to_this"], "A")
        self.assertEqual(self.stop_all(), {name: 0 for name in "ABC"})


class ThreeToFiveTest(Several):
    def test_while_requests_are_signed(self):
        async def work(machines):
            await machines.sign("A", "B", "C", count=3)
            content = Content.of(Plan(5, int(time.time()) + 5, ("c0", "c1", "c2")).text(), rows(FIVE))
            for name in "AB":
                machines.hosts[name].succession.retire(content)
            folders = dict(zip("ABC", await asyncio.gather(*(machines.hosts[name].succession.over for name in "ABC"))))
            way = Before(machines.hosts["A"].succession.content, "")
            await machines.stop("A", "B", "C")
            for name in "DE":
                folders[name] = os.path.join(self.folder, name)
                plans.write_folder(folders[name], content, way)
            following = NextMachines(machines, content, folders)
            try:
                await following.start(*FIVE)
                await following.sign(*FIVE, count=10, first=10)
                await following.crash("A", "D")
                await following.sign("B", "C", "E", count=6, first=30)
            finally:
                await following.end()
            self.assertEqual([plans.retirements_in(folders[name]) >= {"A", "B"} for name in "DE"], [True, True])
        self.play(work)
