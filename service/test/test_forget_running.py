"""Aggregators that forget rounds while the service runs, over pipes. The run stays the proved world's."""
import concurrent.futures
import http.client
import os
import random
import signal
import threading
import time
import unittest
from unittest import mock

from ksi_service import check
from ksi_service.folders import Folders
from ksi_service.record import Signed, last_state, told
from served import REAL, Served, imprint


class RunningTest(Served):
    def test_who_forgets_signs_all_the_while(self):
        dice, ending, signed = random.Random(3), threading.Event(), []

        def sign(client):
            number = client
            while not ending.is_set():
                number += 100
                while not ending.is_set():
                    try:
                        status, content = self.ask("/sign", imprint(number))
                        if status == 200:
                            signed.append(content)
                            break
                    except (OSError, http.client.HTTPException):
                        time.sleep(0.1)
        self.start("--forget-every", "1")
        with concurrent.futures.ThreadPoolExecutor(24) as pool:
            asks = [pool.submit(sign, client) for client in range(24)]
            # no kill comes before some rounds were forgotten, so that some are
            self.wait_for_forgetting(3)
            for turn in range(8):
                time.sleep(dice.uniform(0.2, 1))
                if turn % 4 == 3:
                    self.kill()
                    self.start("--forget-every", "1")
                else:
                    os.kill(dice.choice(list(self.status()["processes"].values())), signal.SIGKILL)
            ending.set()
            for it in asks:
                it.result()
        self.wait_for_publication(int(time.time()))
        self.wait_for_forgetting(1)
        self.assertIn("ksi_rounds_forgotten_total ", self.ask("/metrics")[1].decode())
        self.command("stop")
        self.assertEqual([it for it in os.listdir(self.folder) if it.endswith(".forgetting")], [])
        handed = {bytes.fromhex(it.text) for it in told(os.path.join(self.folder, "record")) if isinstance(it, Signed)}
        self.assertEqual(set(signed) - handed, set())
        with mock.patch.dict(os.environ, self.outside):
            self.assertEqual(check.facts_there(Folders(self.folder)), sum(it.facts for it in last_state(os.path.join(self.folder, "record"))[0].nodes.values()))
        found = self.checked(samples=1 << 20)
        if found:
            self.assertEqual((found.signatures, found.extended), (len(handed), len(handed)))

    def wait_for_forgetting(self, rounds):
        for _ in range(1800):
            if self.status()["rounds_forgotten"] >= rounds:
                return
            time.sleep(0.1)
        self.fail("nothing was forgotten")

    def test_who_forgot_is_small(self):
        # while aggregators forget, requests wait longer than a door with all parts on would let so many
        self.outside["KSI_OVERLOAD"] = ""
        self.start("--forget-every", "1")
        new, told_of = {name: self.memory(name) for name in ("a0", "a1")}, -1
        with concurrent.futures.ThreadPoolExecutor(150) as pool:
            self.assertEqual({status for status, _ in pool.map(lambda number: self.ask("/sign", imprint(number)), range(900))}, {200})
        while told_of < self.status()["rounds_forgotten"]:
            told_of = self.status()["rounds_forgotten"]
            time.sleep(4)
        after = self.status()
        left = {name: self.memory(name) for name in ("a0", "a1")}
        self.assertEqual((after["asked_again"], after["busy"], after["nodes_up"]), (0, 0, 5))
        self.command("stop")
        facts = last_state(os.path.join(self.folder, "record"))[0]
        for name in ("a0", "a1"):
            # each round takes its closing, and an item would take more than its hash in hex
            self.assertLess(os.path.getsize(os.path.join(self.folder, f"{name}.facts")), 40 + 30 * facts.node(name).facts)
            if REAL:
                # half of the requests would take some 140,000 bytes
                self.assertLess(left[name], new[name] + 100_000)
        self.checked()

    def memory(self, name):
        """How many bytes a process has of its own, without the pages of its program, which come as it does more."""
        with open(f"/proc/{self.status()['processes'][name]}/status", encoding="ascii") as file:
            return sum(int(row.split()[1]) * 1024 for row in file if row.startswith(("RssAnon:", "VmSwap:")))

    def test_who_never_forgets_is_not_told_to(self):
        self.start("--forget-every", "0")
        self.assertEqual(self.ask("/sign", imprint(1))[0], 200)
        self.assertEqual(self.status()["rounds_forgotten"], 0)


if __name__ == "__main__":
    unittest.main()
