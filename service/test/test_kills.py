"""The service while its processes and its host are killed, and on a full disk."""
import concurrent.futures
import http.client
import os
import random
import signal
import subprocess
import time
import unittest

from ksi_service import files
from ksi_service.elements import published_in
from served import Served, imprint


class KillsTest(Served):
    def test_kills_of_processes_and_host(self):
        """Sixty kills, with signing going on: each request that was answered has a signature that the record knows."""
        dice, answered, kills = random.Random(11), [], 0

        def sign(number):
            reasons = []
            for _ in range(200):
                try:
                    status, content = self.ask("/sign", imprint(number))
                    if status == 200:
                        answered.append(content)
                        return None
                    reasons.append(content)
                except (OSError, http.client.HTTPException) as error:
                    reasons.append(error)
                time.sleep(0.2)
            return reasons
        self.start()
        with concurrent.futures.ThreadPoolExecutor(16) as pool:
            asks = [pool.submit(sign, number) for number in range(120)]
            while kills < 60:
                if kills % 20 == 19:
                    self.kill()
                    self.start()
                else:
                    try:
                        for number in dice.sample(sorted(self.status()["processes"].values()), 1):
                            os.kill(number, signal.SIGKILL)
                    except (OSError, http.client.HTTPException, ValueError):
                        # the host is down, or no process of a node runs
                        pass
                kills += 1
                time.sleep(dice.uniform(0.02, 0.25))
            self.assertEqual([it.result() for it in asks if it.result()], [])
        self.wait_for_publication(int(time.time()))
        with open(os.path.join(self.folder, "publications"), "rb") as file:
            self.assertEqual(published_in(file.read())[-1][0], self.status()["last_publication"])
        self.command("stop")
        self.assertEqual(len(answered), 120)
        told = self.checked()
        if told:
            self.assertGreaterEqual(told.signatures, 120)

    def test_a_full_disk(self):
        """A file system of 2 MiB. Where none can be mounted, the host loses the right to write longer files."""
        os.mkdir(self.folder)
        is_mounted = subprocess.run(["mount", "-t", "tmpfs", "-o", "size=2m", "tmpfs", self.folder], capture_output=True, check=False).returncode == 0
        if is_mounted:
            self.addCleanup(subprocess.run, ["umount", "-l", self.folder], check=True)
        self.start()
        self.assertEqual(self.ask("/sign", imprint(1))[0], 200)
        filler = os.path.join(self.folder, "filler")
        if is_mounted:
            self.fill(filler)
        else:
            subprocess.run(["prlimit", "--pid", str(self.process), "--fsize=1"], check=True)
        for _ in range(1200):
            if not os.path.exists(f"/proc/{self.process}"):
                break
            time.sleep(0.1)
        self.assertFalse(os.path.exists(f"/proc/{self.process}"), "a host goes on without a record")
        files.remove(filler)
        self.start()
        self.assertEqual(self.ask("/sign", imprint(2))[0], 200)
        self.wait_for_publication(int(time.time()))
        self.command("stop")
        self.checked()

    def fill(self, path):
        with open(path, "wb", buffering=0) as file:
            try:
                while True:
                    file.write(b"\0" * 4096)
            except OSError:
                pass


if __name__ == "__main__":
    unittest.main()
