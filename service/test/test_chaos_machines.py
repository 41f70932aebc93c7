"""What chaos over several machines does to a carrier, a clock and a record, each by itself; and a short run of it."""
import asyncio
import json
import os
import random
import shutil
import subprocess
import sys
import tempfile
import time
import types
import unittest

import stands
from ksi_chaos.machine import Control, Machine, Troubled


class Notes:
    def __init__(self):
        self.words = []

    def add(self, text):
        self.words.append(text)


class Carrier:
    """A carrier that keeps what is sent."""

    may_succeed = True

    def __init__(self):
        self.sent = []
        self.take = None

    async def begin(self, take):
        self.take = take

    async def send(self, machine, batch, patience):
        self.sent.append((machine, batch))
        return True

    async def stop(self):
        self.take = None


class ControlTest(unittest.TestCase):
    def setUp(self):
        self.room = tempfile.TemporaryDirectory(prefix="ksi-test-")
        self.addCleanup(self.room.cleanup)
        self.path = os.path.join(self.room.name, "control")
        self.write()
        self.control = Control(self.path)
        self.notes = Notes()

    def write(self, **values):
        with open(self.path, "w", encoding="ascii") as file:
            json.dump(values, file)

    def set(self, **values):
        self.write(**values)
        self.control.read()

    def test_batches_are_lost_repeated_held_back_and_cut(self):
        all_of = [b"%d" % number for number in range(10)]
        for values, is_received, wanted in (({}, True, all_of), ({"lost": 1}, True, []), ({"mute": ["B"]}, False, []), ({"mute": ["C"]}, True, all_of)):
            self.check(values, is_received, wanted)
        self.check({"twice": 1}, True, [it for it in all_of for _ in range(2)])
        self.check({"late": 1}, True, all_of, is_sorted=True)
        self.assertEqual({it: self.notes.words.count(it) for it in set(self.notes.words)},
                         {"batches lost": 10, "batches repeated": 10, "batches held back": 10, "batches that a cut kept away": 10})

    def check(self, values, is_received, wanted, is_sorted=False):
        self.set(**values)
        carrier = Carrier()

        async def go():
            troubled = Troubled(carrier, self.control, self.notes, random.Random(1))
            found = [await troubled.send("B", b"%d" % number, 0.01) for number in range(10)]
            while troubled.late:
                await asyncio.sleep(0.01)
            return found
        self.assertEqual(asyncio.run(go()), [is_received] * 10)
        arrived = [batch for _, batch in carrier.sent]
        self.assertEqual(sorted(arrived) if is_sorted else arrived, wanted)

    def test_a_machine_is_deaf_to_another(self):
        carrier, taken = Carrier(), []

        async def go():
            await Troubled(carrier, self.control, self.notes, random.Random(1)).begin(lambda *words: taken.append(words))
            self.set(deaf=["C"])
            carrier.take("C", b"kept away")
            carrier.take("B", b"arrives")
        asyncio.run(go())
        self.assertEqual(taken, [("B", b"arrives")])

    def test_a_write_hangs_until_the_disk_is_back(self):
        written = []
        machine = types.SimpleNamespace(control=self.control, notes=self.notes, write=lambda *words: written.append(words))
        self.set(hang=True)
        began = time.monotonic()

        async def go():
            write = asyncio.get_running_loop().run_in_executor(None, Machine.write_or_hang, machine, b"it", 3)
            await asyncio.sleep(0.3)
            self.assertEqual(written, [])
            self.set()
            await write
        asyncio.run(go())
        self.assertEqual((written, self.notes.words), ([(b"it", 3)], ["writes of a record that hung"]))
        self.assertGreater(time.monotonic() - began, 0.3)

    def test_a_clock_is_ahead_in_the_process_alone(self):
        self.write(ahead=1000)
        text = "import sys, runpy, time; real = time.time; sys.argv[1:] = ['', '', '', sys.argv[1]]\n" \
               "try: runpy.run_module('ksi_chaos.machine', run_name='__main__')\nexcept IndexError: print(round(time.time() - real()))\n"
        ran = subprocess.run([sys.executable, "-c", text, self.path], capture_output=True, text=True, check=False, cwd=os.path.dirname(stands.HERE), timeout=60)
        self.assertEqual(ran.stdout, "1000\n", ran.stderr)


@unittest.skipUnless(shutil.which("openssl"), "openssl is not here, so nothing goes over HTTPS between machines")
class RunTest(unittest.TestCase):
    def test_a_short_run(self):
        said = stands.run_script(self, "chaos", "--machines", "--seconds", "15", "--rate", "4", "--seed", "5", "--extensions", "50")
        self.assertTrue(said.startswith("seed 5\n"), said)
        self.assertIn("attempts were signed. Each signature is on a record", said)
        rows = dict(row[2:-2].split(" | ") for row in said.splitlines() if row.startswith("| "))
        self.assertGreaterEqual(int(rows["requests that were signed"]), 5, said)
        self.assertGreaterEqual(int(rows["seconds with one root in all cores' files"]), 10, said)


if __name__ == "__main__":
    unittest.main()
