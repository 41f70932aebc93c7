"""The folders that hosts of three machines leave, checked as one run, each alone, and by digests."""
import asyncio
import contextlib
import os
import random
import subprocess
import sys
import time
import unittest
from unittest import mock

import stands
from hosted import imprint
from several import THREE, Several
from ksi_service import apart, check, digests
from ksi_service.errors import ServiceError
from ksi_service.folders import Folders


class RunTest(Several):
    async def sign(self, machines, *names, count, first):
        """Signs at these doors, and notes what clients see for the judge."""
        async def one(number):
            name, text = names[number % len(names)], None
            while text is None:
                began = time.time()
                with contextlib.suppress(ServiceError):
                    text, _ = await machines.hosts[name].desk.sign(imprint(number))
                self.rows.append(f"sign {imprint(number)} {name} {began:.3f} {time.time():.3f} {200 if text else 503} {text or '-'}\n")
                await asyncio.sleep(0.1)
        await asyncio.gather(*(one(first + number) for number in range(count)))

    def fetch(self, machines):
        for name, it in machines.publishings.items():
            content = it.publications.content
            self.rows.append(f"publications - {name} {time.time():.3f} {time.time():.3f} {404 if content is None else 200} {'-' if content is None else content.hex()}\n")

    def judge(self, **words):
        """What the judge prints, with its status."""
        rows = os.path.join(self.folder, "rows")
        with open(rows, "w", encoding="ascii") as file:
            file.writelines(self.rows)
        ran = subprocess.run([sys.executable, os.path.join(os.path.dirname(stands.HERE), "judge"), rows, *(os.path.join(self.folder, it) for it in THREE), "--stand-ins"],
                             env={**os.environ, "KSI_BIN": os.path.join(self.folder, "bin")}, capture_output=True, text=True, check=False)
        return ran.returncode, ran.stdout + ran.stderr

    def check_all(self):
        """What was compared over all folders, and how many lines between machines by digests."""
        folders = [os.path.join(self.folder, name) for name in THREE]
        paths = [f"{folder}.digests" for folder in folders]
        with mock.patch.dict(os.environ, KSI_BIN=stands.make_retrace(os.path.join(self.folder, "bin"))), mock.patch.object(check, "use", lambda *_: (0, 0)):
            found = check.check(folders, say=lambda text: None)
            counts = [apart.hold_all(Folders(folder)) for folder in folders]
            for folder, path in zip(folders, paths):
                digests.write(folder, path)
        self.assertEqual(sum(it.steps for it in counts), found.steps)
        others = sum(it.others for it in counts)
        self.assertEqual(digests.compare(paths), others)
        return found, others

    def test_machines_that_crash_and_messages_that_are_lost_and_late(self):
        dice = random.Random(11)

        def delays(sender, receiver):
            if dice.random() < 0.03:
                return []
            return [dice.choice([0, 0, 0, dice.random() / 2]) for _ in range(1 + (dice.random() < 0.03))]

        async def work(machines):
            machines.wire.delays = delays
            for number, name in enumerate(("A", "B", "C")):
                others = [it for it in THREE if it != name]
                await self.sign(machines, *THREE, count=4, first=100 * number)
                await machines.crash(name)
                self.fetch(machines)
                await self.sign(machines, *others, count=2, first=100 * number + 50)
                await machines.start(name)
            last = int(time.time())
            await machines.until(lambda: all((it.publications.last() or 0) >= last for it in machines.publishings.values()))
            await asyncio.sleep(0.3)
            self.fetch(machines)
        self.rows = []
        self.play(work, publish_every=1)
        found, others = self.check_all()
        self.assertGreaterEqual(found.signatures, 18)
        self.assertGreater(others, 50)
        self.assertGreater(found.publications, 5)
        status, said = self.judge()
        self.assertEqual(status, 0, said)
        self.assertIn(f"one history: {found.steps} steps ({found.unsaid} without a reply) and {found.signatures} signatures are the model's", said)
        self.assertRegex(said, "18 of [0-9]+ attempts were signed")
        lost = next(it for it in self.rows if it.startswith("sign ") and " 200 " in it)
        self.rows.append(lost.replace(" 200 ", " 200 00"))
        self.assertRegex(self.judge()[1], "WRONG: lost: the signature of .* is on no record")


if __name__ == "__main__":
    unittest.main()
