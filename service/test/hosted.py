"""What tests of a host share: one machine with stand-ins for the nodes, and a play with it. And trouble with the messages between nodes."""
import asyncio
import os
import random
import tempfile
import unittest
from unittest import mock

import stands
from ksi_service import driver as drivers
from ksi_service.host import Host
from ksi_service.plan import Plan, parents_of
from ksi_service.record import Signed, told
from ksi_service.service import plan_of


def patient(**pauses):
    """Long pauses of the drivers, by their names there: a busy machine is then not taken for a core that fails."""
    return mock.patch.multiple(drivers, **{"PAUSE": drivers.MOST_PAUSE, "PAUSE_ALONE": drivers.MOST_PAUSE, "OLD_FACTOR": 1, **pauses})


def imprint(number):
    return f"{number:064x}"


class Trouble:
    """What becomes of messages: the shares that are lost, given twice, and held back, and for how many seconds at most."""

    def __init__(self, lost=0.0, twice=0.0, late=0.0, longest=0.5, seed=1):
        self.lost = lost
        self.twice = twice
        self.late = late
        self.longest = longest
        self.dice = random.Random(seed)
        self.losses = 0

    def delays(self):
        """How long each copy of a message is held back."""
        if self.dice.random() < self.lost:
            self.losses += 1
            return []
        copies = 2 if self.dice.random() < self.twice else 1
        return [self.dice.uniform(0, self.longest) if self.dice.random() < self.late else 0 for _ in range(copies)]

    def make(self, host):
        """Makes this trouble between the nodes of a host."""
        give = host.give

        def troubled(*words):
            for delay in self.delays():
                if delay:
                    asyncio.get_running_loop().call_later(delay, give, *words)
                else:
                    give(*words)
        host.give = troubled


class Hosted(unittest.TestCase):
    def setUp(self):
        self.room = tempfile.TemporaryDirectory(prefix="ksi-test-")
        self.addCleanup(self.room.cleanup)
        self.folder = self.room.name
        named = mock.patch.dict(os.environ, KSI_BIN=stands.make(os.path.join(self.folder, "bin")))
        named.start()
        self.addCleanup(named.stop)

    def play(self, work, trouble=None, cores=3, aggregators="2", start=None, is_watched=True, **options):
        """Runs a host, and a play with it. If it is watched, the play fails if the host does."""
        async def go():
            plan = plan_of(self.folder, cores, aggregators) if start is None else Plan(cores, start, parents_of(aggregators, cores))
            with open(os.path.join(self.folder, "plan"), "w", encoding="ascii") as file:
                file.write(plan.text())
            host = Host(self.folder, plan, **options)
            if trouble:
                trouble.make(host)
            try:
                await host.begin()
                playing = asyncio.create_task(asyncio.wait_for(work(host), 300))
                await asyncio.wait([playing, *(host.tasks if is_watched else [])], return_when=asyncio.FIRST_COMPLETED)
                if not playing.done():
                    playing.cancel()
                    host.see_tasks()
                return await playing
            finally:
                await host.stop()
        return asyncio.run(go())

    def steps(self):
        return [it for it in told(os.path.join(self.folder, "record")) if not isinstance(it, Signed)]

    def responders(self):
        """The cores that responded to their aggregators."""
        return {it.node for it in self.steps() if it.line and it.line.startswith("respond ") and it.block and it.block[0] == "answer done"}

    def handed_out(self):
        return [it for it in told(os.path.join(self.folder, "record")) if isinstance(it, Signed)]


async def sign_all(host, numbers):
    return await asyncio.gather(*[host.desk.sign(imprint(number)) for number in numbers])
