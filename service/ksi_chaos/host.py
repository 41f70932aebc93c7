"""The service itself, with trouble on its lines, in its nodes' files and in its record. It is killed from outside, and by itself in the
middle of a write of its record. Each event is noted outside of its disk, one a line."""
import asyncio
import os
import random
import signal

from ksi_service import logs, running, service

from .flips import BELIEVED, FLIPPED, Flips
from .torn import tear, torn_write

LOST = TWICE = LATE = 0.1
LONGEST = 0.5
"""The shares of messages that are lost, repeated and delayed; and the longest delay in seconds."""
TORN = 0.5
"""How often a node's file is torn before the node starts."""
FORGET_EVERY, CUT_EVERY = 3, 15
"""How often nodes forget, and how often a file of the record is closed: cores forget only seconds of closed files."""
SECONDS_TO_CUT, SECONDS_TO_POWER_CUT = 3, 20
"""How long it takes on average until a line is cut, and until the power fails."""
LOST_MESSAGE, FORGOT, FORGOT_BY_CORE = "messages lost", "times that an aggregator forgot rounds", "times that a core forgot seconds"
EVENTS = (
    LOST_MESSAGE,
    "messages repeated",
    "messages held back",
    "node files torn",
    FORGOT,
    FORGOT_BY_CORE,
    FLIPPED,
    BELIEVED,
    "power cuts in a write of the record",
    "lines cut in the middle",
    "starts of the host",
)
"""What the host notes."""


class Notes:
    def __init__(self, path):
        self.file = open(path, "ab", buffering=0)

    def add(self, text):
        self.file.write(f"{text}\n".encode())


class Trouble:
    """Loses, repeats and delays messages between nodes, and notes each."""

    def __init__(self, host, notes, seed):
        self.notes = notes
        self.dice = random.Random(seed)
        self.give = host.give
        host.give = self.give_or_not

    def give_or_not(self, *words):
        for delay in self.noted_delays():
            if delay:
                asyncio.get_running_loop().call_later(delay, self.give, *words)
            else:
                self.give(*words)

    def noted_delays(self):
        delays = self.delays()
        for happened, text in ((not delays, LOST_MESSAGE), (len(delays) == 2, "messages repeated"), (any(delays), "messages held back")):
            if happened:
                self.notes.add(text)
        return delays

    def delays(self):
        """The delay of each copy of a message."""
        if self.dice.random() < LOST:
            return []
        copies = 2 if self.dice.random() < TWICE else 1
        return [self.dice.uniform(0, LONGEST) if self.dice.random() < LATE else 0 for _ in range(copies)]


class Saboteur:
    """Trouble for a service's nodes and its record."""

    def __init__(self, it, notes, seed):
        self.service = it
        self.notes = notes
        self.dice = random.Random(seed)
        self.power_fails = False
        self.calm = False
        """Whether no more files are torn."""
        self.write = it.host.record.write
        it.host.record.write = self.write_or_fail
        self.forget = it.host.forget
        it.host.forget = self.noted_forgetting
        self.flips = Flips(it.host, notes, self.dice)
        for node in it.host.nodes.values():
            node.drop_cache = self.tearing(node, node.drop_cache)

    def tearing(self, node, drop_cache):
        """Tears the node's file now and then before the node starts."""
        path = node.path

        def work():
            state = self.service.host.record.node(node.name)
            # of a file of which seconds are being forgotten it is not known yet which of two it is
            known = state.facts is not None and state.before is None and os.path.exists(path)
            place = state.mark.place if state.mark else None
            if known and not self.flips.before_start(node, state) and not self.calm and self.dice.random() < TORN and tear(path, state.facts, self.dice, place):
                self.notes.add("node files torn")
            drop_cache()
        return work

    async def noted_forgetting(self, name, before):
        left, found = await self.forget(name, before)
        if left < found:
            self.notes.add(FORGOT_BY_CORE if name[0] == "c" else FORGOT)
        return left, found

    def write_or_fail(self, content, steps):
        """Writes to the record. If the power fails, all processes end, and the written bytes are torn."""
        if not self.power_fails:
            return self.write(content, steps)
        self.notes.add("power cuts in a write of the record")
        for node in self.service.host.nodes.values():
            node.kill()
        file = self.service.host.record.file
        try:
            file.write(torn_write(content, os.fstat(file.fileno()).st_size, self.dice))
        finally:
            os.kill(os.getpid(), signal.SIGKILL)

    async def work(self):
        """Cuts lines until the power fails."""
        power = asyncio.get_running_loop().call_later(self.dice.expovariate(1 / SECONDS_TO_POWER_CUT), setattr, self, "power_fails", True)
        try:
            while True:
                await asyncio.sleep(self.dice.expovariate(1 / SECONDS_TO_CUT))
                node = self.dice.choice(list(self.service.host.nodes.values()))
                if node.alive:
                    node.cut()
                    self.notes.add("lines cut in the middle")
        finally:
            power.cancel()


class SabotagedService(service.Service):
    """A service with trouble on its lines, in its nodes' files and in its record. At the end of a run it is calm: it has no trouble."""

    def __init__(self, notes, seed, is_calm, *words, **options):
        super().__init__(*words, **options)
        self.is_calm = is_calm
        self.trouble = None if is_calm else Trouble(self.host, notes, seed)
        self.saboteur = Saboteur(self, notes, seed)
        self.saboteur.calm = is_calm
        self.saboteur.flips.calm = is_calm
        self.sabotage = None

    async def begin(self):
        if not self.is_calm:
            self.sabotage = asyncio.create_task(self.saboteur.work())
        await super().begin()

    async def stop(self):
        if self.sabotage:
            self.sabotage.cancel()
        await super().stop()


def serve(folder, notes, plan, seed, is_calm=False):
    """Runs the service over a folder until it is stopped."""
    noted = Notes(notes)
    noted.add("starts of the host")
    logs.begin()

    def make(*words, **options):
        return SabotagedService(noted, seed, is_calm, *words, **options)
    asyncio.run(running.run(folder, *plan, address=("127.0.0.1", 0), publish_every=5, cut_every=CUT_EVERY, forget_every=FORGET_EVERY, make=make))
