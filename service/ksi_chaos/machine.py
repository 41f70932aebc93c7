"""One machine of a service whose network, clock and disk are made wrong from outside: `python3 -m ksi_chaos.machine FOLDER NAME ..`.

The present faults are in a file of JSON, the control, which another process replaces:

    ahead       by how many seconds the clock is ahead; behind if it is negative
    mute, deaf  machines that get nothing from this one, and machines from which nothing arrives
    hang        whether a write of the record does not return
    calm        whether no more lines are cut, and no power fails in a write of the record
    lost, twice, late   the shares of batches that are lost, sent twice, and delayed for up to a second

The clock is a replaced `time.time` of this process: the service reads its clock by that alone. So this module is imported first."""
import json
import sys
import time

REAL_TIME = time.time


class Control:
    def __init__(self, path):
        self.path = path
        self.values = {}
        self.read()

    def read(self):
        with open(self.path, encoding="ascii") as file:
            self.values = json.load(file)

    def get(self, name, other=0):
        return self.values.get(name, other)


if __name__ == "__main__":
    CONTROL = Control(sys.argv[4])
    time.time = lambda: REAL_TIME() + CONTROL.get("ahead")

import asyncio
import random

from ksi_service import joining, logs, running, service
from ksi_service.clocks import ClockCheck
from ksi_service.places import Places

from . import host

READ_SECONDS, HANG_SECONDS = 0.05, 0.1
"""How often the control is read, and how often a write that hangs looks for it."""
SECONDS_TO_CUT, SECONDS_TO_POWER_CUT = 20, 90
"""How long it takes on average until a line is cut, and until the power fails in a write of the record."""
FORGET_EVERY, CUT_EVERY, PUBLISH_EVERY = 3, 5, 5


class Troubled:
    """A carrier over another one, with trouble on the way (ksi_service.carrier.Carrier)."""

    def __init__(self, carrier, control, notes, dice):
        self.carrier = carrier
        self.may_succeed = carrier.may_succeed
        self.control = control
        self.notes = notes
        self.dice = dice
        self.late = set()

    async def begin(self, take):
        def arrived(machine, batch):
            if machine in self.control.get("deaf", []):
                self.notes.add("batches that a cut kept away")
            else:
                take(machine, batch)
        await self.carrier.begin(arrived)

    async def send(self, machine, batch, patience):
        if machine in self.control.get("mute", []):
            self.notes.add("batches that a cut kept away")
            await asyncio.sleep(min(patience, 0.5))
            return False
        happens = {name: self.dice.random() < self.control.get(name) for name in ("lost", "twice", "late")}
        if happens["lost"]:
            self.notes.add("batches lost")
            return True
        if happens["late"]:
            self.notes.add("batches held back")
            self.spawn(self.send_late(machine, batch, patience))
            return True
        if happens["twice"]:
            self.notes.add("batches repeated")
            await self.carrier.send(machine, batch, patience)
        return await self.carrier.send(machine, batch, patience)

    def spawn(self, work):
        task = asyncio.create_task(work)
        self.late.add(task)
        task.add_done_callback(self.late.discard)

    async def send_late(self, machine, batch, patience):
        await asyncio.sleep(self.dice.random())
        await self.carrier.send(machine, batch, patience)

    def add(self, machine, address, limit=None):
        self.carrier.add(machine, address, limit)

    def remove(self, machine):
        self.carrier.remove(machine)

    def reachable(self):
        return self.carrier.reachable()

    async def stop(self):
        for task in self.late:
            task.cancel()
        await self.carrier.stop()


class Machine(service.Service):
    """A machine's service whose record hangs now and then, whose lines are cut and whose power fails."""

    def __init__(self, control, notes, seed, *words, **options):
        super().__init__(*words, **options)
        self.control = control
        self.notes = notes
        self.saboteur = host.Saboteur(self, notes, seed)
        self.write = self.host.record.write
        self.host.record.write = self.write_or_hang
        self.sabotage = []

    def write_or_hang(self, content, steps):
        """Runs in the record's own thread."""
        if self.control.get("hang"):
            self.notes.add("writes of a record that hung")
        while self.control.get("hang"):
            time.sleep(HANG_SECONDS)
        return self.write(content, steps)

    async def follow(self, saboteur):
        while True:
            self.control.read()
            if self.control.get("calm"):
                saboteur.cancel()
                self.saboteur.power_fails = False
                self.saboteur.flips.calm = True
            await asyncio.sleep(READ_SECONDS)

    async def begin(self):
        saboteur = asyncio.create_task(self.saboteur.work())
        self.sabotage = [saboteur, asyncio.create_task(self.follow(saboteur))]
        await super().begin()

    async def stop(self):
        for task in self.sabotage:
            task.cancel()
        await super().stop()


def serve(folder, name, notes, control, etc, door, seed):
    """Runs a machine until it is ended."""
    noted, dice = host.Notes(notes), random.Random(seed)
    host.SECONDS_TO_CUT = SECONDS_TO_CUT
    host.SECONDS_TO_POWER_CUT = SECONDS_TO_POWER_CUT
    noted.add("starts of a host")
    logs.begin()
    words = joining.Words(f"{etc}/{name}/machines")

    def make(*of, **options):
        places = Places.read(words.machines, name, of[1])
        carrier = Troubled(joining.carrier_of(words, name, places, of[1], {}), control, noted, dice)
        return Machine(control, noted, seed, *of, places=places, carrier=carrier, **options)
    joining.take_plan(words, folder)
    address, port = door.split(":")
    asyncio.run(running.run(folder, address=(address, int(port)), make=make, publish_every=PUBLISH_EVERY, cut_every=CUT_EVERY, forget_every=FORGET_EVERY,
                            clock=ClockCheck(unchecked=True, now=time.time)))


if __name__ == "__main__":
    serve(*sys.argv[1:4], CONTROL, *sys.argv[5:7], int(sys.argv[7]))
