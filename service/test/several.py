"""What tests of several machines share: their hosts in one process, over a wire that a test can cut, with stand-ins for the nodes. At the
end the machines' records have to be one history, and all cores have to agree on each root."""
import asyncio
import os
import time
from unittest import mock

from carried import Wire
from hosted import Hosted, imprint
from ksi_service.admission import Busy
from ksi_service.desk import Minority, NotSigned
from ksi_service.host import Host
from ksi_service.messages import decree_of, second_of
from ksi_service.places import Places
from ksi_service.plan import Plan
from ksi_service.publishing import Publishing
from ksi_service.record import Signed, told

THREE = {"A": ("c0", "a0"), "B": ("c1", "a1"), "C": ("c2", "a2")}


class Machines:
    """The machines of a plan."""

    def __init__(self, room, nodes, parents, start, publish_every):
        self.room = room
        self.nodes = nodes
        self.publish_every = publish_every
        cores = sum(name[0] == "c" for names in nodes.values() for name in names)
        self.plan = Plan(cores, int(time.time()) if start is None else start, tuple(parents.split(",")))
        self.wire = Wire()
        self.hosts = {}
        self.publishings = {}
        self.ahead = {}
        """By how many seconds the clock of a machine is ahead."""
        self.tasks = []

    def folder(self, name):
        return os.path.join(self.room, name)

    def places(self, name):
        return Places(name, {it: f"{it}:7443" for it in self.nodes}, self.nodes)

    def host(self, name, folder=None):
        folder = folder or self.folder(name)
        os.makedirs(folder, exist_ok=True)
        with open(os.path.join(folder, "plan"), "w", encoding="ascii") as file:
            file.write(self.plan.text())
        return Host(folder, self.plan, self.places(name), self.wire.carrier(name), self.publish_every, now=lambda: time.time() + self.ahead.get(name, 0))

    async def start(self, *names):
        """Starts machines, and waits until they drive seconds."""
        for name in names:
            self.hosts[name] = self.host(name)
        await asyncio.wait_for(asyncio.gather(*(self.begin(name) for name in names)), 120)

    async def begin(self, name):
        host = self.hosts[name]
        await host.begin()
        self.publishings[name] = Publishing(host, host.folder, self.publish_every)
        self.tasks.append(asyncio.create_task(self.publishings[name].run()))

    async def stop(self, *names):
        for name in names:
            await self.hosts.pop(name).stop()

    async def crash(self, *names):
        """Ends hosts as if their machines lost power: nothing more leaves, and nothing more is written."""
        for name in names:
            host = self.hosts.pop(name)
            self.wire.takes.pop(name, None)
            host.record.failed = True
            for node in host.nodes.values():
                node.stopping = True
                node.kill()
            with mock.patch.object(self.wire, "deliver", lambda *_: None):
                await host.stop()

    async def end(self):
        for task in self.tasks:
            task.cancel()
        await asyncio.gather(*self.tasks, return_exceptions=True)
        await asyncio.gather(*(it.stop() for it in self.hosts.values()))

    async def sign(self, *names, count=1, first=0):
        """Signs at these machines' doors in turn. Returns how long each request took. No hash is zero: alone in its second it would have the
        root of a second without requests, and would never be signed."""
        async def one(number):
            began = time.monotonic()
            while True:
                try:
                    text, _ = await self.hosts[names[number % len(names)]].desk.sign(imprint(number + 1))
                except (Busy, Minority, NotSigned):
                    # as a client that is answered 503, as on a machine with too little of a processor
                    await asyncio.sleep(0.2)
                else:
                    assert text[:64] == imprint(number + 1)
                    return time.monotonic() - began
        return await asyncio.gather(*(one(first + number) for number in range(count)))

    async def until(self, holds, seconds=150):
        end = time.monotonic() + seconds
        while not holds():
            assert time.monotonic() < end, "it did not come about in time"
            await asyncio.sleep(0.02)

    def ballots(self):
        return sum(driver.ballots for host in self.hosts.values() for driver in host.drivers)

    def next(self):
        """The first second that each core which runs lacks."""
        return {name: core.next for host in self.hosts.values() for name, core in host.cores.items()}


class Several(Hosted):
    def play(self, work, nodes=None, parents="c0,c1,c2", start=None, publish_every=3600, started=None):
        """Runs machines, and a play with them."""
        async def go():
            machines = Machines(self.folder, nodes or THREE, parents, start, publish_every)
            try:
                await machines.start(*(machines.nodes if started is None else started))
                return await asyncio.wait_for(work(machines), 300)
            finally:
                await machines.end()
        result = asyncio.run(go())
        self.see_history(nodes or THREE)
        return result

    def see_history(self, nodes):
        """Each line that came from another machine has to be a message of the step that it names, and each second has one root."""
        steps = {name: [it for it in told(os.path.join(self.folder, name, "record")) if not isinstance(it, Signed)]
                 for name in nodes if os.path.isdir(os.path.join(self.folder, name, "record"))}
        roots, lines = {}, 0
        for step in (it for found in steps.values() for it in found):
            if step.message is not None and len(step.message) == 3:
                machine, number, place = step.message
                sends = [row for row in steps[machine][number].block if row.startswith("send ")]
                self.assertEqual(sends[place], f"send {step.node} {step.line}")
                lines += 1
            for row in step.block or []:
                text = row.split(" ", 2)[-1]
                if row.startswith("send ") and decree_of(text):
                    self.assertEqual(roots.setdefault(second_of(text), decree_of(text)), decree_of(text))
        self.lines_between = lines
        self.roots = roots
