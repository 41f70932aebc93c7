"""Cores of several machines that forget: never two of a majority at once. And a machine that was away catches up."""
import asyncio
import os
import unittest
from unittest import mock

import stands
from several import Several
from ksi_service import resting as restings
from ksi_service.resting import Resting


class MachinesTest(Several):
    def setUp(self):
        super().setUp()
        stands.make(os.path.join(self.folder, "bin"), "cores,records")

    async def grown(self, machines, count):
        last = max(machines.next().values()) + count
        await machines.until(lambda: min(machines.next().values()) > last, 40)

    async def all_forget(self, machines):
        """Has all cores forget as soon as they may, as hosts that were started together."""
        downs = []

        async def watch():
            while True:
                nodes = [host.nodes[name] for host in machines.hosts.values() for name in host.cores]
                downs.append(sum(not it.runs for it in nodes))
                await asyncio.sleep(0.005)

        async def one(name, host):
            resting = Resting(host)
            while not await resting.forget(f"c{'ABC'.index(name)}"):
                await asyncio.sleep(0.5)
            return resting.times
        watching = asyncio.create_task(watch())
        times = await asyncio.gather(*(one(*it) for it in machines.hosts.items()))
        watching.cancel()
        return times, max(downs)

    def test_the_cores_of_three_machines_forget_one_after_the_other(self):
        async def work(machines):
            await machines.sign("A", "B", "C", count=6)
            await self.grown(machines, 3)
            for host in machines.hosts.values():
                await host.record.cut()
            with mock.patch.object(restings, "MOST_SECONDS", 30):
                times, down = await self.all_forget(machines)
            await machines.sign("A", "B", "C", count=6, first=6)
            return times, down, [host.record.state.forgotten_by_cores > 0 for host in machines.hosts.values()]
        self.assertEqual(self.play(work), ([1, 1, 1], 1, [True] * 3))

    def test_a_machine_that_was_away_while_the_others_forgot_catches_up(self):
        """Its ballots are refused for seconds that the others forgot; it holds them by what they tell."""
        async def work(machines):
            await machines.sign("A", "B", "C", count=3)
            await machines.crash("C")
            await self.grown(machines, 4)
            for name in ("A", "B"):
                host, core = machines.hosts[name], f"c{'AB'.index(name)}"
                await host.record.cut()
                await host.forget(core, host.settled(core))
                await machines.until(lambda: host.nodes[core].alive)
            forgot = [host.record.state.forgotten_by_cores > 0 for host in machines.hosts.values()]
            await machines.start("C")
            await self.grown(machines, 2)
            await machines.sign("C", count=3, first=3)
            return forgot, sum(host.told for host in machines.hosts.values())
        forgot, told = self.play(work)
        self.assertEqual(forgot, [True, True])
        self.assertGreater(told, 0)


if __name__ == "__main__":
    unittest.main()
