"""Several machines whose clocks are set while they run: none of them drives until its operator has looked, and its core still votes."""
import asyncio
import time
import unittest

from several import Several
from ksi_service.clocks import ClockCheck
from ksi_service.desk import Minority


class SetClockTest(Several):
    def play_clocks(self, work):
        """Plays with hosts that watch their own clocks, which a test sets by `machines.ahead`."""
        async def with_clocks(machines):
            for name, host in machines.hosts.items():
                host.clock = ClockCheck(unchecked=True, now=host.now)
            return await work(machines)
        return self.play(with_clocks)

    async def refusal(self, host):
        """How a door refuses, once it does."""
        while True:
            try:
                # without a place it would wait
                await asyncio.wait_for(host.desk.sign("1" * 64), 0.2)
            except Minority as reason:
                return str(reason)
            except asyncio.TimeoutError:
                pass

    async def set_all(self, machines, ahead):
        """Sets all clocks, and waits until each host has seen it."""
        for name in machines.nodes:
            machines.ahead[name] = ahead
        await machines.until(lambda: all(it.clock.fault() for it in machines.hosts.values()))

    def accept_all(self, machines):
        for host in machines.hosts.values():
            host.clock.accept()

    def test_a_machine_whose_clock_was_set_votes_and_drives_nothing_until_it_is_accepted(self):
        async def work(machines):
            await machines.sign("A", "B", "C", count=3)
            host = machines.hosts["B"]
            machines.ahead["B"] = 10
            await machines.until(host.clock.fault)
            # that it is right again does not end it
            machines.ahead["B"] = 0
            await machines.until(lambda: machines.hosts["A"].peers["B"].is_off)
            refused, ballots = await self.refusal(host), host.drivers[0].ballots
            await machines.crash("C")
            await machines.until(lambda: not machines.hosts["A"].peers["C"].is_there)
            # of three cores A's and B's are left: B's has to vote for each second
            await machines.sign("A", count=4, first=10)
            ballots = host.drivers[0].ballots - ballots
            host.clock.accept()
            await machines.until(lambda: not machines.hosts["A"].peers["B"].is_off)
            await machines.sign("B", count=4, first=20)
            return refused, ballots
        refused, ballots = self.play_clocks(work)
        self.assertRegex(refused, r"^the clock was set by [+-][0-9.]+ seconds while the host ran: check it, then run `ksi-service clock-accepted`$")
        self.assertLessEqual(ballots, 1)

    def test_a_core_whose_clock_may_not_drive_asks_for_what_it_lacks(self):
        async def work(machines):
            await machines.sign("A", "B", "C", count=3)
            machines.ahead["B"] = 10
            await machines.until(machines.hosts["B"].clock.fault)
            machines.wire.separate("B")
            first = machines.next()["c1"]
            await machines.until(lambda: machines.next()["c0"] > first + 3)
            machines.wire.join()
            await machines.until(lambda: machines.next()["c1"] > first + 3)
            return machines.hosts["B"].clock.fault(), sum(it.told for it in machines.hosts.values())
        fault, told = self.play_clocks(work)
        self.assertIn("the clock was set by", fault)
        self.assertGreater(told, 0)

    def test_clocks_that_all_jump_ahead_decide_nothing_ahead_of_time(self):
        """As if they follow one time source. Differences between machines do not show it."""
        async def work(machines):
            await machines.sign("A", "B", "C", count=3)
            await self.set_all(machines, 86400)
            refused = [await self.refusal(it) for it in machines.hosts.values()]
            await asyncio.sleep(2)
            early = [max(machines.next().values()) - time.time()]
            for name in machines.nodes:
                machines.ahead[name] = 0
            self.accept_all(machines)
            after = await machines.sign("A", "B", "C", count=6, first=10)
            early.append(max(machines.next().values()) - time.time())
            return refused, early, after
        refused, early, after = self.play_clocks(work)
        self.assertTrue(all(it.startswith("the clock was set by +86400.0 seconds") for it in refused), refused)
        self.assertLess(max(early), 2)
        self.assertEqual(len(after), 6)

    def test_seconds_that_were_decided_ahead_of_time_are_waited_for(self):
        """As if the operator accepts a wrong clock, and sets it right later."""
        async def work(machines):
            await machines.sign("A", "B", "C", count=3)
            await self.set_all(machines, 8)
            self.accept_all(machines)
            await machines.sign("A", "B", "C", count=3, first=10)
            await self.set_all(machines, 0)
            self.accept_all(machines)
            last = min(machines.next().values()) - 1
            waits = last - time.time()
            _, second = await asyncio.wait_for(machines.hosts["A"].desk.sign("2" * 64), 60)
            return waits, last, second
        waits, last, second = self.play_clocks(work)
        self.assertGreater(waits, 2)
        self.assertGreater(second, last)


if __name__ == "__main__":
    unittest.main()
