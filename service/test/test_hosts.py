"""Several machines without a head, while all is well, and while machines and messages are lost."""
import asyncio
import os
import random
import time
import unittest

from hosted import patient
from several import Several
from ksi_service.desk import Minority
from ksi_service.record import Step, told

ALONE = "it counts ballots, which a busy machine repeats"


class TogetherTest(Several):
    def test_each_door_signs_and_a_second_costs_one_ballot(self):
        async def work(machines):
            await machines.sign("A", "B", "C", count=9)
            before, began = machines.ballots(), time.time()
            took = await machines.sign("A", "B", "C", count=60, first=9)
            await asyncio.sleep(3)
            return took, machines.ballots() - before, time.time() - began
        with patient():
            took, ballots, seconds = self.play(work)
        self.assertEqual(len(took), 60)
        self.assertLessEqual(ballots, seconds + 3)
        self.assertGreater(self.lines_between, 20)

    def test_all_machines_publish_the_same_bytes(self):
        async def work(machines):
            await machines.until(lambda: all(len(it.publications.published) >= 3 for it in machines.publishings.values()))
            await machines.crash("C")
            await asyncio.sleep(3)
            await machines.start("C")
            last = int(time.time())
            await machines.until(lambda: all((it.publications.last() or 0) >= last for it in machines.publishings.values()))
            return [it.publications.published for it in machines.publishings.values()]
        files = self.play(work, publish_every=1)
        least = min(map(len, files))
        self.assertGreater(least, 5)
        self.assertEqual([it[:least] for it in files], [files[0][:least]] * 3)
        # no second is left out, also none of those that C was away
        seconds = [second for second, _ in files[2]]
        self.assertEqual(seconds, list(range(seconds[0], seconds[-1] + 1)))

    def test_aggregators_below_those_of_other_machines(self):
        """A machine has aggregators alone, and one has a door alone."""
        nodes = {"A": ("c0", "a0"), "B": ("c1", "a1"), "C": ("c2", "a2"), "D": ("a3", "a4"), "E": ()}
        took = self.play(lambda machines: machines.sign("A", "B", "C", "D", "E", count=100), nodes=nodes, parents="c0,c1,a0,a1,c2")
        self.assertEqual(len(took), 100)

    def test_lost_repeated_and_late_batches(self):
        async def work(machines):
            dice = random.Random(3)

            def delays(sender, receiver):
                if dice.random() < 0.05:
                    return []
                return [dice.uniform(0, 0.5) if dice.random() < 0.1 else 0 for _ in range(2 if dice.random() < 0.1 else 1)]
            machines.wire.delays = delays
            return await machines.sign("A", "B", "C", count=60)
        self.assertEqual(len(self.play(work)), 60)


class AwayTest(Several):
    def test_the_loss_of_a_machine_costs_nothing_else(self):
        async def work(machines):
            await machines.sign("B", "C", count=4)
            await machines.crash("A")
            await machines.until(lambda: not any(machines.hosts[name].peers["A"].is_there for name in ("B", "C")))
            for name in ("B", "C"):
                machines.hosts[name].desk.look()
            leaders = {place.leader for name in ("B", "C") for place in machines.hosts[name].desk.places.values()}
            # A may have tried a second before that it had not decided when it was lost
            first = max(machines.next()["c1"], int(time.time()) + 1)
            for turn in range(4):
                await machines.sign("B", "C", count=4, first=10 * turn)
            last = machines.next()["c1"]
            await machines.start("A")
            await machines.until(lambda: machines.next()["c0"] > last)
            return leaders, range(first, last), sum(it.told for it in machines.hosts.values()), await machines.sign("A", count=4, first=90)
        with patient(ASK_SECONDS=5):
            leaders, missed, told_, after = self.play(work)
        # nobody waits for who is dead
        self.assertNotIn(0, leaders)
        # what A missed was asked for, and no ballot was tried for it
        tried = {int(it.line.split(" ")[1]) for it in told(os.path.join(self.folder, "A", "record")) if isinstance(it, Step) and (it.line or "").startswith("ballot ")}
        self.assertFalse(tried & set(missed))
        self.assertGreater(told_, 3)
        self.assertEqual(len(after), 4)

    def test_two_of_five_machines_are_lost(self):
        async def work(machines):
            await machines.sign("A", "B", "C", "D", "E", count=5)
            await machines.crash("B", "D")
            await machines.sign("A", "C", "E", count=9, first=10)
            missed = machines.next()["c0"]
            await machines.start("B", "D")
            await machines.until(lambda: min(machines.next().values()) > missed)
            return await machines.sign("A", "B", "C", "D", "E", count=10, first=20)
        nodes = {name: (f"c{number}", f"a{number}") for number, name in enumerate("ABCDE")}
        self.assertEqual(len(self.play(work, nodes=nodes, parents="c0,c1,c2,c3,c4")), 10)

    def test_a_machine_that_is_cut_off_refuses_and_comes_back(self):
        async def work(machines):
            await machines.sign("A", "B", "C", count=3)
            machines.wire.separate("B")
            waiting = asyncio.gather(*(machines.hosts["B"].desk.sign(f"{number:064x}") for number in range(1, 4)), return_exceptions=True)
            await machines.until(lambda: not machines.hosts["B"].view.is_majority())
            refused = await waiting
            ballots = machines.hosts["B"].drivers[0].ballots
            spans = await machines.sign("A", "C", count=6, first=10)
            await asyncio.sleep(2)
            ballots = machines.hosts["B"].drivers[0].ballots - ballots
            machines.wire.join()
            await machines.until(lambda: machines.hosts["B"].view.is_majority())
            machines.hosts["B"].desk.look()
            return {type(it) for it in refused}, spans, ballots, await machines.sign("B", count=3, first=20)
        refused, spans, ballots, after = self.play(work)
        self.assertEqual((refused, ballots), ({Minority}, 0))
        self.assertEqual(len(spans + after), 9)

    def test_two_machines_that_do_not_reach_each_other_both_sign(self):
        async def work(machines):
            await machines.sign("A", "B", "C", count=3)
            machines.wire.cut.update({("A", "B"), ("B", "A")})
            await machines.until(lambda: not machines.hosts["A"].peers["B"].is_there)
            last = max(machines.next().values())
            spans = await machines.sign("A", "B", "C", count=30, first=10)
            await machines.until(lambda: min(machines.next().values()) > last)
            return spans
        self.assertEqual(len(self.play(work)), 30)

    def test_a_standstill_of_a_majority_is_made_up_for(self):
        async def work(machines):
            await machines.sign("A", "B", "C", count=3)
            await machines.crash("B", "C")
            await machines.until(lambda: not machines.hosts["A"].view.is_majority())
            await asyncio.sleep(0.5)
            before = machines.ballots()
            await asyncio.sleep(6)
            during = machines.ballots() - before
            missed = machines.next()["c0"]
            await machines.start("B", "C")
            await machines.until(lambda: all(it.view.is_majority() for it in machines.hosts.values()))
            for host in machines.hosts.values():
                host.desk.look()
            await machines.sign("A", "B", "C", count=6, first=10)
            await machines.until(lambda: min(machines.next().values()) > missed + 5)
            return during, machines.ballots() - before, max(machines.next().values()) - missed
        with patient():
            during, ballots, seconds = self.play(work)
        self.assertEqual(during, 0)
        # some nine seconds were missed: each costs two ballots at most
        self.assertLessEqual(ballots, 2 * seconds + 6)

    def test_machines_that_leave_and_come_back_one_by_one_refuse_nothing(self):
        """As in an upgrade."""
        async def work(machines):
            ending, spans, number = asyncio.Event(), [], 0

            async def ask():
                nonlocal number
                while not ending.is_set():
                    number += 1
                    spans.append(asyncio.create_task(machines.sign(*machines.hosts, count=1, first=number)))
                    await asyncio.sleep(0.05)
            asking = asyncio.create_task(ask())
            for name in ("A", "B", "C"):
                await asyncio.sleep(1)
                host = machines.hosts.pop(name)
                host.leaving = True
                await machines.until(lambda host=host: not host.desk.waiting and not host.rounds.rounds)
                await host.stop()
                await asyncio.sleep(0.5)
                await machines.start(name)
            ending.set()
            await asking
            return [it[0] for it in await asyncio.gather(*spans)]
        spans = self.play(work)
        self.assertGreater(len(spans), 60)


if __name__ == "__main__":
    unittest.main()
