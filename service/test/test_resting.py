"""Aggregators of a running service that forget, with stand-ins for the nodes and for their forgetting."""
import asyncio
import contextlib
import os
import time
import unittest
from unittest import mock

from hosted import Hosted, imprint
from stands import logged
from ksi_service import closings
from ksi_service import driver as drivers
from ksi_service import files, overload, programs
from ksi_service import resting as restings
from ksi_service import rounds as rounds_module
from ksi_service.forget import NotForgotten
from ksi_service.record import last_state
from ksi_service.resting import Resting


class RestingTest(Hosted):
    def test_aggregators_forget_while_requests_are_signed(self):
        """No request is lost or made again."""
        self.forget_while_requests_are_signed("c0,c1,a0,c1")

    def test_one_aggregator_forgets_while_requests_wait_for_it(self):
        self.forget_while_requests_are_signed("c0")

    def forget_while_requests_are_signed(self, aggregators):
        said = logged(self, "ksi_service.resting")

        async def work(host):
            resting, asks = Resting(host), []

            async def ask():
                while True:
                    asks.append(asyncio.create_task(host.desk.sign(imprint(len(asks)))))
                    await asyncio.sleep(0.01)
            asking = asyncio.create_task(ask())
            while host.record.state.second < host.plan.start + 4:
                await asyncio.sleep(0.05)
            for number in (*range(len(host.plan.parents)), 0):
                await resting.forget(f"a{number}")
            asking.cancel()
            signed = await asyncio.gather(*asks)
            while host.record.state.second <= host.desk.last_signed:
                await asyncio.sleep(0.05)
            for number in range(len(host.plan.parents)):
                await resting.forget(f"a{number}")
            return [text[:64] for text, _ in signed], host.desk.again, resting.rounds, resting.times, host.plan
        # under much load another core would drive a second, whose requests would then be made again, or the door would refuse some
        patient = [mock.patch.object(*words) for words in ((overload, "ON", frozenset()), (restings, "MOST_SECONDS", 50), (drivers, "PAUSE_ALONE", 7.5),
                                                           (closings, "CLOSE_SECONDS_HERE", 7.0), (rounds_module, "RESPONSE_SECONDS", 10.0))]
        with contextlib.ExitStack() as stack:
            for it in patient:
                stack.enter_context(it)
            signed, again, rounds, times, plan = self.play(work, aggregators=aggregators)
        self.assertEqual((signed, again, said), ([imprint(number) for number in range(len(signed))], 0, []))
        self.assertGreater(times, len(plan.parents))
        left = []
        for number in range(len(plan.parents)):
            with open(os.path.join(self.folder, f"a{number}.facts"), encoding="ascii") as file:
                left += [line.split() for line in file]
        self.assertEqual([fact for fact in left if fact[0] != "closed" or fact[2:]], [])
        self.assertGreaterEqual(rounds, times)
        told_of = last_state(os.path.join(self.folder, "record"))[0]
        self.assertEqual(sum(told_of.node(f"a{number}").facts for number in range(len(plan.parents))), len(left))

    def test_an_aggregator_that_signed_nothing_is_left_in_peace(self):
        said = logged(self, "ksi_service.resting")

        async def work(host):
            resting = Resting(host)
            host.rounds.rest("a1")
            await host.desk.sign(imprint(1))
            host.rounds.wake("a1")
            while host.rounds.settled() <= host.desk.last_signed:
                await asyncio.sleep(0.05)
            starts = []
            for _ in range(2):
                for number in range(2):
                    await resting.forget(f"a{number}")
                starts.append([host.nodes[f"a{number}"].starts for number in range(2)])
            return starts
        # the first time it may have more than this host knows
        self.assertEqual((self.play(work), said), ([[2, 2], [2, 2]], []))

    def test_without_its_program_nothing_is_forgotten_and_all_goes_on(self):
        said = logged(self, "ksi_service.resting")

        async def work(host):
            await host.desk.sign(imprint(1))
            with mock.patch.dict(os.environ, KSI_BIN=os.path.join(self.folder, "none"), PATH="/nowhere"), mock.patch.object(programs, "TOP", self.folder):
                await Resting(host).forget("a0")
            return (await host.desk.sign(imprint(2)))[0][:64], dict(host.rounds.resting)
        self.assertEqual(self.play(work), (imprint(2), {}))
        self.assertRegex(said[0], "^a0 forgets nothing now: ksi_serve is not built")

    def test_a_full_disk_leaves_the_file_as_it_was(self):
        said = logged(self, "ksi_service.resting")

        async def work(host):
            await host.desk.sign(imprint(1))
            while host.rounds.settled() <= host.desk.last_signed:
                await asyncio.sleep(0.05)
            with mock.patch.object(files, "keep", side_effect=OSError(28, "No space left on device")):
                for number in range(2):
                    await Resting(host).forget(f"a{number}")
            return (await host.desk.sign(imprint(2)))[0][:64], [it for it in os.listdir(self.folder) if it.endswith(".forgetting")]
        self.assertEqual(self.play(work), (imprint(2), []))
        self.assertEqual(len(said), 1)
        self.assertRegex(said[0], "^a[01] forgets nothing now: .*No space left")

    def test_nobody_waits_for_a_record_that_could_not_be_cut(self):
        """A host whose disk is full at the cut ends, also while an aggregator forgets."""
        async def work(host):
            await host.desk.sign(imprint(1))
            while host.rounds.settled() <= host.desk.last_signed:
                await asyncio.sleep(0.05)
            host.living[0].cancel()
            with mock.patch.object(host.record, "cut", side_effect=OSError(28, "No space left on device")):
                host.living[0] = asyncio.create_task(host.record.run(0))
                await asyncio.wait(host.living[:1])
            with self.assertRaisesRegex(NotForgotten, "record"):
                await host.forget(next(iter(host.rounds.handed)), host.rounds.settled())
        self.play(work, is_watched=False)

    def test_an_aggregator_whose_requests_are_not_answered_in_time_goes_on(self):
        said = logged(self, "ksi_service.resting")

        async def work(host):
            resting = Resting(host)
            asked = asyncio.create_task(host.desk.sign(imprint(1), int(time.time()) + 2))
            await asyncio.sleep(0)
            with mock.patch.object(restings, "MOST_SECONDS", 0.1):
                await asyncio.gather(*(resting.forget(f"a{number}") for number in range(2)))
            while not all(host.nodes[f"a{number}"].alive for number in range(2)):
                await asyncio.sleep(0.01)
            return (await asked)[0][:64], host.desk.again, dict(host.rounds.resting), sum(host.nodes[f"a{number}"].starts for number in range(2))
        self.assertEqual(self.play(work), (imprint(1), 0, {}, 3))
        self.assertRegex(" ".join(said), r"^a[01] forgets nothing now: requests wait for it$")


if __name__ == "__main__":
    unittest.main()
