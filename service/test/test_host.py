"""The host of one machine, with stand-ins for the nodes: what is signed whatever happens to processes and messages."""
import asyncio
import contextlib
import random
import time
import unittest
from unittest import mock

from hosted import Hosted, Trouble, imprint, patient, sign_all
from ksi_service.admission import Busy
from ksi_service.clocks import ClockCheck
from ksi_service.desk import Minority
from ksi_service.plan import Odd, parents_of
from ksi_service.publishing import Publishing
from ksi_service.service import plan_of

ALONE = "it counts ballots, which a busy machine repeats"


class HostTest(Hosted):
    def test_each_request_is_signed_for_its_hash_and_second(self):
        signed = self.play(lambda host: sign_all(host, range(200)))
        for number, (text, second) in enumerate(signed):
            self.assertEqual(text[:80], imprint(number) + f"{second:016x}")
        self.assertEqual(sorted(it.text for it in self.handed_out()), sorted(text for text, _ in signed))

    def test_a_second_costs_one_ballot(self):
        async def work(host):
            await host.desk.sign(imprint(1))
            while host.seconds_decided < 3:
                await asyncio.sleep(0.1)
            return sum(it.ballots for it in host.drivers), host.seconds_decided
        with patient():
            ballots, seconds = self.play(work)
        self.assertLessEqual(ballots, seconds + 1)

    def test_aggregators_below_aggregators(self):
        async def work(host):
            first = int(time.time()) + 2
            signed = await asyncio.gather(*[host.desk.sign(imprint(number), first + number % 2) for number in range(60)])
            return signed, host.plan.levels
        signed, levels = self.play(work, aggregators="c0,c2,a0,a1,a2,a2")
        self.assertEqual([text[:64] for text, _ in signed], [imprint(number) for number in range(60)])
        self.assertEqual(levels, {0: [[4, 5], [2], [0]], 1: [], 2: [[3], [1]]})
        below = {it.node for it in self.steps() if it.line and it.line.startswith("submission ") and it.block[0] == "answer done"}
        self.assertEqual(below, {"c0", "c2", "a0", "a1", "a2"})
        self.assertEqual(sum(it.line is not None and it.line.startswith("submission ") and it.block[0] == "answer late" for it in self.steps()), 0)

    def test_plans(self):
        self.assertEqual(parents_of("4", 3), ("c0", "c1", "c2", "c0"))
        self.assertEqual(parents_of("c1,a0,a1", 2), ("c1", "a0", "a1"))
        for text in ("", "0", "c3", "a0", "c0,a1", "c0,b1", "c0,,c1", "c00", "5000", "c0,a0,a1,a2,a3,a4,a5,a6"):
            self.assertRaises(Odd, parents_of, text, 3)
        plan = plan_of(self.folder, 2, "c1,a0")
        self.assertEqual((plan_of(self.folder), plan_of(self.folder, 2, "c1,a0")), (plan, plan))
        for cores, aggregators in ((3, None), (None, "2")):
            with self.assertRaisesRegex(Odd, "--cores 2 --aggregators c1,a0"):
                plan_of(self.folder, cores, aggregators)

    def test_kills_lose_nothing(self):
        dice = random.Random(7)

        async def sign(host, number):
            # as a client that is answered 503, since two of three cores were just killed
            for _ in range(100):
                with contextlib.suppress(Busy, Minority):
                    return await host.desk.sign(imprint(number))
                await asyncio.sleep(0.1)

        async def work(host):
            asks = []
            for number in range(120):
                asks.append(asyncio.create_task(sign(host, number)))
                if number % 4 == 3:
                    node = dice.choice(list(host.nodes.values()))
                    node.cut() if dice.random() < 0.3 else node.kill()
                await asyncio.sleep(0.03)
            return await asyncio.gather(*asks), sum(it.starts for it in host.nodes.values())
        signed, starts = self.play(work)
        self.assertEqual([text[:64] for text, _ in signed], [imprint(number) for number in range(120)])
        self.assertGreater(starts, 10)

    def test_lost_repeated_and_late_messages(self):
        # where more is lost, pauses grow to their longest, since that looks like ballots that are slow
        trouble = Trouble(lost=0.1, twice=0.2, late=0.2)

        async def work(host):
            signed = await asyncio.gather(*[host.desk.sign(imprint(number), int(time.time()) + number % 3) for number in range(60)])
            publishing = Publishing(host, self.folder, 2)
            while not await publishing.publish(publishing.due()):
                await asyncio.sleep(0.05)
            return signed
        self.assertEqual(len(self.play(work, trouble)), 60)
        self.assertGreater(trouble.losses, 0)

    def test_a_leader_that_is_down_does_not_hold_up_requests(self):
        async def work(host):
            # core 0 never comes back
            host.nodes["c0"].words = ["/bin/sleep", "1000"]
            host.nodes["c0"].kill()
            while host.nodes["c0"].alive:
                await asyncio.sleep(0.01)
            host.desk.look()
            leaders = {it.leader for it in host.desk.places.values()}
            return leaders, len(await sign_all(host, range(20)))
        leaders, count = self.play(work)
        self.assertEqual((leaders, self.responders(), count), ({1}, {"c1"}, 20))

    def test_missed_seconds_are_decided_after_a_standstill(self):
        async def work(host):
            await host.desk.sign(imprint(1))
            return host.seconds_decided, sum(it.ballots for it in host.drivers)
        with patient():
            decided, ballots = self.play(work, start=int(time.time()) - 20)
        self.assertGreaterEqual(decided, 20)
        self.assertLess(ballots, 2 * decided)

    def test_a_core_asks_for_the_seconds_that_it_lacks(self):
        start = int(time.time()) - 30

        async def work(host):
            give, lost = host.give, []

            def giving(to, text, message):
                if to == "c2" and " success " in text and not lost[20:]:
                    lost.append(text)
                else:
                    give(to, text, message)
            host.give = giving
            while host.cores["c2"].next < start + 26:
                await asyncio.sleep(0.05)
            return len(lost), host.told, await Publishing(host, self.folder, 2).root_of("c2", start + 25)
        lost, was_told, published = self.play(work, start=start)
        self.assertGreater(lost, 15)
        self.assertGreater(was_told, 5)
        self.assertEqual(len(published), 64)

    def test_more_than_may_wait_are_refused(self):
        async def work(host):
            signed = await asyncio.gather(*[host.desk.sign(imprint(number)) for number in range(30)], return_exceptions=True)
            return [isinstance(it, Busy) for it in signed], host.desk.busy, host.desk.waiting
        refused, busy, waiting = self.play(work, most_waiting=20)
        self.assertEqual((refused, busy, waiting), ([False] * 20 + [True] * 10, 10, 0))

    def test_a_host_that_is_started_again_goes_on(self):
        async def work(host):
            return await host.desk.sign(imprint(1))
        first, second = self.play(work), self.play(work)
        self.assertGreaterEqual(second[1], first[1])
        self.assertEqual(len(self.handed_out()), 2)

    def test_a_clock_that_is_set_back_a_little_loses_no_request(self):
        async def work(host):
            first = await host.desk.sign(imprint(1))
            real = host.now
            host.now = lambda: real() - 3
            second = await host.desk.sign(imprint(2))
            while host.rounds.rounds:
                await asyncio.sleep(0.01)
            return first[1], second[1], host.desk.again
        first, second, again = self.play(work)
        self.assertGreater(second, first)
        self.assertEqual(again, 0)

    def test_a_clock_that_was_set_back_for_a_moment_is_followed_at_once(self):
        async def work(host):
            real = host.now
            host.now = lambda: real() - 3600
            await asyncio.sleep(2.5)
            host.now = real
            return await asyncio.wait_for(host.desk.sign(imprint(1)), 60)
        self.assertEqual(self.play(work)[0][:64], imprint(1))

    def test_a_clock_that_was_far_ahead_for_a_moment_decides_nothing_and_keeps_no_second_closed(self):
        async def work(host):
            await host.desk.sign(imprint(1))
            real, ahead = host.now, [86400.0]
            host.now = lambda: real() + ahead[0]
            host.clock = ClockCheck(unchecked=True, now=host.now)
            host.clock.booted -= 86400
            await asyncio.sleep(2.5)
            ahead[0] = 0.0
            early = host.cores["c0"].next - real()
            host.clock.accept()
            host.desk.look()
            signed = await host.desk.sign(imprint(2))
            return early, host.cores["c0"].next - real(), signed[0]
        early, later, text = self.play(work)
        self.assertLess(max(early, later), 2)
        self.assertEqual(text[:64], imprint(2))

    def test_requests_of_seconds_that_passed_while_the_process_stood_still_are_answered(self):
        async def work(host):
            signing = asyncio.create_task(host.desk.sign(imprint(1)))
            await asyncio.sleep(0.3)
            time.sleep(4)
            text, _ = await signing
            return text, host.rounds.settled() > time.time() - 4
        self.assertEqual(self.play(work), (mock.ANY, True))

    def test_a_round_without_items_is_not_closed(self):
        async def work(host):
            for _ in range(2):
                await host.desk.sign(imprint(1))
                await asyncio.sleep(2)
        self.play(work, aggregators="c0,c1,a0")
        lines = [it.line.split(" ") for it in self.steps() if it.line]
        closed = [words[1] for words in lines if words[0] == "close"]
        self.assertEqual(set(closed), {words[2] for words in lines if words[0] == "request"})
        self.assertLessEqual(len(closed), 4)

    def test_a_core_that_lacks_much_leads_no_second(self):
        """As one that was away for an hour: requests would wait for all that it is told."""
        async def work(host):
            host.cores["c2"].next -= 100
            orders = [host.view.order(second) for second in range(4)]
            host.desk.look()
            leaders = {it.leader for it in host.desk.places.values()}
            host.cores["c2"].next += 100
            return orders, leaders, [host.view.order(second)[0] for second in range(4)]
        orders, leaders, after = self.play(work, start=int(time.time()) - 30, aggregators="c2,c1")
        self.assertEqual((orders, leaders, after), ([[1, 0, 2]] * 4, {1}, [1, 2, 1, 2]))

    def without_majority(self, work):
        """Plays while two of three cores are down."""
        async def go(host):
            words = {name: host.nodes[name].words for name in ("c1", "c2")}
            for name in words:
                host.nodes[name].words = ["/bin/sleep", "1000"]
                host.nodes[name].kill()
            while any(host.nodes[name].alive for name in words):
                await asyncio.sleep(0.01)
            result = await work(host)
            for name in words:
                host.nodes[name].words = words[name]
                host.nodes[name].kill()
            while not host.view.is_majority():
                await asyncio.sleep(0.01)
            host.desk.look()
            await host.desk.sign(imprint(1))
            return result
        return self.play(go)

    def test_there_is_no_ballot_without_a_majority(self):
        """As if two of three machines are away for a day: each ballot is two facts."""
        async def work(host):
            # what was on its way comes to its end
            await asyncio.sleep(2)
            before = host.record.node("c0").facts
            await asyncio.sleep(2)
            return host.record.node("c0").facts - before
        self.assertEqual(self.without_majority(work), 0)

    def test_without_a_majority_requests_are_refused(self):
        """How soon: see test_minority.py."""
        async def work(host):
            refused = await asyncio.gather(*[host.desk.sign(imprint(number)) for number in range(9)], return_exceptions=True)
            return {type(it) for it in refused}
        self.assertEqual(self.without_majority(work), {Minority})


if __name__ == "__main__":
    unittest.main()
