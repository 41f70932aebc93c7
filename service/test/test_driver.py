"""When a core tries a ballot, and how long it waits for those of others."""
import asyncio
import time
import unittest
from types import SimpleNamespace
from unittest import mock

from ksi_service import driver as drivers
from ksi_service.driver import Attempt, Driver
from ksi_service.known import Core

NOW = 1_000_000


class Driven(unittest.TestCase):
    def setUp(self):
        self.core = Core("c1", NOW - 10)
        self.ranks, self.holders, self.asked = 0, [], []
        view = SimpleNamespace(rank=lambda *_: self.ranks, holder=lambda second, turn: self.holders[turn % len(self.holders)] if self.holders else None)
        self.host = SimpleNamespace(view=view, trusted={"A": 1, "C": 2}, now=lambda: NOW, after=1.05)
        self.driver = Driver(self.host, self.core)
        self.clock = 500.0
        named = mock.patch.object(time, "monotonic", lambda: self.clock)
        named.start()
        self.addCleanup(named.stop)

    def attempt(self, second=NOW - 1):
        return Attempt(self.driver, second, self.clock)


class DueTest(Driven):
    def test_the_first_core_tries_at_once_and_the_next_ones_a_pause_later_each(self):
        for self.ranks in range(3):
            self.assertAlmostEqual(self.attempt().due() - self.clock, 0.6 * self.ranks)

    def test_a_ballot_of_another_core_is_waited_for(self):
        attempt = self.attempt()
        self.core.hear(NOW - 1, True)
        self.clock += 0.1
        self.assertAlmostEqual(attempt.due() - self.clock, 0.5)
        self.ranks = 1
        self.assertAlmostEqual(attempt.due() - self.clock, 1.1)

    def test_further_ballots_wait_longer_each_time(self):
        attempt, waits = self.attempt(), []
        for _ in range(7):
            attempt.count()
            waits.append(round(attempt.due() - self.clock, 2))
        self.assertEqual(waits, [1.2, 2.4, 4.8, 9.6, 15.0, 15.0, 15.0])

    def test_after_a_standstill_pauses_are_longer_and_count_from_then(self):
        attempt = self.attempt(NOW - 9)
        self.ranks = 1
        self.assertAlmostEqual(attempt.due() - self.clock, 2.4)
        self.clock += 60
        attempt.restart()
        self.assertAlmostEqual(attempt.due() - self.clock, 2.4)


class PauseTest(Driven):
    """Pauses follow what ballots take: else repeated ballots would be the load that makes them late."""

    def test_a_pause_is_three_times_what_ballots_take(self):
        pauses = []
        for self.core.took in (0.0, 0.1, 0.5, 1.0, 9.0):
            pauses.append(round(self.driver.pause(False), 3))
        self.assertEqual(pauses, [0.6, 0.6, 1.5, 3.0, 7.5])

    def test_what_a_ballot_takes_is_measured_from_its_own_beginning(self):
        """If pauses were part of it, they would grow by themselves."""
        for second in range(NOW - 10, NOW + 30):
            self.core.hear(second, True)
            self.clock += 5
            self.core.hear(second, True)
            self.clock += 0.2
            self.core.hold(second)
        self.assertAlmostEqual(self.core.took, 0.2, 2)

    def test_ballots_in_vain_make_all_pauses_longer_until_one_ends(self):
        async def answer():
            return ["answer done"]

        async def in_vain(*_):
            return False
        self.host.nodes = {"c1": SimpleNamespace(ask_all=lambda *lines: [answer() for _ in lines])}
        pauses = []
        with mock.patch.object(self.core, "until_held", in_vain):
            for _ in range(8):
                pauses.append(self.driver.pause(False))
                asyncio.run(self.driver.ballot(NOW - 1, pauses[-1]))
        self.assertEqual(pauses[0], 0.6)
        self.assertTrue(all(b >= a for a, b in zip(pauses, pauses[1:])))
        self.assertEqual(pauses[-1], drivers.MOST_PAUSE)
        for second in range(NOW - 10, NOW + 30):
            self.core.hear(second, True)
            self.clock += 0.1
            self.core.hold(second)
        self.assertLess(self.driver.pause(False), 0.7)

    def test_one_machine_waits_longer_for_its_own_cores(self):
        self.host.trusted = {}
        self.assertEqual(self.driver.pause(False), 2.0)


class AskTest(Driven):
    def test_what_another_core_holds_is_asked_for_before_a_ballot(self):
        attempt = self.attempt()
        self.holders = ["c0", "c2"]
        self.assertIsNone(attempt.holder())
        self.clock += 0.7
        self.assertEqual([attempt.holder() for _ in range(4)], ["c0", "c2", "c0", None])

    def test_an_old_second_is_asked_for_at_once(self):
        """As by a core that was away for some seconds, and is the first in their order: its ballots would be for nothing."""
        self.holders = ["c0"]
        self.assertEqual([self.attempt(NOW - age).holder() for age in (1, 5, 6, 60)], [None, None, "c0", "c0"])

    def test_one_that_says_it_holds_all_keeps_nobody_from_a_ballot(self):
        attempt = self.attempt()
        self.clock += 0.7
        self.holders = ["c0"]
        while attempt.holder():
            pass
        attempt.count()
        self.assertEqual([attempt.holder() for _ in range(4)], ["c0"] * 3 + [None])

    def test_nobody_is_asked_if_nobody_holds_it(self):
        attempt = self.attempt()
        self.clock += 60
        self.assertEqual((attempt.holder(), attempt.asked), (None, 0))


if __name__ == "__main__":
    unittest.main()
