"""How many requests a door takes, by what was signed and by how late seconds are."""
import time
import unittest
from types import SimpleNamespace
from unittest import mock

from ksi_service import admission as admissions
from ksi_service import overload
from ksi_service.admission import FIRST_ROOM, LEAST_ROOM, Admission, Busy
from ksi_service.plan import Plan

START = 1_000_000


class AdmissionTest(unittest.TestCase):
    def setUp(self):
        self.clock = 1000.0
        self.lag = 0.0
        named = mock.patch.object(time, "monotonic", lambda: self.clock)
        named.start()
        self.addCleanup(named.stop)
        self.at = START + 100.0
        # the seconds up to the one that is just driven are decided, but for those of the lag
        view = SimpleNamespace(held_by_any=lambda: self.at - 1 - 1.05 - self.lag)
        plan = Plan(3, START, ("c0",))
        host = SimpleNamespace(view=view, plan=plan, last_second=plan.last_second, now=lambda: self.at, after=1.05)
        self.door = Admission(host, 10_000)
        self.signed = 0

    def pass_time(self, seconds, rate=0):
        """Lets time pass in which so many requests a second are signed."""
        for _ in range(int(seconds * 20)):
            self.clock += 0.05
            self.at += 0.05
            self.signed += rate / 20
            self.door.judge(int(self.signed))

    def test_a_door_that_is_in_time_takes_more_as_it_signs_more(self):
        self.assertEqual(self.door.room, FIRST_ROOM)
        self.pass_time(5, rate=100)
        self.assertEqual(self.door.room, FIRST_ROOM)
        self.pass_time(5, rate=3000)
        self.assertAlmostEqual(self.door.room, 2 * 1.25 * 3000, delta=150)

    def test_a_rush_is_taken_no_faster_than_three_times_a_second(self):
        self.signed = 0
        rooms = []
        for _ in range(3):
            self.pass_time(1, rate=20_000)
            rooms.append(self.door.room)
        self.assertTrue(all(b <= 3.1 * a for a, b in zip([FIRST_ROOM, *rooms], rooms)), rooms)

    def test_a_door_whose_seconds_are_late_takes_what_is_signed_in_time(self):
        self.pass_time(5, rate=1000)
        self.lag = 1.5
        self.pass_time(4, rate=300)
        self.assertAlmostEqual(self.door.room, 1.25 * 300, delta=20)
        # it never grows while that is so
        self.pass_time(4, rate=1000)
        self.assertAlmostEqual(self.door.room, 1.25 * 300, delta=20)
        self.lag = 0.0
        self.pass_time(2, rate=1000)
        self.assertGreater(self.door.room, 1.25 * 300 * 6)

    def test_a_door_whose_oldest_request_waits_long_takes_less(self):
        self.pass_time(4, rate=1000)
        self.door.begin()
        self.pass_time(2.5, rate=500)
        self.assertLess(self.door.room, 1.25 * 1000)

    def test_a_few_requests_are_always_taken(self):
        self.lag = 60.0
        self.pass_time(5)
        self.assertEqual(self.door.room, LEAST_ROOM)
        keys = [self.door.begin() for _ in range(LEAST_ROOM)]
        self.assertTrue(self.door.is_full())
        self.assertRaises(Busy, self.door.begin)
        self.door.end(keys[0])
        self.assertFalse(self.door.is_full())

    def test_clients_are_told_to_wait_longer_the_later_seconds_are(self):
        told = []
        for self.lag in (0.0, 1.4, 4.0, 100.0):
            self.pass_time(0.1)
            told.append(self.door.retry_after())
        self.assertEqual(told, [2, 2, 8, 16])

    def test_each_part_can_be_switched_off(self):
        self.lag = 60.0
        self.pass_time(1)
        with mock.patch.object(overload, "ON", frozenset()):
            self.assertEqual(self.door.retry_after(), 2)
            for _ in range(LEAST_ROOM + 1):
                self.door.begin()
            self.assertFalse(self.door.is_full())

    def test_more_than_may_wait_in_all_never_do(self):
        self.door.most_waiting = 3
        for _ in range(3):
            self.door.begin()
        self.assertRaises(Busy, self.door.begin)

    def test_a_plan_that_has_just_begun_is_not_late(self):
        self.at, self.lag = START + 2.5, 60.0
        self.pass_time(0.3)
        self.assertEqual((self.door.late_by, self.door.room), (0.0, FIRST_ROOM))
        self.assertEqual(admissions.LEAST_AFTER, self.door.retry_after())


if __name__ == "__main__":
    unittest.main()
