"""A clock that is not synchronised, may be too wrong, or was set while the host ran."""
import unittest

from ksi_service.clocks import ClockCheck, Report, kernel_report


class Hands:
    """A time of day and a time since boot that a test sets."""

    def __init__(self):
        self.day = 1_000_000.0
        self.boot = 50.0
        self.report = Report(True, 0.001)
        self.reads = 0

    def read(self):
        self.reads += 1
        return self.report

    def pass_by(self, seconds):
        self.day += seconds
        self.boot += seconds

    def check(self, **options):
        return ClockCheck(report=self.read, now=lambda: self.day, since_boot=lambda: self.boot, **options)


class TestClocks(unittest.TestCase):
    def setUp(self):
        self.hands = Hands()

    def test_a_synchronised_clock_may_drive(self):
        self.assertIsNone(self.hands.check().fault())

    def test_a_clock_that_is_not_synchronised_may_not(self):
        self.hands.report = Report(False, 0.001)
        self.assertIn("not synchronised", self.hands.check().fault())
        self.assertIsNone(self.hands.check(unchecked=True).fault())

    def test_a_clock_beyond_the_bound_may_not(self):
        self.hands.report = Report(True, 0.6)
        self.assertIn("0.600 seconds, more than --clock-bound 0.5", self.hands.check().fault())
        self.assertIsNone(self.hands.check(bound=0.7).fault())

    def test_the_kernel_is_asked_once_a_second(self):
        check = self.hands.check()
        for _ in range(30):
            self.assertIsNone(check.fault())
            self.hands.pass_by(0.1)
        self.assertLessEqual(self.hands.reads, 4)
        self.hands.report = Report(False, 0)
        self.hands.pass_by(1)
        self.assertIsNotNone(check.fault())
        self.hands.report = Report(True, 0)
        self.hands.pass_by(1)
        self.assertIsNone(check.fault())

    def test_a_clock_that_was_set_is_a_fault_until_it_is_accepted(self):
        for unchecked in (False, True):
            for seconds in (86400, -2.5):
                check = self.hands.check(unchecked=unchecked)
                self.hands.pass_by(10)
                self.hands.day += seconds
                self.assertIn(f"set by {seconds:+.1f} seconds", check.fault())
                self.hands.day -= seconds
                self.assertIsNotNone(check.fault())
                check.accept()
                self.assertIsNone(check.fault())

    def test_a_clock_that_is_set_by_less_than_two_seconds_goes_on(self):
        check = self.hands.check()
        self.hands.day += 1.9
        self.assertIsNone(check.fault())

    def test_the_kernel_of_this_machine_can_be_read(self):
        report = kernel_report()
        self.assertIn(report.synchronised, (True, False))
        self.assertGreaterEqual(report.error, 0)


if __name__ == "__main__":
    unittest.main()
