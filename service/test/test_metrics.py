"""Counters in Prometheus' text form: those with a value for each machine, and the versions."""
import os
import tempfile
import unittest
from unittest import mock

import stands
from ksi_service import version
from ksi_service.left import free_bytes, seconds_left
from ksi_service.metrics import LABELLED, TELLS, Spans, prometheus
from ksi_service.plan import SECONDS, Plan
from ksi_service.programs import TOP
from ksi_service.requested import MOST_LABELS, Requests, label_of


class MetricsTest(unittest.TestCase):
    def test_a_value_for_each_machine(self):
        rows = prometheus({"machine": "A", "machines": {"B": "there", "C": "away", "D": "refused"}, "silent_seconds": {"B": 0.1, "C": 75.0}, "clock_offsets": {"B": -0.25}})
        self.assertEqual([it for it in rows.splitlines() if it[0] != "#"], [
            'ksi_machine_there{machine="B"} 1', 'ksi_machine_there{machine="C"} 0', 'ksi_machine_there{machine="D"} 0',
            'ksi_machine_silent_seconds{machine="B"} 0.1', 'ksi_machine_silent_seconds{machine="C"} 75.0', 'ksi_clock_offset_seconds{machine="B"} -0.25'])

    def test_the_versions_are_labels(self):
        self.assertEqual(prometheus({"version": "1.2.3", "protocol": 4}).splitlines()[2], 'ksi_build_info{version="1.2.3",protocol="4"} 1')

    def test_each_row_has_its_kind_and_meaning_before_it(self):
        rows = prometheus({"version": "1", "protocol": 1, **dict.fromkeys(TELLS, 5), **{it: {"A": 5} for it in LABELLED}}).splitlines()
        for at in range(0, len(rows), 3):
            name = rows[at].split(" ")[2]
            self.assertEqual((rows[at].split(" ")[:2], rows[at + 1].split(" ")[:3]), (["#", "HELP"], ["#", "TYPE", name]))
            self.assertEqual(rows[at + 2].split(" ")[0].split("{")[0], name)
        self.assertEqual(len(rows), 3 * (1 + len(TELLS) + len(LABELLED)))


    def test_times_are_histograms(self):
        spans = Spans()
        with mock.patch("time.monotonic", side_effect=[10.0, 10.4]), spans.timed():
            pass
        with self.assertRaises(ValueError), spans.timed():
            raise ValueError
        rows = prometheus({"extend_seconds": spans.told()}).splitlines()
        self.assertEqual(rows[1], "# TYPE ksi_extend_seconds histogram")
        for row in ('ksi_extend_seconds_bucket{le="0.25"} 0', 'ksi_extend_seconds_bucket{le="0.5"} 1', "ksi_extend_seconds_sum 0.4", "ksi_extend_seconds_count 1"):
            self.assertIn(row, rows)


class RequestsTest(unittest.TestCase):
    def test_a_path_and_its_statuses(self):
        requests = Requests()
        for path, status in (("/sign", 200), ("/sign", 200), ("/sign", 503), ("/signature/" + "0f" * 32, 200), ("/v1/calendar/17000", 200), ("/x", 404), ("/y", 404)):
            requests.add(path, status)
        rows = prometheus({"requests": requests.told()}).splitlines()
        self.assertEqual(rows[2:], ['ksi_requests_total{path="/sign",status="200"} 2', 'ksi_requests_total{path="/sign",status="503"} 1',
                                    'ksi_requests_total{path="/signature/*",status="200"} 1', 'ksi_requests_total{path="/v1/calendar/*",status="200"} 1',
                                    'ksi_requests_total{path="other",status="404"} 2'])

    def test_a_client_makes_few_labels_and_none_that_is_misread(self):
        requests = Requests()
        for number in range(1000):
            requests.add(f"/p{number}z", 405)
        self.assertEqual(len(requests.told()), MOST_LABELS + 1)
        self.assertEqual(label_of('/"x\n', 404), "other")


class LeftTest(unittest.TestCase):
    def test_seconds_of_a_plan(self):
        plan = Plan(1, 1000, ["c0"])
        for now, left in ((1000.5, SECONDS - 1), (plan.last_second - 1, 1), (plan.last_second, 0), (plan.last_second + 5, 0)):
            with self.subTest(now):
                self.assertEqual(seconds_left(plan.last_second, now), left)

    def test_room_on_disks(self):
        with tempfile.TemporaryDirectory() as room:
            disk = os.statvfs(room)
            free = free_bytes({"data": room, "absent": os.path.join(room, "absent")})
        self.assertEqual(list(free), ["data"])
        self.assertAlmostEqual(free["data"], disk.f_bavail * disk.f_frsize, delta=1 << 30)


class VersionTest(unittest.TestCase):
    def test_it_is_that_of_the_checkout(self):
        with open(os.path.join(TOP, "VERSION"), encoding="ascii") as file:
            self.assertEqual(version.version(), file.read().strip())

    def test_the_command_prints_it(self):
        ran = stands.run_script(self, "ksi-service", "--version")
        self.assertEqual(ran, f"ksi-service {version.version()} (protocol {version.PROTOCOL} between machines)\n")

    def test_an_installation_has_the_file(self):
        with open(os.path.join(TOP, "Makefile"), encoding="utf-8") as file:
            self.assertIn('install -m644 VERSION "$(ROOT)/lib/ksi/VERSION"\n', file.read())


if __name__ == "__main__":
    unittest.main()
