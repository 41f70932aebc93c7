"""What a hostile gateway can do to the machines above it: a test for each row of the table in docs/SERVICE.md, "Run a gateway"."""
import time
import unittest
from types import SimpleNamespace
from unittest import mock

from hosted import imprint
from test_inbox import NOW, Told
from ksi_service import gateway_links, shares
from ksi_service.carrier import batch_of
from ksi_service.closings import Closings
from ksi_service.gateway_links import MOST_BYTES, Links, Punctual
from ksi_service.heartbeat import Heartbeat
from ksi_service.inbox import Inbox
from ksi_service.places import Places
from ksi_service.plan import Plan
from ksi_service.shares import Share
from ksi_service.view import View

PLAN = Plan(3, NOW - 100, ("c0", "c1", "c2", "a0", "a1", "a2", "a0", "a1", "a2", "a3"))
NODES = {"A": ("c0", "a0"), "B": ("c1", "a1"), "C": ("c2", "a2"), "riga": ("a3", "a4", "a5"), "oslo": ("a6", "a7", "a8")}


class Above(Told):
    """Machine A, which has two gateways right below, and notes which lines its nodes are given."""

    def __init__(self):
        super().__init__()
        self.plan = PLAN
        self.places = Places("A", {it: f"{it}:1" for it in NODES}, NODES)
        self.children = {it: [] for it in PLAN.names()}
        for number, parent in enumerate(PLAN.parents):
            self.children[parent].append(f"a{number}")
        self.carrier = None
        self.links = Links(self)
        self.view = View(self)
        self.inbox = Inbox(self)
        self.heartbeat = Heartbeat(self, 3600)
        self.heartbeat.taken = {"B", "C", "riga", "oslo"}

    def alive(self, **fields):
        return ["alive", {**self.heartbeat.message(self.peers["riga"])[1], "up": ["a3"], "takes": ["a3"], "next": {}, **fields}]


class HostileTest(unittest.TestCase):
    def setUp(self):
        self.host = Above()

    def send(self, *messages, sender="riga"):
        """The lines that nodes of A were given, of messages that a gateway sent."""
        self.host.given.clear()
        self.host.inbox.take(sender, batch_of(messages))
        return [text for _, text, _ in self.host.given]

    def submission(self, aggregator=3, second=NOW, level=17, to="a0", more=""):
        return ["line", to, f"submission {aggregator} {second} {imprint(1)} {level}{more}", 5, 0]

    def dropped(self):
        return self.host.links.dropped["riga"]

    def test_who_is_below(self):
        self.assertEqual((self.host.links.names, sorted(self.host.peers), sorted(self.host.trusted)), ({"riga", "oslo"}, ["B", "C", "oslo", "riga"], ["B", "C"]))
        self.assertEqual([self.host.links.height(it) for it in ("a3", "a6", "a0")], [2, 1, 3])

    def test_its_submission_is_taken_once(self):
        self.assertEqual(len(self.send(self.submission())), 1)
        self.assertEqual((self.send(self.submission(), self.submission(level=1)), self.dropped()), ([], 2))
        self.assertEqual(len(self.send(self.submission(second=NOW + 1), self.submission(second=NOW - 9))), 2)

    def test_items_above_its_level(self):
        """One at level 238 would lift the tree of the node above over the level that a core takes, and all others' items with it."""
        for level, count in ((238, 0), (35, 0), (34, 1)):
            self.assertEqual(len(self.send(self.submission(level=level))), count)
        self.assertEqual(len(self.send(self.submission(aggregator=6, level=18), sender="oslo")), 0)
        self.assertEqual(len(self.send(self.submission(aggregator=6, level=17), sender="oslo")), 1)

    def test_lines_in_the_names_of_others(self):
        lines = [self.submission(aggregator=6), self.submission(aggregator=4, to="a1"), self.submission(aggregator=0, to="c0"), self.submission(aggregator=9, to="a3"), self.submission(aggregator=4096),
                 ["line", "c0", f"synod 1 {NOW} success {imprint(1)}", 5, 0], ["line", "a0", f"response {NOW} aa", 5, 0], ["line", "c0", f"seal {NOW}", 5, 0]]
        self.assertEqual((self.send(*lines), self.dropped() + self.host.inbox.forged), ([], len(lines)))

    def test_a_late_an_early_a_huge_and_a_malformed_submission(self):
        lines = [self.submission(second=NOW - 11), self.submission(second=0), self.submission(more=" " + "x" * 65), self.submission(more=" a b"), self.submission(level="0x1"), self.submission(level=1000),
                 ["line", "a0", f"submission 3 {NOW} {imprint(1)}", 5, 0], ["line", 3, 4, 5, 0], ["line"], [], "x", None, ["line", "a0", None, 1, 1]]
        self.assertEqual((self.send(*lines), self.dropped()), ([], len(lines)))
        self.assertEqual(self.send(self.submission(second=NOW + 9)), [])
        self.assertEqual((self.send(self.submission(more=" riga")), self.host.failed), ([self.submission(more=" riga")[2]], []))

    def test_other_messages_than_a_gateway_sends(self):
        messages = [["ask", 1, NOW, "a0", imprint(1)], ["got", 1, None], ["none", "a3", NOW], ["lacks", "c1", NOW], ["find", 1, imprint(1)], ["found", 1, None, 0],
                    ["retired", {"of": "x", "second": NOW, "next": "y", "known": ["A"]}], ["x"]]
        self.assertEqual((self.send(*messages), self.dropped(), self.host.notes), ([], len(messages), []))

    def test_a_round_of_others_is_not_closed_by_it(self):
        self.send(["closed", "a3", NOW], ["closed", "a6", NOW], ["closed", "a1", NOW], ["closed", "a3", NOW + 10 ** 6])
        self.assertEqual(self.host.notes, [("closed", "a3", NOW)])

    def test_floods(self):
        with mock.patch.object(shares, "time", SimpleNamespace(monotonic=lambda: self.now)):
            self.now = 0.0
            self.host.links.shares["riga"] = Share(32, 128)
            taken = []
            self.host.inbox.take_one = lambda *words: taken.append(words)
            batch = batch_of([["closed", "a3", NOW]]) * 2500
            self.assertLess(len(batch), MOST_BYTES)
            self.host.inbox.take("riga", batch)
            self.assertEqual((len(taken), self.dropped()), (128, 2372))
            self.now = 1.0
            self.host.inbox.take("riga", batch)
            self.assertEqual(len(taken), 160)
        del self.host.inbox.take_one
        # others have their own shares
        self.assertEqual(len(self.send(self.submission(aggregator=6), sender="oslo")), 1)

    def test_a_huge_batch_is_not_read(self):
        with mock.patch.object(gateway_links, "messages_in", side_effect=AssertionError):
            self.host.inbox.take("riga", b"[" * (MOST_BYTES + 1))
        self.assertEqual(self.send(sender="riga"), [])
        self.host.inbox.take("riga", b"[" * MOST_BYTES)
        self.assertEqual((self.host.given, self.host.failed), ([], []))

    def test_heartbeats_that_lie(self):
        """They count for the gateway's own nodes: not for this host's record, its runs, its clock or cores."""
        peer = self.host.peers["riga"]
        lies = {"had": 10 ** 9, "you": [10 ** 9, 1], "now": NOW + 10 ** 6, "up": ["a3", "c1", "a6"], "next": {"c1": NOW + 10 ** 6}, "off": True, "rests": {"c0": 0}}
        self.send(self.host.alive(**lies))
        self.assertEqual((self.host.failed, peer.is_there, peer.up, peer.next, peer.rests), ([], True, {"a3"}, {}, {}))
        self.assertFalse(self.host.view.is_off("A"))
        self.assertEqual((self.host.view.resting(), self.host.heartbeat.known_to), ({}, set()))
        self.send(self.host.alive(plan="another"))
        self.assertIn("riga", self.host.heartbeat.odd)
        self.assertEqual(self.send(self.submission(second=NOW + 1)), [])

    def test_a_log_that_a_gateway_would_fill(self):
        with self.assertLogs("ksi_service.heartbeat", "INFO") as logs:
            for number in range(9):
                self.send(self.host.alive(version=100 + number), self.host.alive(program="x\x1b[2J" * 9))
        self.assertEqual(len(logs.output), 2)
        self.assertNotIn("\x1b", self.host.peers["riga"].program)

    def test_a_gateway_that_closes_late_is_not_waited_for_each_second(self):
        found, waits = Punctual(), []
        for second in range(100):
            if found.is_waited_for("a3", second):
                waits.append(second)
                found.note("a3", second, False)
        self.assertEqual(waits, [0, 1, 2, 5, 10, 19, 36, 69])
        found.note("a3", 200, True)
        self.assertTrue(found.is_waited_for("a3", 201))

    def test_the_share_of_batches(self):
        with mock.patch.object(shares, "time", SimpleNamespace(monotonic=lambda: self.now)):
            self.now = 0.0
            it = Share(10, 40)
            self.assertEqual({it.wait() for _ in range(40)}, {0.0})
            self.assertEqual([round(it.wait(), 3) for _ in range(3)], [0.1, 0.2, 0.3])
            self.assertEqual(max(it.wait() for _ in range(100)), shares.MOST_DEBT)


class ClosingsTest(unittest.IsolatedAsyncioTestCase):
    async def test_how_long_a_gateways_round_is_waited_for(self):
        host = Above()
        host.peers["oslo"].is_there, host.peers["oslo"].up = True, {"a6"}
        closings, spans = Closings(host), []
        for second in range(6):
            began = time.monotonic()
            await closings.wait(["a6"], second)
            spans.append(time.monotonic() - began)
        # three times, and then not for two seconds
        self.assertGreater(min(spans[:3] + spans[5:]), 0.19)
        self.assertLess(max(spans[3:5]), 0.1)


if __name__ == "__main__":
    unittest.main()
