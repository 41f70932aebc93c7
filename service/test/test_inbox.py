"""What a host takes of another machine's messages: nothing that is forged, early, malformed or too much."""
import time
import unittest
from types import SimpleNamespace
from unittest import mock

from hosted import imprint
from stands import logged
from ksi_service import version
from ksi_service.carrier import batch_of
from ksi_service.clocks import ClockCheck
from ksi_service.heartbeat import Fields, Heartbeat
from ksi_service.inbox import MOST_LINES, Inbox
from ksi_service.indexing import Found
from ksi_service.places import Places
from ksi_service.plan import SECONDS, Plan
from ksi_service.storing import LostFacts
from ksi_service.view import Peer, View

NOW = 1_000_000
NODES = {"A": ("c0", "a0"), "B": ("c1", "a1"), "C": ("c2", "a2")}


class Told:
    """A host that notes what it is told."""

    def __init__(self):
        self.plan = Plan(3, NOW - 100, ("c0", "c1", "a0"))
        self.places = Places("A", {it: f"{it}:1" for it in NODES}, NODES)
        self.nodes = {name: SimpleNamespace(waiting=[], alive=True) for name in NODES["A"]}
        self.peers = {name: Peer(name, 0.25) for name in "BC"}
        self.trusted = dict(self.peers)
        self.links = SimpleNamespace(names=set(), is_slow=lambda _: False)
        self.cores = {"c0": SimpleNamespace(next=NOW)}
        self.record = SimpleNamespace(state=SimpleNamespace(steps=10, heard={"B": 4}, second=0), writes=False, groups=0)
        self.given, self.notes, self.failed = [], [], []
        self.left = self.leaving = False
        self.clock = ClockCheck(unchecked=True)
        self.is_begun = True
        note = lambda word: lambda *words: self.notes.append((word, *words))
        self.closings = SimpleNamespace(note=note("closed"))
        self.rounds = SimpleNamespace(none=note("none"), ask=note("ask"), rests=lambda _: False, next=NOW, away=note("rounds away"))
        self.desk = SimpleNamespace(got=note("got"), away=note("away"))
        self.finding = SimpleNamespace(find=note("find"), found=note("found"))
        self.tell_peer = note("lacks")
        self.last_second = self.plan.last_second
        self.succeed_after = SECONDS
        self.succession = SimpleNamespace(before=None, former={}, is_begun=True, last_of=lambda _: self.last_second, take=note("retired"), see_other_plan=note("other plan"), answer=note("answer"))
        self.fail = self.failed.append
        self.view = View(self)
        self.inbox = Inbox(self)
        self.heartbeat = Heartbeat(self, 3600)
        self.heartbeat.taken = {"B", "C"}

    def now(self):
        return NOW + 0.5

    def may_begin(self):
        return self.is_begun

    def give(self, *words):
        self.given.append(words)

    def take(self, machine, *messages):
        self.inbox.take(machine, batch_of(messages))


class LineTest(unittest.TestCase):
    def setUp(self):
        self.host = Told()

    def test_lines_of_a_machines_own_nodes_are_given(self):
        lines = [["line", "c0", f"synod 1 {NOW} next 17", 3, 0], ["line", "c0", f"submission 1 {NOW} {imprint(1)} 0", 4, 1], ["line", "a0", f"submission 2 {NOW} {imprint(1)} 0", 5, 0]]
        self.host.take("B", *lines[:2])
        self.host.take("C", lines[2])
        self.assertEqual(self.host.given, [("c0", lines[0][2], ["B", 3, 0]), ("c0", lines[1][2], ["B", 4, 1]), ("a0", lines[2][2], ["C", 5, 0])])

    def test_a_line_in_the_name_of_another_machines_node_is_refused(self):
        for line in (f"synod 2 {NOW} success {imprint(1)}", f"synod 0 {NOW} voted 16", f"submission 2 {NOW} {imprint(1)} 0", f"response {NOW} {imprint(1)}"):
            self.host.take("B", ["line", "a0" if line[0] == "r" else "c0", line, 1, 0])
        self.assertEqual((self.host.given, self.host.inbox.forged), ([], 4))

    def test_commands_are_not_given_to_nodes(self):
        """A host commands its own nodes, and nobody else does."""
        for line in (f"seal {NOW}", f"ballot {NOW}", f"tell {NOW}", f"respond {NOW}", f"publish {NOW}", f"close {NOW}", f"request 1 {NOW} {imprint(1)}", "sign 1", f"held {NOW} 1",
                     f"synod 1 {NOW} next 17\nseal 5", f"synod 1 {NOW} next 17 ", f"synod 1 {NOW} other 17", f"synod 1 -5 next 17", ""):
            self.host.take("B", ["line", "c0", line, 1, 0])
        self.assertEqual((self.host.given, self.host.inbox.forged), ([], 14))

    def test_lines_for_nodes_of_other_machines_are_not_carried_on(self):
        for to in ("c2", "a1", "c9", 5, None):
            self.host.take("B", ["line", to, f"synod 1 {NOW} next 17", 1, 0])
        self.assertEqual(self.host.given, [])

    def test_a_line_of_a_second_that_is_not_there_yet_is_dropped(self):
        """A machine whose clock is ahead decides nothing alone."""
        for ahead in (2, 3, 3600):
            self.host.take("B", ["line", "c0", f"synod 1 {NOW + ahead} next 17", 1, 0])
        self.assertEqual((len(self.host.given), self.host.inbox.dropped), (1, 2))

    def test_no_line_is_given_before_the_host_may_begin(self):
        self.host.is_begun = False
        self.host.take("B", ["line", "c0", f"synod 1 {NOW} next 17", 1, 0])
        self.assertEqual((self.host.given, self.host.inbox.dropped), ([], 1))

    def test_a_node_is_not_flooded(self):
        self.host.nodes["c0"].waiting = range(MOST_LINES + 1)
        self.host.take("B", ["line", "c0", f"synod 1 {NOW} next 17", 1, 0])
        self.assertEqual((self.host.given, self.host.inbox.dropped), ([], 1))

    def test_a_machine_of_no_plan_is_not_taken(self):
        for machine in ("D", "A", ""):
            self.host.take(machine, ["line", "c0", f"synod 1 {NOW} next 17", 1, 0])
        self.assertEqual((self.host.given, self.host.inbox.dropped), ([], 3))

    def test_what_is_malformed_is_dropped_and_the_rest_taken(self):
        good = ["line", "c0", f"synod 1 {NOW} next 17", 1, 0]
        bad = [["line"], ["line", "c0", 5, 1, 0], ["line", "c0", good[2], -1, 0], ["line", "c0", good[2], "1", 0], ["line", "c0", good[2], True, 0], ["other", 1], ["closed", "a9", 5],
               ["closed", "a1", "x"], ["none", "a0"], ["ask", 1, NOW, "a0", "XY"], ["ask", 1, NOW, "a1", imprint(1)], ["got", 1, "zz"], ["got", 1, 7], ["find", 1, "XY"], ["find", -1, imprint(1)], ["find", 1], ["found", 1, "zz", 5], ["found", 1, True, 5], ["found", 1, 7, 5], ["found", 1, "ab", -5], ["lacks", "c7", 5], ["lacks", "c1", 1.5],
               ["alive"], ["alive", {}], ["alive", []], ["alive", {"plan": 5}]]
        self.host.take("B", *bad, good)
        self.assertEqual((len(self.host.given), self.host.notes, self.host.inbox.dropped), (1, [], len(bad)))
        for batch in (b"{}", b"\xff\n", b"[[]]", b'["line"'):
            self.host.inbox.take("B", batch)
        self.assertEqual(self.host.inbox.dropped, len(bad) + 4)


class HintTest(unittest.TestCase):
    def setUp(self):
        self.host = Told()

    def test_hints_are_taken_of_the_machine_that_they_are_of(self):
        hints = [["closed", "a1", NOW], ["ask", 7, NOW, "a0", imprint(3)], ["got", 5, "ab"], ["got", 6, None], ["lacks", "c1", NOW - 3], ["find", 3, imprint(3)], ["found", 4, "ab", NOW],
                 ["found", 5, None, 0], ["found", 6, False, 0]]
        self.host.take("B", *hints)
        self.assertEqual(self.host.notes, [("closed", "a1", NOW), ("ask", "B", 7, NOW, "a0", imprint(3)), ("got", "B", 5, "ab"), ("got", "B", 6, None), ("lacks", "B", "c1", NOW - 3),
                                           ("find", "B", 3, imprint(3)), ("found", "B", 4, Found("ab", NOW)), ("found", "B", 5, None), ("found", "B", 6, False)])

    def test_hints_in_anothers_name_are_ignored(self):
        self.host.take("B", ["closed", "a2", NOW], ["lacks", "c2", NOW], ["closed", "a0", NOW], ["none", "a0", NOW])
        self.assertEqual(self.host.notes, [])

    def test_closed_rounds_of_far_seconds_are_not_kept(self):
        self.host.take("B", ["closed", "a1", NOW + 3600], ["closed", "a1", NOW - 3600])
        self.assertEqual(self.host.notes, [])


class HeartbeatTest(unittest.TestCase):
    def setUp(self):
        self.host = Told()
        self.other = Told()
        self.other.places = Places("B", self.other.places.addresses, NODES)

    def fields(self, **others):
        fields = {"version": 1, "plan": self.host.heartbeat.plan, "run": [5, 9], "you": None, "had": 10, "now": NOW + 0.5, "off": False, "up": ["c1", "a1", "c0"], "takes": ["a1"], "next": {"c1": NOW}}
        return {**fields, **others}

    def take(self, machine="B", **others):
        self.host.take(machine, ["alive", self.fields(**others)])

    def test_what_it_says_of_its_own_nodes_is_noted(self):
        self.take()
        peer = self.host.peers["B"]
        self.assertEqual((peer.is_there, peer.up, peer.takes, peer.next, peer.ahead), (True, {"c1", "a1"}, {"a1"}, {"c1": NOW}, 0))
        self.assertEqual(self.host.heartbeat.known_to, {"B"})

    def test_its_own_message_is_well_formed(self):
        word, fields = self.host.heartbeat.message(self.host.peers["B"])
        told = Fields(fields, NODES["A"])
        self.assertEqual((word, told.had, told.up, told.takes, told.next), ("alive", 4, {"c0", "a0"}, {"a0"}, {"c0": NOW}))

    def line(self):
        """Whether a line of B is given to a node."""
        before = len(self.host.given)
        self.host.take("B", ["line", "c0", f"synod 1 {NOW} next 17", 1, 0])
        return len(self.host.given) > before

    def test_a_machine_takes_no_part_before_its_first_heartbeat(self):
        self.host.heartbeat.taken = set()
        self.assertFalse(self.line())
        self.take()
        self.assertTrue(self.line())
        self.assertEqual(self.host.inbox.dropped, 1)

    def test_of_another_plan_nothing_is_taken(self):
        """A core of another plan is another core: its votes do not count."""
        said = logged(self, "ksi_service.heartbeat")
        for _ in range(3):
            self.take(plan="0" * 16)
        self.assertEqual((self.host.peers["B"].is_there, self.line()), (False, False))
        self.assertEqual(said, ["B has another plan, other machines, or another --publish-every or --succeed-after: its messages are not taken"])
        self.take()
        self.assertEqual((self.host.peers["B"].is_there, self.line(), said[1:]), (True, True, ["B takes part again", "B is there"]))

    def test_reports_of_retirements_are_taken_of_a_machine_that_takes_no_part(self):
        """It may run the plan before, or the one after. It is sent what it may lack."""
        self.host.heartbeat.taken = set()
        self.host.take("B", ["retired", {"of": "1"}])
        self.host.take("D", ["retired", {"of": "1"}])
        self.take(plan="0" * 16)
        self.take(waits=True)
        self.take()
        self.assertEqual(self.host.notes, [("retired", "B", {"of": "1"}), ("other plan", "B"), ("answer", "B")])
        self.host.succession.former = {"D": "D:1"}
        self.host.take("D", ["line", "c0", f"synod 1 {NOW} next 17", 1, 0])
        self.assertEqual((self.host.notes[3:], self.host.given), ([("other plan", "D")], []))

    def test_neighbouring_versions_run_together_and_others_take_no_part(self):
        """Of another version only the version is read: its other fields may be others. That is logged once."""
        said = logged(self, "ksi_service.heartbeat")
        self.take(program="9.9.9" * 20)
        self.assertEqual(self.host.peers["B"].program, "9.9.9" * 8)
        with mock.patch.object(version, "PROTOCOL", 5):
            for protocol, is_taken in ((4, True), (5, True), (6, True), (3, False), (7, False), (7, False), (6, True)):
                self.host.heartbeat.peers["B"].is_there = True
                if is_taken:
                    self.take(version=protocol)
                else:
                    self.host.take("B", ["alive", {"version": protocol}])
                self.assertEqual(self.line(), is_taken, protocol)
        self.assertEqual(said[1:], [f"B has version {it} of the protocol between machines, and this one has 5: its messages are not taken" for it in (3, 7)] + ["B takes part again"])

    def test_a_host_of_before_versions_of_programs_is_taken(self):
        self.take()
        self.assertEqual(self.host.peers["B"].program, "unknown")

    def test_a_machine_whose_record_lost_steps_ends(self):
        """As with an older copy of a folder, or an empty one: its core would vote twice."""
        self.host.is_begun = False
        self.take(had=11)
        self.assertIsInstance(self.host.failed[0], LostFacts)
        self.assertEqual((str(self.host.failed[0])[:33], self.host.heartbeat.known_to), ("B knows 11 steps of this machine,", set()))

    def test_restarts_of_nodes_do_not_hide_lost_steps(self):
        """A start adds steps to the record: what counts is how many it had when it was opened."""
        self.host.is_begun = False
        self.host.record.state.steps = 12
        self.take(had=11)
        self.assertEqual(len(self.host.failed), 1)

    def test_of_two_hosts_of_one_name_the_older_one_ends(self):
        self.take("B", you=[11, 0])
        self.assertEqual(self.host.failed, [])
        self.host.take("C", ["alive", self.fields(you=[11, 0], next={"c2": NOW})])
        self.assertRegex(str(self.host.failed[0]), "another host runs as A by now")

    def test_one_machine_alone_cannot_end_another_by_saying_so(self):
        for _ in range(3):
            self.take("B", you=[11, 0])
        self.assertEqual(self.host.failed, [])

    def test_heartbeats_of_an_earlier_run_are_not_taken(self):
        self.take(run=[5, 9])
        self.take(run=[5, 8], up=[])
        self.assertEqual((self.host.peers["B"].up, self.host.inbox.dropped), ({"c1", "a1"}, 1))

    def test_requests_at_an_aggregator_that_went_down_are_made_again(self):
        self.take()
        self.take(up=["c1"])
        self.assertEqual(self.host.notes, [("away", "a1")])


class SilenceTest(unittest.TestCase):
    """Silence is judged by what was usual: a machine or a network with much to do is not away."""

    def setUp(self):
        self.host = Told()
        self.peer = self.host.peers["B"]
        self.peer.is_there = True

    def look(self, silent, gap=0.25, kept=0.0):
        now = self.host.heartbeat.looked + 0.25 + kept
        self.peer.heard = now - silent
        self.peer.gap = gap
        with mock.patch.object(time, "monotonic", lambda: now):
            self.host.heartbeat.look()
        return self.peer.is_there

    def test_a_second_of_silence_is_away(self):
        self.assertTrue(self.look(0.9))
        self.assertFalse(self.look(1.1))

    def test_a_machine_that_is_slow_is_given_longer(self):
        self.assertTrue(self.look(1.9, gap=0.5))
        self.assertFalse(self.look(2.1, gap=0.5))

    def test_nobody_was_silent_while_this_process_was_kept_from_running(self):
        self.assertTrue(self.look(3.5, kept=3.0))

    def test_the_usual_gap_follows_what_is_seen(self):
        for _ in range(40):
            self.peer.heard -= 1.0
            self.host.heartbeat.note(self.peer, Fields({"version": 1, "plan": "", "run": [1, 1], "you": None, "had": 0, "now": NOW, "off": False, "up": [], "takes": [], "next": {"c1": 5}}, NODES["B"]))
        self.assertTrue(0.9 < self.peer.gap < 1.2, self.peer.gap)


if __name__ == "__main__":
    unittest.main()
