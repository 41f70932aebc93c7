"""A mirror over services that grow, lie, are slow, and fork."""
import os
import random
import subprocess
import sys
import time
import unittest
from unittest import mock

import stands
from ksi_service import evidence, files, roots
from ksi_service.calendar_files import packed
from ksi_service.elements import published_in
from ksi_service.mirror import Damaged
from ksi_service.source import AGREES, FAULTY, FORK, UNKNOWN
from mirrored import PLAN, Mirrored, Service, root_of


LOOKS = 180
"""As many looks as a mirror has in an hour."""


def confirmed(case):
    """What the independent script says of a case."""
    return subprocess.run([sys.executable, os.path.join(os.path.dirname(stands.HERE), "confirm-fork"), case["path"]], capture_output=True, text=True, check=False)


class FollowingTest(Mirrored):
    def test_a_mirror_has_what_the_service_published_and_nothing_later(self):
        service = self.service().grow(50)
        service.publish(PLAN.start + 9).publish(PLAN.start + 39)
        mirror = self.mirror(service)
        mirror.look()
        self.assertEqual(self.states(mirror), [AGREES])
        self.assertEqual([(it.second, it.root) for it in mirror.seen.all], service.publications)
        self.assertEqual(mirror.calendar.next, PLAN.start + 40)
        number = PLAN.first_file()
        self.assertEqual(files.content_of(mirror.calendar.path(number)), service.truth(service.file_path(number)))
        self.assertEqual(mirror.calendar.file_roots(number + 1), b"".join(service.roots[30:40]))
        self.assertEqual(mirror.sources[0].next, PLAN.start + 50)

    def test_it_goes_on_and_keeps_when_it_saw_each(self):
        service, now = self.service().grow(20).publish(), [1000.0]
        mirror = self.mirror(service, now=lambda: now[0])
        mirror.look()
        before = mirror.seen.content
        for number in range(3):
            now[0] += 60
            service.grow(25).publish()
            mirror.look()
        self.assertEqual([(it.second, it.time, it.source) for it in mirror.seen.all],
                         [(second, 1000 + 60 * at, service.url) for at, (second, _) in enumerate(service.publications)])
        self.assertTrue(mirror.seen.content.startswith(before))
        self.assertEqual(published_in(files.content_of(mirror.seen.path)), service.publications)

    def test_one_that_is_started_again_goes_on(self):
        service = self.service().grow(20).publish()
        self.mirror(service).look()
        service.grow(40).publish()
        mirror = self.mirror(service)
        self.assertEqual(mirror.calendar.next, PLAN.start + 20)
        mirror.look()
        self.assertEqual([it.second for it in mirror.seen.all], [PLAN.start + 19, PLAN.start + 59])
        # the view has no copy of a full file that is the mirror's own
        self.assertEqual(os.stat(mirror.calendar.path(PLAN.first_file())).st_nlink, 2)

    def test_a_record_that_a_loss_of_power_cut_off_is_left_out(self):
        service = self.service().grow(20).publish()
        mirror = self.mirror(service)
        mirror.look()
        content = files.content_of(mirror.seen.path)
        for size in (1, 7, 30, 60):
            with open(mirror.seen.path, "ab") as file:
                file.write(content[-72:][:size])
            self.assertEqual(self.mirror(service).seen.content, content)
            self.assertEqual(files.content_of(mirror.seen.path), content)

    def test_own_files_that_were_changed_end_it(self):
        service = self.service().grow(20).publish()
        mirror = self.mirror(service)
        mirror.look()
        number = PLAN.first_file()
        files.write(mirror.calendar.path(number), packed(PLAN, number, b"".join([*service.roots[:19], root_of(7)])))
        with self.assertRaisesRegex(Damaged, "do not give the last publication"):
            self.mirror(service)

    def test_several_doors_of_one_service(self):
        one = self.service().grow(60).publish(PLAN.start + 20).publish(PLAN.start + 50)
        other = self.service(one.copy())
        other.publications.pop()
        other.roots = other.roots[:30]
        mirror = self.mirror(other, one)
        mirror.look()
        self.assertEqual((self.states(mirror), len(mirror.seen.all), mirror.calendar.next), ([AGREES, AGREES], 2, PLAN.start + 51))

    def test_another_plan_is_not_compared(self):
        one = self.service().grow(20).publish()
        other = self.service(Service(PLAN._replace(digest="cd" * 32)).grow(20).publish())
        mirror = self.mirror(one, other)
        mirror.look()
        self.assertEqual((self.states(mirror), mirror.cases), ([AGREES, UNKNOWN], []))

    def test_a_service_without_a_publication_or_away(self):
        empty = self.service()
        mirror = self.mirror(empty)
        mirror.look()
        self.assertEqual(self.states(mirror), [AGREES])
        empty.grow(5)
        mirror.look()
        self.assertEqual((self.states(mirror), mirror.calendar.next), ([AGREES], PLAN.start))
        gone = Service()
        gone.end()
        mirror = self.mirror(gone, name="other")
        mirror.look()
        self.assertEqual((self.states(mirror), mirror.calendar), ([UNKNOWN], None))


class FaultTest(Mirrored):
    """What is no fork."""

    def two(self):
        """A mirror of an honest service and of another door, which a test makes lie."""
        one = self.service().grow(40).publish(PLAN.start + 9).publish(PLAN.start + 35)
        other = self.service(one.copy())
        return one, other, self.mirror(other, one)

    def test_roots_that_do_not_give_the_publications(self):
        one, other, mirror = self.two()
        other.roots[20] = root_of(1)
        mirror.look()
        self.assertEqual((self.states(mirror), len(mirror.seen.all), mirror.cases), ([FAULTY, AGREES], 2, []))
        other.roots[20] = one.roots[20]
        mirror.look()
        self.assertEqual(self.states(mirror), [AGREES, AGREES])

    def test_a_publication_that_no_roots_give(self):
        one, other, mirror = self.two()
        other.publications[-1] = PLAN.start + 35, "77" * 32
        mirror.look()
        self.assertEqual((self.states(mirror), len(mirror.seen.all), mirror.cases), ([FAULTY, AGREES], 2, []))
        self.assertEqual(mirror.sources[0].reason, f"no roots give its publication of second {PLAN.start + 35}")
        other.publications[-1] = PLAN.start + 36, "77" * 32
        mirror.look()
        self.assertEqual((self.states(mirror), len(mirror.seen.all), mirror.cases), ([FAULTY, AGREES], 2, []))

    def test_a_publication_whose_roots_are_not_there_yet_waits(self):
        one, other, mirror = self.two()
        other.publications.append((PLAN.start + 70, "77" * 32))
        mirror.look()
        self.assertEqual((self.states(mirror), len(mirror.seen.all)), ([AGREES, AGREES], 2))

    def test_a_plan_that_is_a_lie_is_followed_by_nobody_for_long(self):
        one, other, mirror = self.two()
        lie = b'{"calendars": [{"plan": "%s", "start": 5, "next": 9}]}' % (b"cd" * 32)
        for service in (one, other):
            service.lies = {"/v1/calendar": lie}
        mirror.look()
        self.assertEqual((mirror.calendar.plan.start, mirror.seen.all), (5, []))
        one.lies = {}
        third = self.mirror(other, one, self.service(one.copy()), name="third")
        for it, states in ((mirror, [UNKNOWN, AGREES]), (third, [UNKNOWN, AGREES, AGREES])):
            other.lies = {} if it is mirror else {"/v1/calendar": lie}
            it.look()
            other.lies = {"/v1/calendar": lie}
            it.look()
            self.assertEqual((self.states(it), len(it.seen.all)), (states, 2))
        self.assertEqual(sorted(os.listdir(self.at("mirror"))), [PLAN.digest, "plan"])

    def test_stale_caches_and_shorter_lists_agree(self):
        one, other, mirror = self.two()
        mirror.look()
        old = {path: other.truth(path) for path in ("/publications", other.file_path(PLAN.first_file() + 1))}
        for service in (one, other):
            service.grow(30).publish()

        def cache(content):
            return lambda true, headers: true if headers.get("Cache-Control") == "no-cache" else content
        for path, content in old.items():
            other.lies = {path: cache(content)}
            mirror.look()
            self.assertEqual((self.states(mirror), mirror.cases), ([AGREES, AGREES], []), path)
        self.assertEqual(len(mirror.seen.all), 3)
        other.lies = {}
        other.publications = other.publications[:1]
        mirror.look()
        self.assertEqual((self.states(mirror), mirror.cases), ([AGREES, AGREES], []))

    def test_a_cache_with_other_bytes_is_passed(self):
        one, other, mirror = self.two()
        wrong = packed(PLAN, PLAN.first_file(), b"".join(root_of(it) for it in range(30)))
        other.lies = {other.file_path(PLAN.first_file()): lambda true, headers: true if headers.get("Cache-Control") == "no-cache" else wrong}
        mirror.look()
        self.assertEqual((self.states(mirror), len(mirror.seen.all), mirror.cases), ([AGREES, AGREES], 2, []))
        self.assertIn((other.file_path(PLAN.first_file()), "no-cache"), other.asked)

    def test_malformed_answers_are_unknown(self):
        one, other, mirror = self.two()
        number = PLAN.first_file()
        for path in ("/v1/calendar", "/publications", other.file_path(number + 1)):
            for lie in (b"", b"x" * 100, b"KSIPUBLF\x01", b'{"calendars": [1]}', b'{"calendars": [{"plan": 3, "start": 1, "next": 2}]}', 500, 404,
                        b"[" * 5000, packed(PLAN, number, root_of(3)), b"KSIPUBLF\x87\x03\x00\x08\x10\x06\x02\x01\x01\x04\x01\x01"):
                other.lies = {path: lie}
                mirror.look()
                self.assertEqual((mirror.sources[1].state, mirror.cases), (AGREES, []), (path, lie))
                is_plain = lie == 404 and path == "/publications"
                self.assertEqual(mirror.sources[0].state, AGREES if is_plain else UNKNOWN, (path, lie))
        other.lies = {}
        mirror.look()
        self.assertEqual(self.states(mirror), [AGREES, AGREES])

    def test_a_slow_server_delays_nobody_for_long(self):
        one, other, mirror = self.two()

        def slow(true, headers):
            time.sleep(8)
            return true
        other.lies = {"/publications": slow}
        for source in mirror.sources:
            source.server.all_seconds = 0.5
        began = time.monotonic()
        mirror.look()
        self.assertLess(time.monotonic() - began, 7.5)
        self.assertEqual((self.states(mirror), len(mirror.seen.all)), ([UNKNOWN, AGREES], 2))
        self.assertIn("more than 0.5 seconds", mirror.sources[0].reason)

    def test_a_full_file_that_is_changed_later_is_noticed(self):
        one, other, mirror = self.two()
        mirror.look()
        other.roots[20] = root_of(1)
        mirror.look()
        self.assertEqual((self.states(mirror), mirror.cases), ([FAULTY, AGREES], []))

    def test_a_program_that_fails_says_nothing_of_a_source(self):
        one, other, mirror = self.two()
        with mock.patch.object(roots, "run", side_effect=roots.NotRun("no memory")), self.assertRaises(roots.NotRun):
            mirror.look()
        mirror.look()
        self.assertEqual((self.states(mirror), len(mirror.seen.all)), ([AGREES, AGREES], 2))

    def test_too_many_bytes_are_not_read(self):
        one, other, mirror = self.two()
        other.lies = {"/v1/calendar": b" " * (2 << 20)}
        mirror.look()
        self.assertEqual(mirror.sources[0].state, UNKNOWN)

    def test_a_difference_that_nobody_published_is_unknown_yet(self):
        one, other, mirror = self.two()
        mirror.look()
        for service in (one, other):
            service.grow(5, service.url)
        mirror.look()
        self.assertEqual((self.states(mirror), mirror.cases), ([AGREES, AGREES], []))
        one.publish()
        mirror.look()
        self.assertEqual((self.states(mirror), mirror.cases), ([UNKNOWN, AGREES], []))
        self.assertIn("no publication that covers it yet", mirror.sources[0].reason)

    def test_a_chaos_of_faults_raises_no_alarm(self):
        """Three doors of one service for many looks; each time some have stale caches, shorter lists, wrong roots or lists, or are away."""
        dice = random.Random(74)
        true = self.service().grow(40).publish()
        doors = [self.service(true.copy()) for _ in range(3)]
        mirror, seen = self.mirror(*doors), 0
        for _ in range(LOOKS):
            true.grow(dice.randrange(1, 6))
            if dice.random() < 0.6:
                true.publish(dice.randrange(max(true.publications)[0] + 1, true.next))
            for door in doors:
                self.trouble(door, true, dice)
            mirror.look()
            self.assertEqual(mirror.cases, [])
            self.assertNotIn(FORK, self.states(mirror))
            self.assertTrue({(it.second, it.root) for it in mirror.seen.all} <= set(true.publications) if mirror.seen else True)
            seen = max(seen, len(mirror.seen.all) if mirror.seen else 0)
        for door in doors:
            door.lies, door.roots, door.publications = {}, list(true.roots), list(true.publications)
        mirror.look()
        self.assertEqual(self.states(mirror), [AGREES] * 3)
        self.assertEqual({(it.second, it.root) for it in mirror.seen.all}, set(true.publications))
        self.assertGreater(seen, 3)

    def trouble(self, door, true, dice):
        """Lets a door be honest, or one of several faults."""
        door.lies, door.roots, door.publications = {}, list(true.roots), list(true.publications)
        fault = dice.choice(["none", "none", "late", "short", "roots", "list", "away", "malformed"])
        if fault == "late":
            door.roots = door.roots[:dice.randrange(20, len(door.roots))]
        elif fault == "short":
            door.publications = door.publications[:dice.randrange(1, len(door.publications) + 1)]
        elif fault == "roots":
            door.roots[dice.randrange(len(door.roots))] = root_of(dice.random())
        elif fault == "list":
            at = dice.randrange(len(door.publications))
            door.publications[at] = door.publications[at][0], "66" * 32
        elif fault == "away":
            door.lies = {"/v1/calendar": 503}
        elif fault == "malformed":
            door.lies = {"/publications": b"KSIPUBLF\x87"}


class ForkTest(Mirrored):
    def forked(self, seconds=40):
        """Two services over copies of one folder, which differ after 40 seconds."""
        one = self.service().grow(seconds).publish()
        other = self.service(one.copy())
        return one, other

    def see(self, mirror, is_door):
        self.assertEqual(len(mirror.cases), 1)
        case = mirror.cases[0]
        said = confirmed(case)
        self.assertEqual((said.returncode, said.stderr), (0, ""), said.stdout)
        self.assertIn("fork", said.stdout)
        self.assertEqual((case["differ_from"], case["is_door"]), (PLAN.start + 40, is_door))
        self.assertIn("differ from second", "\n".join(evidence.explained(case)))
        return case

    def test_two_publications_of_one_second(self):
        one, other = self.forked()
        one.grow(10, "b").publish()
        other.grow(10, "c").publish()
        mirror = self.mirror(one, other)
        mirror.look()
        case = self.see(mirror, True)
        self.assertEqual(case["one"]["second"], case["other"]["second"])
        self.assertTrue(mirror.is_frozen)

    def test_publications_of_different_seconds(self):
        """Either side may be the newer one."""
        for number, (mine, theirs) in enumerate(((8, 15), (15, 8))):
            one, other = self.forked()
            one.grow(mine, "b").publish()
            other.grow(theirs, "c").publish()
            mirror = self.mirror(one, other, name=f"mirror{number}")
            mirror.look()
            case = self.see(mirror, True)
            self.assertNotEqual(case["one"]["second"], case["other"]["second"])
            self.assertTrue(os.path.exists(os.path.join(case["path"], "front")))

    def test_a_service_that_was_restored_from_an_older_copy(self):
        """It forks with what the mirror had, also when the mirror has only this source."""
        one, _ = self.forked()
        mirror = self.mirror(one)
        mirror.look()
        one.grow(10, "b").publish()
        mirror.look()
        one.roots, one.publications = one.roots[:40], one.publications[:1]
        mirror.look()
        self.assertEqual((self.states(mirror), mirror.cases), ([AGREES], []))
        one.grow(5, "c")
        mirror.look()
        self.assertEqual((self.states(mirror), mirror.cases), ([UNKNOWN], []))
        one.publish()
        mirror.look()
        self.see(mirror, True)
        self.assertEqual(self.states(mirror), [FORK])

    def test_roots_that_were_taken_without_their_publication(self):
        """As after a loss of power between both. A source that differs there is unknown, until it lists a publication."""
        one, other = self.forked()
        mirror = self.mirror(one)
        mirror.look()
        one.grow(10, "b").publish()
        other.grow(12, "c").publish()
        with mock.patch.object(mirror, "add", side_effect=OSError(5, "power")), self.assertRaises(OSError):
            mirror.look()
        again = self.mirror(other)
        again.look()
        self.assertEqual((self.states(again), again.cases, again.calendar.next), ([UNKNOWN], [], PLAN.start + 50))

    def test_nothing_new_is_taken_after_a_fork_and_what_it_had_is_served_on(self):
        one, other = self.forked()
        one.grow(10, "b").publish()
        other.grow(10, "c").publish()
        mirror = self.mirror(one, other)
        mirror.look()
        had = mirror.seen.content, mirror.calendar.next
        for service in (one, other):
            service.grow(10).publish()
        mirror.look()
        again = self.mirror(one, other)
        again.look()
        self.assertEqual((again.seen.content, again.calendar.next, len(again.cases)), (*had, 1))

    def test_two_mirrors_that_compare_with_each_other_go_on(self):
        one, other = self.forked()
        first, second = self.mirror(one, name="first"), self.mirror(other, name="second")
        served = [self.service(Service()) for _ in range(2)]

        def update():
            for mirror, service in zip((first, second), served):
                mirror.look()
                service.roots = [mirror.calendar.file_roots(number)[at:at + 33] for number in range(PLAN.first_file(), mirror.calendar.number + 1)
                                 for at in range(0, len(mirror.calendar.file_roots(number)), 33)]
                service.publications = [(it.second, it.root) for it in mirror.seen.all]
        update()
        first, second = self.mirror(one, also=[served[1]], name="first"), self.mirror(other, also=[served[0]], name="second")
        for _ in range(2):
            one.grow(5).publish()
            other.grow(5).publish()
            update()
        self.assertEqual((first.cases, second.cases), ([], []))
        one, other = self.fork_at(one), self.fork_at(other)
        for number in range(4):
            one.grow(6, "b")
            other.grow(6, "c")
            (one if number % 2 else other).publish()
            update()
        for mirror in (first, second):
            self.assertEqual((len(mirror.cases), mirror.is_frozen, self.states(mirror)), (1, False, [AGREES, FORK]))
            self.assertEqual(confirmed(mirror.cases[0]).returncode, 0)
        self.assertEqual(first.seen.last(), one.publications[-1][0])

    def fork_at(self, service):
        return service

    def test_a_mirror_takes_no_roots_from_another_mirror(self):
        one, other = self.forked()
        mirror = self.mirror(one, also=[other])
        other.grow(10, "c").publish()
        mirror.look()
        self.assertEqual((mirror.calendar.next, self.states(mirror), mirror.cases), (PLAN.start + 40, [AGREES, AGREES], []))
        one.grow(10, "c")
        mirror.look()
        self.assertEqual((mirror.calendar.next, len(mirror.seen.all)), (PLAN.start + 50, 2))

    def test_evidence_that_was_changed_is_not_confirmed(self):
        one, other = self.forked()
        one.grow(8, "b").publish()
        other.grow(15, "c").publish()
        mirror = self.mirror(one, other)
        mirror.look()
        case = mirror.cases[0]
        for name in ("front", "one.publications", "other.publications", "one.calendar"):
            path = os.path.join(case["path"], name)
            content = files.content_of(path)
            for at in (len(content) - 1, len(content) // 2, 9):
                files.write(path, content[:at] + bytes([content[at] ^ 1]) + content[at + 1:])
                said = confirmed(case)
                is_beside_the_point = said.returncode == 0 and name != "front"
                self.assertTrue(said.returncode == 1 or is_beside_the_point, (name, at, said.stdout))
            files.write(path, content)
        files.write(os.path.join(case["path"], "front"), roots.front(mirror.calendar.folder, PLAN.start + 40, PLAN.start + 47))
        self.assertEqual(confirmed(case).returncode, 1)

    def test_evidence_and_publications_are_synced(self):
        one, other = self.forked()
        mirror = self.mirror(one)
        mirror.look()
        self.synced.clear()
        one.grow(3).publish()
        mirror.look()
        # the calendar file and its name, and the record
        self.assertEqual(len(self.synced), 3)
        mirror = self.mirror(one, other)
        other.grow(5, "c").publish()
        self.synced.clear()
        mirror.look()
        self.assertEqual(len(mirror.cases), 1)
        # the folders, and each of the six files with its name
        self.assertGreaterEqual(len(self.synced), 12)

    def test_evidence_that_was_not_written_whole_is_none(self):
        os.makedirs(self.at("mirror", "evidence", "1-2-0"))
        self.assertEqual(list(evidence.cases(self.at("mirror", "evidence"))), [])
        self.assertEqual(list(evidence.cases(self.at("nothing"))), [])


if __name__ == "__main__":
    unittest.main()
