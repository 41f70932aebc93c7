"""The record alone: what it tells after a crash of the host, how it is cut, and how it becomes a stream of entries."""
import asyncio
import gzip
import json
import os
import stat
import threading
import time
import unittest
from unittest import mock

from ksi_service import apart, files, hours, replay, retrace
from ksi_service.folders import Folders
from ksi_service.plan import Plan
from ksi_service.record import Broken, Record, Signed, State, Step, names, told
from ksi_service.replay import schedule_of
from recorded import SEALED, Recorded

ONES = "1" * 64


class RecordTest(Recorded):
    def test_a_line_that_was_cut_off_is_left_out(self):
        self.write(*SEALED, end="\n[\"giv")
        state = self.opened().state
        self.assertEqual((state.steps, state.second, state.node("c0").facts, len(state.node("c0").unanswered)), (1, 5, 1, 0))
        with open(names(self.folder)[0], encoding="utf-8") as file:
            self.assertTrue(file.read().endswith('"stored"]]\n'))

    def test_what_a_crash_left_of_the_end_is_left_out(self):
        said = json.dumps(["said", "c0", ["answer done"]]).encode()
        for torn in (b"5\n", b"[]\n", b"\0" * 40, b"\0" * 40 + b"\n" + said + b"\n", said[:9] + b"\0" * 20 + said[29:] + b"\n" + said + b"\n", b"\xff\n", b"\n"):
            self.write(*SEALED)
            with open(names(self.folder)[0], "ab") as file:
                file.write(torn)
            before = len(list(told(self.folder)))
            state = self.opened().state
            self.assertEqual((before, state.steps, len(list(told(self.folder)))), (1, 1, 1), torn)

    def test_a_broken_file_before_the_last_is_told(self):
        self.write(*SEALED, end="\n[\n")
        self.write(State().begins(), number=2)
        self.assertRaises(Broken, list, told(self.folder))
        os.remove(os.path.join(self.folder, "00000001"))
        for content in (b"\x1f\x8b half of it", gzip.compress(json.dumps(State().begins()).encode() + b"\n")[:-9]):
            with open(os.path.join(self.folder, "00000001.gz"), "wb") as file:
                file.write(content)
            self.assertRaises(Broken, list, told(self.folder))

    def test_effects_come_after_the_disk_and_in_order(self):
        seen = []

        async def work(record):
            record.add(["ready", "c0", 0, 0], lambda: seen.append(os.path.getsize(names(self.folder)[0]) > 20))
            record.after(lambda: seen.append("second"))
            await record.flush()
        self.opened(work)
        self.assertEqual(seen, [True, "second"])

    def test_a_short_write_is_gone_on_with(self):
        class Slow:
            def __init__(self, file):
                self.file = file

            def write(self, content):
                return self.file.write(content[:3])

            def __getattr__(self, name):
                return getattr(self.file, name)

        async def work(record):
            record.file = Slow(record.file)
            record.add(["ready", "c0", 0, 0])
            await record.flush()
        self.opened(work)
        self.assertEqual(self.opened().state.node("c0").facts, 0)

    def test_nothing_has_an_effect_after_a_failed_write(self):
        seen = []

        async def work(record):
            with mock.patch.object(record, "write", side_effect=OSError(28, "No space left on device")):
                record.add(["ready", "c0", 0, 0], lambda: seen.append("first"))
                with self.assertRaises(OSError):
                    await record.flush()
            record.add(["ready", "c1", 0, 0], lambda: seen.append("second"))
            await record.flush()
        self.opened(work)
        self.assertEqual(seen, [])
        self.assertEqual(self.opened().state.nodes, {})

    def test_a_full_disk_is_told_with_the_file(self):
        async def work(record):
            with open("/dev/full", "ab", buffering=0) as full, mock.patch.object(record, "file", full):
                record.add(["ready", "c0", 0, 0])
                with self.assertRaises(OSError) as told:
                    await record.flush()
            self.assertEqual((told.exception.errno, told.exception.filename), (28, "/dev/full"))
        self.opened(work)

    def test_what_a_failed_sync_left_in_memory_is_not_gone_on_with(self):
        """Behind a failed sync the system calls pages written that are not on the disk: it reads them, and never writes them."""
        self.write(*SEALED)
        path = names(self.folder)[0]
        first = len(json.dumps(State().begins())) + 1
        with mock.patch.object(files, "drop_cache", lambda it: it == path and os.truncate(it, first)):
            self.assertEqual(self.opened().state.steps, 0)

    def closed_while(self, work):
        """What had an effect where a record is closed while its first group is on its way to the disk, and who waits for that is
        cancelled, as when a service stops. Work is done with the record just before the group is given on."""
        seen = []

        async def go():
            record, begun = Record(self.folder), threading.Event()
            write = record.write

            def slowly(*words):
                begun.set()
                time.sleep(0.2)
                write(*words)
            record.write = slowly
            running = asyncio.create_task(record.run())
            work(record)
            record.add(["ready", "c0", 0, 0], lambda: seen.append("c0"))
            await asyncio.sleep(0.05)
            running.cancel()
            record.add(["ready", "c1", 0, 0], lambda: seen.append("c1"))
            await record.close()
            self.assertTrue(begun.is_set())
            await asyncio.gather(running, return_exceptions=True)
        asyncio.run(go())
        return seen, list(self.opened().state.nodes)

    def test_a_write_under_way_ends_before_the_file_is_closed(self):
        self.assertEqual(self.closed_while(lambda record: None), (["c0", "c1"], ["c0", "c1"]))

    def test_a_group_that_is_not_begun_yet_is_not_left_out(self):
        self.assertEqual(self.closed_while(lambda record: record.writer.submit(time.sleep, 0.2)), (["c0", "c1"], ["c0", "c1"]))

    def test_a_failed_write_under_way_is_told_to_nobody_and_ends_all(self):
        async def work(record):
            record.write = mock.Mock(side_effect=OSError(28, "No space left on device"))
            running = asyncio.create_task(record.run())
            record.add(["ready", "c0", 0, 0])
            await asyncio.sleep(0)
            running.cancel()
            await asyncio.gather(running, return_exceptions=True)
            record.add(["ready", "c1", 0, 0])
        self.opened(work)
        self.assertEqual(self.opened().state.nodes, {})

    def test_a_cut_that_fails_leaves_the_record_as_it_was(self):
        async def work(record):
            record.add(["ready", "c0", 0, 0])
            with mock.patch.object(files, "write", side_effect=OSError(28, "No space left on device")), self.assertRaises(OSError):
                await record.cut()
            record.add(["ready", "c1", 0, 0])
        self.opened(work)
        self.assertEqual(list(self.opened().state.nodes), ["c0", "c1"])

    def test_effects_of_the_vote_come_first_and_all_others_in_order(self):
        seen = []

        async def work(record):
            for name in ("a0", "c0", "a1", "c1"):
                record.add(["ready", name, 0, 0], lambda name=name: seen.append(name), first=name[0] == "c")
            await record.flush()
        self.opened(work)
        self.assertEqual(seen, ["c0", "c1", "a0", "a1"])

    def test_entries_that_are_not_urgent_wait_for_others(self):
        async def work(record):
            running = asyncio.create_task(record.run())
            begun = asyncio.get_running_loop().time()
            for number in range(20):
                record.add(["ready", f"a{number}", 0, 0], urgent=False)
                await asyncio.sleep(0.002)
            while record.waiting:
                await asyncio.sleep(0.002)
            self.assertLess(asyncio.get_running_loop().time() - begun, 5)
            record.add(["ready", "a20", 0, 0], urgent=False)
            record.add(["ready", "c0", 0, 0])
            await asyncio.sleep(0)
            await record.flush()
            self.assertEqual(record.waiting, [])
            running.cancel()
            await asyncio.gather(running, return_exceptions=True)
        # one group each quarter of a second, and one with the urgent entry
        self.assertLessEqual(self.opened(work).syncs, 4)

    def test_an_entry_that_cannot_stand_there_is_told(self):
        for entry in (["said", "c0", ["answer done"]], ["given", "c0"], ["gone", "c0"], ["ready", "c0", 0, 1],
                      ["did", "c0", "1-1", "1-1", "synod 0 5 next 16", "c1 9-9 0", ["answer done"]]):
            self.write(entry)
            with self.assertRaises(Broken, msg=entry):
                list(told(self.folder))

    def test_a_record_is_cut_and_goes_on(self):
        async def work(record):
            for entry in [*SEALED, ["given", "c0", "tell 5", None]]:
                record.add(entry)
            await record.cut()
            record.add(["said", "c0", ["answer done"]])
            record.add(["signed", 0, "abcd"])
            await record.cut()
        state = self.opened(work).state
        self.assertEqual([os.path.basename(it) for it in names(self.folder)], ["00000001.gz", "00000002.gz", "00000003"])
        self.assertEqual([it.line for it in told(self.folder) if not isinstance(it, Signed)], ["seal 5", "tell 5"])
        self.assertEqual([it.text for it in told(self.folder) if isinstance(it, Signed)], ["abcd"])
        again = self.opened().state
        self.assertEqual((again.begins(), again.steps), (state.begins(), 2))

    def test_lines_that_happened_unsaid_are_steps_and_a_restart_follows(self):
        self.write(["ready", "a0", 0, 0], ["given", "a0", "request 9 5 " + "0" * 64, None], ["given", "a0", "close 5", None],
                   ["given", "a0", "request 10 6 " + "0" * 64, None], ["ready", "a0", 1, 2])
        self.assertEqual([(it.line, it.block) for it in told(self.folder)],
                         [("request 9 5 " + "0" * 64, None), ("close 5", None), (None, None)])

    def run_of_two(self):
        self.entries = [["ready", "a0", 0, 0], ["ready", "c0", 0, 0], ["given", "a0", f"request 77 5 {ONES}", None],
                   ["said", "a0", ["answer number 77"]], ["given", "a0", "close 5", None],
                   ["said", "a0", ["answer done", "stored", f"send c0 submission 0 5 {ONES} 0"]],
                   ["given", "c0", f"submission 0 5 {ONES} 0", [1, 0]], ["given", "c0", "seal 4", None], ["said", "c0", ["answer done"]],
                   ["said", "c0", ["refused second"]], ["signed", 0, "abcd"], ["given", "c0", "seal 5", None], ["ready", "c0", 1, 1]]
        self.write(*self.entries)
        for name, text in (("plan", Plan(1, 5, ("c0",)).text()), ("c0.facts", ""), ("a0.facts", "")):
            files.write(os.path.join(self.room.name, name), text.encode())

    def test_what_was_forgotten_is_counted_where_nobody_was_told(self):
        """By what nodes are started with: over pipes, from the new file or still from the old one, and behind a server."""
        closed = [["given", "a0", "close 5", None], ["said", "a0", ["answer done", "stored"]]]
        for entries, forgotten in (([["ready", "a0", 0, 0], *closed, *closed, *closed], 0), ([["forgot", "a0", 3, 1]], 0), ([["ready", "a0", 1, 0]], 2),
                                   ([["forgot", "a0", 1, 0], ["ready", "a0", 1, 0]], 2), ([["forgot", "a0", 1, 0], ["ready", "a0", 0, 0]], 3), ([["ready", "a0", 0, 0]], 3)):
            self.check_forgotten(entries, forgotten)
        self.state = State()
        did = [["did", "a1", f"{number}-0", str(number), f"close {number}", None, ["answer done", "stored"]] for number in range(4)]
        for entries, forgotten in (([["restarted", "a1", "0-0", 0, 0], *did], 0), ([["restarted", "a1", "5-0", 1, 4]], 0), ([["restarted", "a1", "6-0", 1, 1]], 3),
                                   ([["restarted", "a1", "7-0", 1, 1]], 3)):
            self.check_forgotten(entries, forgotten)

    def check_forgotten(self, entries, forgotten):
        for it in entries:
            self.state.take(it)
        self.assertEqual(self.state.forgotten, forgotten, entries)

    def test_entries_are_those_of_ksi_retrace(self):
        self.run_of_two()
        self.assertEqual("".join(retrace.entries(told(self.folder))), f"""\
ksi-record 2
a0 request 77 5 {ONES}
answer number 77
.
a0 close 5
answer done
stored
send c0 submission 0 5 {ONES} 0
.
deliver 1 0 c0 submission 0 5 {ONES} 0
answer done
.
sign 0
signature abcd
.
unsaid c0 seal 5
restart c0
""")

    def test_a_run_as_a_schedule(self):
        self.run_of_two()
        asked = []

        def sends_of_unsaid(schedule):
            asked.append(schedule.text())
            return 3
        schedule, handed = schedule_of("plan\n", told(self.folder), sends_of_unsaid)
        self.assertEqual(schedule.text(), f"plan\nrequest 0 5 {ONES}\nclose 0 5\ndeliver 0\nseal 0 5\nrestart c0\n")
        self.assertEqual((schedule.sent, handed, asked), (3, {0: "abcd"}, [schedule.text().replace("restart c0\n", "")]))

    def test_which_requests_have_numbers(self):
        rows = [("request 5 7 " + ONES, ["answer number 5"]), ("close 7", ["answer done"]), ("request 6 7 " + ONES, ["answer late"]),
                ("request 7 7 " + ONES, None), ("request 8 8 " + ONES, None), ("close 8", None), ("request 9 9 " + ONES, ["answer number 9"])]
        schedule, _ = schedule_of("", (Step("a2", line, None, block) for line, block in rows), lambda so_far: 0)
        self.assertEqual(schedule.numbers, {0: 0, 4: 1, 6: 2})
        self.assertEqual(schedule.events[:2], [f"request 2 7 {ONES}", "close 2 7"])

    def test_a_run_that_is_too_long_for_a_schedule(self):
        with mock.patch.object(replay, "MOST_EVENTS", 2), self.assertRaises(retrace.Differs):
            schedule_of("", [Step("c0", "tell 5", None, ["answer done"])] * 3, None)

    def test_what_ksi_retrace_says_is_taken(self):
        self.run_of_two()
        path = os.path.join(self.room.name, "ksi_retrace")
        for text, told_of in (("cat > entries; echo unsaid 4 11; echo answer done; echo .; echo agrees 5 unsaid 1 signatures 1", (5, 1, 1)), ("echo differs 2 9; exit 1", None), ("exit 7", None)):
            with open(path, "w", encoding="ascii") as file:
                file.write(f"#!/bin/sh\ncd {self.room.name}\n{text}\n")
            os.chmod(path, stat.S_IRWXU)
            with mock.patch.dict(os.environ, KSI_BIN=self.room.name):
                if told_of:
                    self.assertEqual(retrace.retrace("plan", told(self.folder)), told_of)
                else:
                    self.assertRaises(retrace.Differs, retrace.retrace, "plan", told(self.folder))
        with open(os.path.join(self.room.name, "entries"), encoding="ascii") as file:
            self.assertEqual(file.read(), "".join(retrace.entries(told(self.folder))))

    def test_a_record_is_of_one_plan(self):
        """As where a person changed to whom an aggregator submits: its file does not tell that."""
        self.opened()
        plans = [Plan(1, 5, parents).text() for parents in (("c0", "c0"), ("c0", "a0"))]

        async def cut(plan):
            record = Record(self.folder, plan)
            await record.cut()
            await record.close()
        for _ in range(2):
            asyncio.run(cut(plans[0]))
        with self.assertRaisesRegex(Broken, "is of another plan"):
            asyncio.run(cut(plans[1]))
        asyncio.run(cut(plans[0]))

    def test_a_file_that_an_older_version_began_is_ended_at_the_start(self):
        """An older host would read it on, also after cores forgot. It does not read a file that begins as those of this version."""
        files.make_folder(self.folder)
        old = {"steps": 0, "second": 7, "nodes": [["c0", 1, [], None]], "seen": {}, "sent": {}, "plan": Plan(1, 5, ("c0",)).text()}
        files.write(os.path.join(self.folder, "00000001"), (json.dumps(["begins", old]) + "\n").encode())

        async def opened():
            record = Record(self.folder, Plan(1, 5, ("c0",)).text())
            await record.close()
            return record.number
        self.assertEqual([asyncio.run(opened()) for _ in range(2)], [2, 2])
        self.assertTrue(hours.ending_of(names(self.folder)[0])[1])
        self.assertEqual(hours.state_before(names(self.folder)[1])["latest"], 7)

    def test_what_ends_before_it_has_read_all_is_heard(self):
        """As where an early entry differs, and more is behind it than a pipe holds."""
        said = [["given", "c0", f"tell 5 {ONES}", None], ["said", "c0", ["answer done"]]]
        self.write(["ready", "c0", 0, 0], *said * 5000)
        plan, path = os.path.join(self.room.name, "plan"), os.path.join(self.room.name, "ksi_retrace")
        files.write(plan, Plan(1, 5, ("c0",)).text().encode())
        files.write(os.path.join(self.room.name, "c0.facts"), b"")
        files.write(path, b"#!/bin/sh\necho differs 2 9; exit 1\n")
        os.chmod(path, stat.S_IRWXU)
        with mock.patch.dict(os.environ, KSI_BIN=self.room.name):
            for work in (lambda: retrace.retrace(plan, told(self.folder)), lambda: apart.hold_all(Folders(self.room.name))):
                with self.assertRaisesRegex(retrace.Differs, "differs 2 9"):
                    work()

    def test_the_log_of_each_node(self):
        self.run_of_two()
        logs = {name: "".join(apart.entry_of(it) for it in apart.steps_of(self.folder) if it.node == name) for name in ("c0", "a0")}
        self.assertEqual(logs, {"c0": f"""\
c0 submission 0 5 {ONES} 0
answer done
.
unsaid c0 seal 5
restart c0
""", "a0": f"""\
a0 request 77 5 {ONES}
answer number 77
.
a0 close 5
answer done
stored
send c0 submission 0 5 {ONES} 0
.
"""})

    def test_logs_are_joined(self):
        self.run_of_two()
        self.assertEqual(apart.join(told(self.folder)), (5, 1, 1, 0))
        line = f"submission 0 5 {ONES} 0"
        for more in (["given", "c0", line, [0, 0]], ["given", "c0", line, [1, 1]], ["given", "c0", line, [5, 0]], ["given", "c1", line, [1, 0]],
                     ["given", "c0", line + " x", [1, 0]], ["given", "c0", line, None], ["given", "a0", f"request 77 6 {ONES}", None]):
            self.write(*self.entries, more, ["said", more[1], ["answer done"]])
            self.assertRaises(retrace.Differs, apart.join, told(self.folder))
        again = ["given", "c0", line, [1, 0]]
        self.write(*self.entries, again, ["said", "c0", ["answer known"]])
        self.assertEqual(apart.join(told(self.folder)), (6, 1, 2, 0))

    def test_what_ksi_retrace_says_of_a_node_is_taken(self):
        self.run_of_two()
        path = os.path.join(self.room.name, "ksi_retrace")
        counted = 'n=$(grep -cE "^(unsaid |restart )?$2( |$)"); echo agrees $n'
        for text, counts in ((counted, (5, 1, 1, 0)), (counted.replace("$n", "${n}1"), None), ("cat > /dev/null; echo agrees", None), ("cat > /dev/null; echo differs 2 9; exit 1", None), ("exit 7", None)):
            with open(path, "w", encoding="ascii") as file:
                file.write(f"#!/bin/sh\n{text}\n")
            os.chmod(path, stat.S_IRWXU)
            with mock.patch.dict(os.environ, KSI_BIN=self.room.name):
                if counts:
                    self.assertEqual(apart.hold_all(Folders(self.room.name)), counts)
                else:
                    self.assertRaises(retrace.Differs, apart.hold_all, Folders(self.room.name))

    def test_a_state_is_made_again_of_its_entry(self):
        state = State()
        for entry in [*SEALED, ["given", "c0", "synod 1 5 next 17", [3, 0]]]:
            state.take(entry)
        again = State()
        again.take(json.loads(json.dumps(state.begins())))
        self.assertEqual(json.dumps(again.begins()), json.dumps(state.begins()))
        self.assertEqual([it.line for it in again.take(["ready", "c0", 2, 1])], ["synod 1 5 next 17", None])

    def test_lines_of_other_machines_show_how_far_their_records_are(self):
        state, again = State(), State()
        state.take(["ready", "c0", 0, 0])
        for message in (None, [3, 0], ["B", 7, 1], ["B", 5, 0], ["C", 0, 0]):
            state.take(["given", "c0", "synod 1 5 next 16", message])
        again.take(json.loads(json.dumps(state.begins())))
        self.assertEqual((state.heard, again.heard), ({"B": 8, "C": 1},) * 2)
        self.assertEqual([it.message for it in again.take(["ready", "c0", 1, 3])[:3]], [None, [3, 0], ["B", 7, 1]])

    def test_a_record_of_before_has_heard_of_no_machine(self):
        word, old = State().begins()
        del old["heard"]
        self.state.take([word, old])
        self.assertEqual(self.state.heard, {})


if __name__ == "__main__":
    unittest.main()
