"""Calendar files: their bytes, how they grow, and how a server returns them."""
import asyncio
import hashlib
import http.client
import json
import os
import struct
import tempfile
import threading
import unittest
import unittest.mock

from hosted import Hosted, imprint
from ksi_service import calendar_files, files
from ksi_service.calendar_files import SECONDS, BadFile, Calendar, PlanName, first_difference, packed, roots_in
from ksi_service.calendar_writing import CalendarWriting
from ksi_service.door import Door

PLAN = PlanName("ab" * 32, 3 * SECONDS - 5)


def roots(first, count):
    return b"".join(b"\x01" + hashlib.sha256(b"%d" % it).digest() for it in range(first, first + count))


class FilesTest(unittest.TestCase):
    def setUp(self):
        room = tempfile.TemporaryDirectory(prefix="ksi-test-")
        self.addCleanup(room.cleanup)
        self.folder = os.path.join(room.name, "calendar")

    def calendar(self):
        return Calendar(self.folder, PLAN)

    def content(self, number):
        with open(os.path.join(self.folder, str(number)), "rb") as file:
            return file.read()

    def test_the_bytes_are_those_of_the_format(self):
        it = self.calendar()
        it.add(roots(PLAN.start, 7))
        it.flush()
        self.assertEqual(self.content(2), b"KSIROOT1\x01" + b"\xab" * 32 + struct.pack(">QQI", PLAN.start, 2, 5) + roots(PLAN.start, 5))
        self.assertEqual(self.content(3), b"KSIROOT1\x01" + b"\xab" * 32 + struct.pack(">QQI", PLAN.start, 3, 2) + roots(3 * SECONDS, 2))
        self.assertEqual(it.next, 3 * SECONDS + 2)

    def test_the_bytes_do_not_depend_on_how_the_file_grew(self):
        it = self.calendar()
        for second in range(PLAN.start, PLAN.start + 40):
            it.add(roots(second, 1))
            it.flush()
        before = self.content(2), self.content(3)
        files.remove(it.path(3))
        again = self.calendar()
        self.assertEqual(again.next, 3 * SECONDS)
        again.add(roots(3 * SECONDS, 35))
        again.flush()
        self.assertEqual((self.content(2), self.content(3)), before)

    def test_files_that_are_opened_again_go_on(self):
        it = self.calendar()
        it.add(roots(PLAN.start, 5 + SECONDS + 9))
        it.flush()
        self.assertEqual(sorted(os.listdir(self.folder)), ["2", "3", "4"])
        self.assertEqual(self.calendar().next, 4 * SECONDS + 9)
        self.assertEqual(len(self.content(3)), calendar_files.MOST_FILE)
        files.write(it.path(4), self.content(4)[:-1])
        self.assertEqual(self.calendar().next, 4 * SECONDS)
        files.write(it.path(3), self.content(3)[:-33])
        self.assertEqual(self.calendar().next, 3 * SECONDS)

    def test_other_bytes_are_refused(self):
        good = packed(PLAN, 2, roots(PLAN.start, 5))
        self.assertEqual(roots_in(good, PLAN, 2), roots(PLAN.start, 5))
        cases = {"in its head": good[:60], "no calendar": b"x" + good[1:], "length": good + b"x", "another plan or number": good[:20] + b"x" + good[21:],
                 "not an imprint": good[:61] + b"\x02" + good[62:]}
        for reason, content in cases.items():
            with self.assertRaisesRegex(BadFile, reason):
                roots_in(content, PLAN, 2)
        for content, number in ((good, 3), (packed(PLAN, 2, roots(PLAN.start, 6)), 2), (packed(PLAN, 2, b""), 2), (packed(PlanName("ab" * 32, 3), 2, roots(3, 5)), 2)):
            with self.assertRaises(BadFile):
                roots_in(content, PLAN, number)

    def test_the_first_difference(self):
        one = roots(0, 9)
        self.assertIsNone(first_difference(one, one[:33 * 4]))
        self.assertEqual(first_difference(one, one[:33 * 4] + b"x" + one[33 * 4 + 1:]), 4)


class House:
    def __init__(self, calendar):
        self.calendar = calendar

    def calendars(self):
        return {self.calendar.plan.digest: self.calendar}

    def publications(self):
        return b"list"

    def is_full(self):
        return False


class ServedTest(unittest.TestCase):
    """The paths of a server."""

    def setUp(self):
        room = tempfile.TemporaryDirectory(prefix="ksi-test-")
        self.addCleanup(room.cleanup)
        self.calendar = Calendar(os.path.join(room.name, "calendar"), PLAN)
        self.calendar.add(roots(PLAN.start, 5 + 9))
        opened, self.end = threading.Event(), None

        async def serve():
            door, self.end, self.loop = Door(House(self.calendar)), asyncio.Event(), asyncio.get_running_loop()
            await door.begin("127.0.0.1", 0)
            self.address = door.where()
            opened.set()
            await self.end.wait()
            await door.stop()
        thread = threading.Thread(target=lambda: asyncio.run(serve()))
        thread.start()
        opened.wait()
        self.addCleanup(lambda: (self.loop.call_soon_threadsafe(self.end.set), thread.join()))

    def ask(self, path, method="GET", **headers):
        connection = http.client.HTTPConnection(self.address, timeout=20)
        connection.request(method, path, headers={name.replace("_", "-"): value for name, value in headers.items()})
        answer = connection.getresponse()
        content = answer.read()
        connection.close()
        return answer.status, dict(answer.getheaders()), content

    def test_a_full_file_may_be_kept_for_ever_and_a_growing_one_may_not(self):
        for number, caching in ((2, "public, max-age=31536000, immutable"), (3, "public, max-age=2")):
            status, headers, content = self.ask(f"/v1/calendar/{PLAN.digest}/{number}")
            self.assertEqual((status, headers["Cache-Control"]), (200, caching))
            self.assertEqual(content, packed(PLAN, number, self.calendar.file_roots(number)))
            self.assertEqual(headers["ETag"], f'"{hashlib.sha256(content).hexdigest()}"')
            self.assertEqual(self.ask(f"/v1/calendar/{PLAN.digest}/{number}", "HEAD")[::2], (200, b""))
            again, head, nothing = self.ask(f"/v1/calendar/{PLAN.digest}/{number}", If_None_Match=f'"x", {headers["ETag"]}')
            self.assertEqual((again, nothing, head["ETag"], head.get("Content-Length")), (304, b"", headers["ETag"], None))
            self.assertEqual(self.ask(f"/v1/calendar/{PLAN.digest}/{number}", If_None_Match='"x"')[0], 200)

    def test_the_growing_file_is_returned_as_it_grows(self):
        before = self.ask(f"/v1/calendar/{PLAN.digest}/3")[1]["ETag"]
        self.calendar.add(roots(self.calendar.next, 1))
        status, headers, content = self.ask(f"/v1/calendar/{PLAN.digest}/3", If_None_Match=before)
        self.assertEqual((status, len(content)), (200, 61 + 33 * 10))
        self.assertNotEqual(headers["ETag"], before)

    def test_what_is_not_there_is_refused(self):
        for path in (f"/v1/calendar/{PLAN.digest}/1", f"/v1/calendar/{PLAN.digest}/4", f"/v1/calendar/{'cd' * 32}/3", f"/v1/calendar/{PLAN.digest}/03",
                     f"/v1/calendar/{PLAN.digest}", "/v1/calendar/../3"):
            self.assertEqual(self.ask(path)[0], 404, path)
        self.assertEqual(self.ask(f"/v1/calendar/{PLAN.digest}/3", "POST")[0], 405)

    def test_the_list(self):
        status, headers, content = self.ask("/v1/calendar")
        self.assertEqual((status, headers["Cache-Control"]), (200, "no-cache"))
        self.assertEqual(json.loads(content), {"calendars": [{"plan": PLAN.digest, "start": PLAN.start, "next": 3 * SECONDS + 9}]})

    def test_publications_are_asked_for_again_without_their_bytes(self):
        status, headers, content = self.ask("/publications")
        self.assertEqual((status, content), (200, b"list"))
        self.assertEqual(self.ask("/publications", If_None_Match=headers["ETag"])[::2], (304, b""))


class WritingTest(Hosted):
    def test_a_machine_writes_the_roots_that_its_cores_hold(self):
        async def work(host):
            writing = CalendarWriting(host, self.folder)
            task = asyncio.create_task(writing.run())
            await host.desk.sign(imprint(1))
            while writing.calendar.next < host.plan.start + 4:
                await asyncio.sleep(0.05)
            task.cancel()
            await writing.stop()
            count = writing.calendar.next - host.plan.start
            rows = await host.nodes["c1"].ask(f"held {host.plan.start} {count}")
            again = CalendarWriting(host, self.folder)
            self.assertEqual(again.calendar.next, writing.calendar.next)
            return [row.split()[2] for row in rows], writing.calendar
        held, calendar = self.play(work)
        number = calendar.plan.first_file()
        with open(calendar.path(number), "rb") as file:
            content = file.read()
        with open(os.path.join(self.folder, "plan"), "rb") as file:
            self.assertEqual(calendar.plan.digest, hashlib.sha256(file.read()).hexdigest())
        if number == calendar.number:
            written = roots_in(content, calendar.plan, number)
            self.assertEqual([written[at + 1:at + 33].hex() for at in range(0, len(written), 33)], held)

    def test_files_that_are_late_are_written_a_thousand_seconds_at_a_time(self):
        class Node:
            alive = True
            asked = []

            async def ask(self, text):
                _, first, count = text.split()
                self.asked.append(int(count))
                return [f"root {it} {it:064x}" for it in range(int(first), int(first) + int(count))]

        async def work(host):
            writing, core = CalendarWriting(host, self.folder), host.cores["c0"]
            with unittest.mock.patch.dict(host.nodes, c0=Node()), unittest.mock.patch.object(core, "next", host.plan.start + 9000):
                while writing.calendar.next < core.next:
                    await writing.take()
            return writing
        writing = self.play(work, is_watched=False)
        self.assertEqual(Node.asked[-9:], [1024] * 8 + [808])
        self.assertEqual(len(os.listdir(writing.calendar.folder)), writing.calendar.number - writing.calendar.plan.first_file())
        self.assertEqual(writing.calendar.file_roots(writing.calendar.number)[-32:].hex(), f"{writing.calendar.next - 1:064x}")

    def test_a_disk_that_fails_ends_nothing(self):
        async def work(host):
            writing = CalendarWriting(host, self.folder)
            with unittest.mock.patch.object(Calendar, "add", side_effect=OSError(28, "No space left on device")):
                with self.assertLogs("ksi_service.calendar_writing") as logs:
                    task = asyncio.create_task(writing.run())
                    while not logs.output:
                        await asyncio.sleep(0.05)
            self.assertFalse(task.done())
            task.cancel()
            return logs.output
        self.assertRegex(self.play(work)[0], "not written: .*No space left")


if __name__ == "__main__":
    unittest.main()
