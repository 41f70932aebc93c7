"""The index of signatures: what it finds, and how it is made again from the record."""
import asyncio
import gzip
import json
import os
import random
import tempfile
import threading
import time
import unittest
from types import SimpleNamespace
from unittest import mock

from hosted import imprint as a_hash
from ksi_service import files, hours, indexing, packed
from ksi_service.answers import Refusal
from ksi_service.finding import Finding
from ksi_service.index import Index, Place
from ksi_service.indexing import Found, Indexing, NotIndexed
from stand_in import signature_of
from several import Several
from served import REAL, Served, imprint

SECOND = 1_700_000_000


class Records:
    """A record whose entries are signatures alone."""

    def __init__(self, folder):
        self.folder = os.path.join(folder, "record")
        os.makedirs(self.folder)
        self.number = 1
        self.lines = [b'["begins",{}]\n']
        self.write()

    @property
    def place(self):
        return self.number, sum(map(len, self.lines))

    def add(self, text, second=SECOND):
        """Adds a signature, and returns its place."""
        at = self.place[1]
        self.lines.append(json.dumps(["said", "a0", ["answer number 1"]]).encode() + b"\n")
        at = self.place[1]
        self.lines.append(json.dumps(["signed", len(self.lines), signature_of(text, second).hex()]).encode() + b"\n")
        self.write()
        return self.number, at

    def write(self):
        files.write(os.path.join(self.folder, f"{self.number:08}"), b"".join(self.lines))

    def cut(self):
        hours.pack(os.path.join(self.folder, f"{self.number:08}"))
        self.number += 1
        self.lines = [b'["begins",{}]\n']
        self.write()


class IndexingTest(unittest.TestCase):
    def setUp(self):
        room = tempfile.TemporaryDirectory(prefix="ksi-test-")
        self.addCleanup(room.cleanup)
        self.folder = room.name
        self.record = Records(self.folder)
        self.path = os.path.join(self.folder, "signatures.sqlite")
        for name, value in (("WRITE_SECONDS", 0.02), ("AGAIN_SECONDS", 0.05)):
            patch = mock.patch.object(indexing, name, value)
            patch.start()
            self.addCleanup(patch.stop)

    def play(self, work):
        async def go():
            it = Indexing(self.folder, self.record)
            running = asyncio.create_task(it.run())
            try:
                while not it.is_complete:
                    await asyncio.sleep(0.01)
                return await asyncio.wait_for(work(it), 60)
            finally:
                running.cancel()
                await asyncio.gather(running, return_exceptions=True)
                await it.stop()
        return asyncio.run(go())

    def found(self, *numbers):
        """Which of these documents' signatures a new run finds."""
        async def work(it):
            return [await it.find(imprint(number)) for number in numbers]
        return self.play(work)

    def answer(self, number, second=SECOND):
        return Found(signature_of(imprint(number), second).hex(), second)

    def test_signatures_of_earlier_runs_are_read_from_the_record(self):
        for number in range(40):
            self.record.add(imprint(number))
            if number % 10 == 9:
                self.record.cut()
        wanted = [self.answer(number) for number in range(40)]
        self.assertEqual(self.found(*range(41)), [*wanted, None])
        # the last file was not noted by the first run
        self.record.add(imprint(50))
        with mock.patch.object(indexing, "signed_in", side_effect=indexing.signed_in) as read:
            self.assertEqual(self.found(50, 3), [self.answer(50), self.answer(3)])
        self.assertEqual([call.args[1] for call in read.call_args_list], [5])

    def test_the_last_signature_of_a_hash_counts(self):
        self.record.add(imprint(1), SECOND)
        self.record.cut()
        self.record.add(imprint(1), SECOND + 5)
        self.record.add(imprint(1), SECOND + 9)
        self.assertEqual(self.found(1), [self.answer(1, SECOND + 9)])

        async def work(it):
            place = self.record.add(imprint(1), SECOND + 20)
            it.note(imprint(1), SECOND + 20, place)
            noted = await it.find(imprint(1))
            while it.noted:
                await asyncio.sleep(0.01)
            return noted, await it.find(imprint(1))
        self.assertEqual(self.play(work), (self.answer(1, SECOND + 20), self.answer(1, SECOND + 20)))

    def test_a_table_that_is_lost_or_damaged_is_made_again(self):
        for number in range(5):
            self.record.add(imprint(number))
        self.found(1)
        content = files.content_of(self.path)
        for damaged in (None, b"", content[:5000], b"no table" * 1000, content[:100] + bytes(len(content) - 100)):
            files.remove(self.path)
            if damaged is not None:
                files.write(self.path, damaged)
            self.assertEqual(self.found(*range(6)), [*map(self.answer, range(5)), None], damaged and damaged[:20])

    def test_a_table_that_does_not_fit_the_record_is_made_again(self):
        place = self.record.add(imprint(1))
        self.found(1)
        index = Index(self.path)
        index.open()
        index.add([Place(imprint(2), SECOND, *place), Place(imprint(3), SECOND, 1, 3)])
        index.close()

        async def work(it):
            # a row of another hash is passed over, and one of another entry shows that the table is damaged
            other = await it.find(imprint(2))
            with self.assertRaises(NotIndexed):
                await it.find(imprint(3))
            while True:
                try:
                    return other, await it.find(imprint(3)), await it.find(imprint(1))
                except NotIndexed:
                    await asyncio.sleep(0.01)
        self.assertEqual(self.play(work), (None, None, self.answer(1)))

    def test_what_is_noted_while_the_table_is_made_again_is_found(self):
        async def work(it):
            for number in range(30):
                place = self.record.add(imprint(number))
                it.note(imprint(number), SECOND, place)
                if number == 15:
                    await it.work(it.index.remove)
                await asyncio.sleep(0.005)
            while it.noted or not it.is_complete:
                await asyncio.sleep(0.01)
            return [await it.find(imprint(number)) for number in range(30)]
        self.assertEqual(self.play(work), [self.answer(number) for number in range(30)])

    def test_what_is_noted_is_written_while_the_record_is_still_read(self):
        """So that a long record costs no memory. A crash then loses nothing: the next run reads the record from the same file on."""
        self.record.add(imprint(1))
        reading = threading.Event()
        self.addCleanup(reading.set)
        catch_up = Indexing.catch_up

        async def work():
            it = Indexing(self.folder, self.record)
            with mock.patch.object(Indexing, "catch_up", lambda it: (reading.wait(60), catch_up(it))):
                running = asyncio.create_task(it.run())
                it.note(imprint(2), SECOND, self.record.add(imprint(2)))
                while it.noted:
                    await asyncio.sleep(0.01)
                told = it.is_complete, await it.find(imprint(2)), await it.work(it.index.progress)
                reading.set()
                while not it.is_complete:
                    await asyncio.sleep(0.01)
                running.cancel()
                await asyncio.gather(running, return_exceptions=True)
                told += (await it.find(imprint(1)),)
                await it.stop()
            return told
        self.assertEqual(asyncio.run(work()), (False, self.answer(2), 0, self.answer(1)))

    def test_a_signature_whose_file_was_moved_is_not_found(self):
        self.record.add(imprint(1))
        self.record.cut()
        self.found(1)
        os.remove(os.path.join(self.record.folder, "00000001.gz"))
        self.assertEqual(self.found(1), [None])

    def test_while_the_record_is_read_an_unknown_hash_is_not_said_to_be_unknown(self):
        async def work():
            it = Indexing(self.folder, self.record)
            with self.assertRaises(NotIndexed):
                await it.find(imprint(1))
            it.note(imprint(2), SECOND, self.record.add(imprint(2)))
            found = await it.find(imprint(2))
            await it.stop()
            return found
        self.assertEqual(asyncio.run(work()), self.answer(2))

    def test_whoever_looks_when_it_ends_gets_the_signature_and_nobody_later(self):
        """The door stays open while one plan follows another."""
        self.record.add(imprint(1))

        async def work():
            it = Indexing(self.folder, self.record)
            running = asyncio.create_task(it.run())
            while not it.is_complete:
                await asyncio.sleep(0.01)
            running.cancel()
            await asyncio.gather(running, return_exceptions=True)
            looking = [asyncio.create_task(it.find(imprint(1))) for _ in range(9)]
            await asyncio.sleep(0)
            await it.stop()
            with self.assertRaises(NotIndexed):
                await it.find(imprint(1))
            return [await asyncio.wait_for(found, 60) for found in looking]
        self.assertEqual(asyncio.run(work()), [self.answer(1)] * 9)


class Host:
    """A machine whose messages go straight to the others."""

    def __init__(self, name, others, known, is_complete=True):
        self.name = name
        self.trusted = dict.fromkeys(others)
        self.places = SimpleNamespace(is_gateway=False)
        self.rounds = self
        self.succession = SimpleNamespace(before=None)
        self.known = known
        self.is_complete = is_complete
        self.finding = Finding(self, self)
        self.machines = {}

    async def find(self, text):
        if text in self.known:
            return Found("ab" * 40, self.known[text])
        if not self.is_complete:
            raise NotIndexed("the index is being made")

    def spawn(self, work):
        asyncio.get_running_loop().create_task(work)

    def send(self, machine, message):
        other = self.machines.get(machine)
        if other:
            kind, number, *words = message
            if kind == "find":
                other.finding.find(self.name, number, *words)
            else:
                text, second = words
                other.finding.found(self.name, number, Found(text, second) if text else text)


class FindingTest(unittest.TestCase):
    def lookup(self, *machines, seconds=0.1):
        async def work():
            hosts = {name: Host(name, [it for it, *_ in machines if it != name], *rest) for name, *rest in machines}
            for name, it in hosts.items():
                it.machines = {other: host for other, host in hosts.items() if other != name and host.known is not None}
            with mock.patch("ksi_service.finding.ANSWER_SECONDS", seconds):
                try:
                    return (await hosts["A"].finding.lookup(imprint(1))).second
                except Refusal as refusal:
                    return refusal.code
                finally:
                    self.assertEqual(hosts["A"].finding.asked, {})
        return asyncio.run(work())

    def test_a_hash_is_looked_for_here_and_then_elsewhere(self):
        self.assertEqual(self.lookup(("A", {imprint(1): 7}), ("B", {imprint(1): 8})), 7)
        self.assertEqual(self.lookup(("A", {}), ("B", {}), ("C", {imprint(1): 8}), seconds=60), 8)
        self.assertEqual(self.lookup(("A", {}), ("B", {}), seconds=60), "signature-unknown")

    def test_a_machine_that_cannot_say_leaves_the_answer_open(self):
        for machines in ([("A", {}, False)], [("A", {}), ("B", {}, False)], [("A", {}), ("B", None), ("C", {})]):
            self.assertEqual(self.lookup(*machines), "lookup-incomplete", machines)
        self.assertEqual(self.lookup(("A", {}, False), ("B", {imprint(1): 8}), ("C", None)), 8)

    def test_earlier_plans_are_not_searched(self):
        async def work(host):
            with self.assertRaises(Refusal) as refused:
                await host.finding.lookup(imprint(1))
            return refused.exception.code, refused.exception.detail

        async def sentences():
            first, later = Host("A", [], {}), Host("A", [], {})
            later.succession.before = "another plan"
            return [await work(it) for it in (first, later)]
        first, later = asyncio.run(sentences())
        self.assertEqual(first, ("signature-unknown", "the service has no signature of this hash"))
        self.assertEqual(later, ("signature-unknown", "the service has no signature of this hash in this plan; earlier plans are not searched"))


class MachinesTest(Several):
    def test_each_door_finds_the_signatures_of_all_machines(self):
        async def work(machines):
            for host in machines.hosts.values():
                it = Indexing(host.folder, host.record)
                it.index.open()
                it.is_complete = True
                host.rounds.on_signed = it.note
                host.finding = Finding(host, it)
            await machines.sign("A", "B", "C", count=12)
            found = [[await host.finding.lookup(a_hash(number)) for number in range(1, 13)] for host in machines.hosts.values()]
            with self.assertRaises(Refusal) as refused:
                await machines.hosts["A"].finding.lookup(a_hash(99))
            await machines.crash("C")
            with self.assertRaises(Refusal) as away:
                await machines.hosts["A"].finding.lookup(a_hash(99))
            for host in machines.hosts.values():
                await host.finding.indexing.stop()
            return found, [len(host.finding.indexing.noted) for host in machines.hosts.values()], refused.exception.code, away.exception.code
        found, noted, unknown, away = self.play(work)
        self.assertEqual((found[0], found[1]), (found[1], found[2]))
        self.assertEqual([it.content[:32].hex() for it in found[0]], [a_hash(number) for number in range(1, 13)])
        self.assertTrue(all(count < 12 for count in noted), noted)
        self.assertEqual((unknown, away), ("signature-unknown", "lookup-incomplete"))


class PackedTest(unittest.TestCase):
    def test_each_line_of_a_compressed_file_can_be_read(self):
        dice = random.Random(5)
        lines = [dice.randbytes(dice.choice((1, 50, 3000))).hex().encode() + b"\n" for _ in range(2500)]
        lines[700] = b"7" * (2 << 20) + b"\n"
        content = b"".join(lines)
        with tempfile.TemporaryDirectory() as room:
            path = os.path.join(room, "00000001")
            for squeeze in (hours.pack, lambda path: files.write(f"{path}.gz", gzip.compress(content)) or files.remove(path)):
                files.write(path, content)
                places = [sum(map(len, lines[:it])) for it in (0, 1, 699, 700, 701, 2499)]
                before = [hours.line_at(room, 1, at) for at in places]
                squeeze(path)
                self.assertEqual(sorted(os.listdir(room)), ["00000001.gz"])
                self.assertEqual(gzip.decompress(files.content_of(f"{path}.gz")), content)
                self.assertEqual([hours.line_at(room, 1, at) for at in places], before)
                self.assertEqual(before, [lines[it] for it in (0, 1, 699, 700, 701, 2499)])
                self.assertIsNone(hours.line_at(room, 1, len(content)))
            files.write(path, content)
            hours.pack(path)
            damaged = bytearray(files.content_of(f"{path}.gz"))
            damaged[len(packed.HEAD) + packed.EXTRA.size + 100] ^= 1
            files.write(f"{path}.gz", bytes(damaged))
            with self.assertRaises(hours.Broken):
                hours.line_at(room, 1, 0)
            self.assertRaises(FileNotFoundError, hours.line_at, room, 2, 0)


class ServedIndexTest(Served):
    """With a service that is started again."""

    def find(self, number):
        end = time.monotonic() + 120
        while True:
            status, content = self.ask(f"/v1/signatures/{imprint(number)}")
            if status != 503 or time.monotonic() > end:
                return status, json.loads(content)

    def test_a_signature_is_found_after_a_restart_and_without_the_index(self):
        self.start("--cut-every", "1")
        signed = {}
        for number in range(3):
            status, content = self.ask("/v1/signatures", imprint(number))
            self.assertEqual(status, 200)
            signed[number] = json.loads(content)[0]
        path = os.path.join(self.folder, "signatures.sqlite")
        restarts = [lambda: self.command("stop"), self.kill, lambda: (self.kill(), files.remove(path)), lambda: (self.kill(), files.write(path, b"no table"))]
        # the signatures of stand-ins cannot be read from the record
        for restart in restarts if REAL else restarts[:1]:
            restart()
            self.start()
            for number, row in signed.items():
                self.assertEqual(self.find(number), (200, row))
            self.assertEqual((self.find(9)[0], self.find(9)[1]["code"]), (404, "signature-unknown"))
            self.assertEqual(self.ask(f"/signature/{imprint(1)}")[0], 200)
        self.command("stop")


if __name__ == "__main__":
    unittest.main()
