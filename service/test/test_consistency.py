"""The consistency proofs at an HTTP server: each is checked here by hashlib, from its bytes."""
import asyncio
import hashlib
import http.client
import os
import threading
import unittest
from unittest import mock

import stand_in_roots
import stands
from calendar_tree import Tree, join, split
from ksi_service import consistency, roots
from ksi_service.anchors import Anchors
from ksi_service.answers import Refusal
from ksi_service.elements import publications_file, read
from ksi_service.door import Door
from ksi_service.mirror_service import MirrorHouse
from mirrored import Mirrored


def read_front(content):
    """Both seconds of a front, and its imprints."""
    assert content[:8] == b"KSIFRNT1", content
    kinds = [(it.kind, it.body) for it in read(content[8:])]
    assert [kind for kind, _ in kinds[:2]] == [1, 2] and all(kind == 3 for kind, _ in kinds[2:])
    return int.from_bytes(kinds[0][1], "big"), int.from_bytes(kinds[1][1], "big"), [body for _, body in kinds[2:]]


def roots_of(imprints, size, count, given):
    """Both roots that the imprints of a front lead to, of the first `size` leaves and of all: `given` where none is left."""
    if not imprints:
        return given, given
    *inner, last = imprints
    if size == count:
        return last, last
    left = split(count)
    if size <= left:
        old, new = roots_of(inner, size, left, given)
        return old, join(new, last)
    old, new = roots_of(inner, size - left, count - left, given)
    return join(last, old), join(last, new)


class SampleTest(unittest.TestCase):
    def test_the_samples_of_libksi_are_those_of_a_calendar(self):
        start, older, newer = 1_699_999_990, 1_700_000_000, 1_700_003_599
        tree = Tree(start, [b"\x01" + hashlib.sha256(b"second %d" % it).digest() for it in range(start, newer + 1)])
        samples = os.path.join(stands.HERE, "../../lang/samples")
        wanted = {"front.bin": stand_in_roots.front_of(tree, older, newer), "calendar.bin": publications_file([(it, tree.root(it)[1:].hex()) for it in (older, newer)])}
        for name, content in wanted.items():
            with open(os.path.join(samples, name), "rb") as file:
                self.assertEqual(file.read(), content, name)


class ConsistencyTest(Mirrored):
    def setUp(self):
        super().setUp()
        self.one = self.service().grow(7).publish().grow(45).publish().grow(3000).publish().grow(2)
        self.made = self.mirror(self.one)
        self.made.look()
        opened = threading.Event()

        async def serve():
            self.door, self.ending, self.loop = Door(MirrorHouse(self.made, Anchors(self.made.folder))), asyncio.Event(), asyncio.get_running_loop()
            await self.door.begin("127.0.0.1", 0)
            self.address = self.door.where()
            opened.set()
            await self.ending.wait()
            await self.door.stop()
        thread = threading.Thread(target=lambda: asyncio.run(serve()))
        thread.start()
        opened.wait()
        self.addCleanup(lambda: (self.loop.call_soon_threadsafe(self.ending.set), thread.join()))

    def ask(self, path, **headers):
        connection = http.client.HTTPConnection(self.address, timeout=60)
        connection.request("GET", path, headers={name.replace("_", "-"): value for name, value in headers.items()})
        answer = connection.getresponse()
        content = answer.read()
        connection.close()
        return answer.status, content, answer.headers

    def of(self, older, newer):
        return self.ask(f"/v1/consistency?from={older}&to={newer}")

    def test_a_proof_leads_from_each_publication_to_each_later_one(self):
        published = self.one.publications
        for place, (older, old_root) in enumerate(published):
            for newer, new_root in published[place:]:
                status, content, headers = self.of(older, newer)
                self.assertEqual(status, 200, content)
                first, last, imprints = read_front(content)
                self.assertEqual((first, last, older == newer), (older, newer, not imprints))
                old, new = b"\1" + bytes.fromhex(old_root), b"\1" + bytes.fromhex(new_root)
                self.assertEqual(roots_of(imprints, older + 1, newer + 1, old), (old, new))
                self.assertIn("immutable", headers["Cache-Control"])

    def test_a_client_that_has_the_proof_gets_no_second_one(self):
        older, newer = (it[0] for it in self.one.publications[:2])
        status, content, headers = self.of(older, newer)
        self.assertEqual((status, headers["ETag"]), (200, f'"{hashlib.sha256(content).hexdigest()}"'))
        status, content, _ = self.ask(f"/v1/consistency?from={older}&to={newer}", If_None_Match=headers["ETag"])
        self.assertEqual((status, content), (304, b""))
        # a proof that is kept is not made again
        with mock.patch.object(roots, "front", side_effect=AssertionError("made again")):
            self.assertEqual(self.of(older, newer)[0], 200)

    def test_what_has_no_proof_is_refused_with_the_reason(self):
        older, newer = (it[0] for it in self.one.publications[:2])
        for path, status, reason in (("", 400, "two published seconds"), ("?from=1", 400, "two published seconds"), (f"?from=0{older}&to={newer}", 400, "two published"),
                                     (f"?from={newer}&to={older}", 409, f"second {older} is before {newer}"), (f"?from={older + 1}&to={newer}", 404, f"second {older + 1} was not published here"),
                                     (f"?from={older}&to={self.one.next - 1}", 404, "was not published here"), ("?from=1&to=" + "9" * 19, 404, "second 1 was not published here")):
            answer = self.ask("/v1/consistency" + path)
            self.assertEqual((answer[0], reason in answer[1].decode()), (status, True), answer)
        self.assertEqual(self.ask("/v1/consistency/")[0], 404)

    def test_calendar_files_that_give_no_proof(self):
        older, newer = (it[0] for it in self.one.publications[:2])
        for error, status, reason in ((roots.NotComputed("missing file 7"), 409, "missing file 7"), (roots.NotRun("it was killed"), 503, "it was killed")):
            with mock.patch.object(roots, "front", side_effect=error):
                answer = self.of(older, newer)
                self.assertEqual((answer[0], reason in answer[1].decode()), (status, True), answer)
        self.assertEqual(self.of(older, newer)[0], 200)

    def test_too_many_at_once_and_proofs_that_are_forgotten(self):
        older, newer = (it[0] for it in self.one.publications[:2])
        with mock.patch.object(consistency, "MOST_WAITING", 0):
            self.assertEqual(self.of(older, newer)[0], 503)
        with mock.patch.object(consistency, "MOST_KEPT", 1):
            self.assertEqual((self.of(older, newer)[0], self.of(older, older)[0]), (200, 200))
            self.assertEqual([it[1:] for it in self.door.routes.consistency.kept], [(older, older)])

    def test_publications_that_no_calendar_here_has(self):
        class House:
            def calendars(self):
                return {}

            def publications(self):
                return publications_file([(5, "ab" * 32)])
        with self.assertRaises(Refusal) as told:
            consistency.Consistency(House()).calendar_of(5, 5)
        self.assertEqual(told.exception.code, "no-such-calendar")


if __name__ == "__main__":
    unittest.main()
