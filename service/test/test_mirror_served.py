"""A mirror as it runs: its HTTP server, its command, its probes, and a service that is gone."""
import asyncio
import base64
import hashlib
import http.client
import json
import os
import signal
import subprocess
import sys
import threading
import time
import unittest
from unittest import mock

import stands
from ksi_service import extension, files, mirror_service, programs, roots
from ksi_service.anchors import Anchors
from ksi_service.answers import Refusal
from ksi_service.calendar_files import Calendar
from ksi_service.door import Door
from ksi_service.elements import publications_file, published_in
from ksi_service.mirror_metrics import prometheus
from ksi_service.mirror_service import MirrorHouse, extended
from ksi_service.probe import Probe
from ksi_service.publications import Publications
from ksi_service.service import extended_by_files
from ksi_service.subtrees import Subtrees
from mirrored import PLAN, Mirrored, Service, root_of
from stand_in import signature_of


class Signing(Service):
    """A service whose seconds are hashes that it signed, each alone in its second."""

    def sign(self, imprint):
        self.roots.append(b"\x01" + bytes.fromhex(imprint))
        return signature_of(imprint, self.next - 1)


def imprint(number):
    return hashlib.sha256(b"document %d" % number).hexdigest()


class GoneTest(Mirrored):
    def test_a_mirror_alone_extends_all_signatures_of_a_service_that_is_gone(self):
        service = self.service(Signing()).grow(5)
        signatures = {imprint(number): service.sign(imprint(number)) for number in range(8)}
        service.publish()
        mirror = self.mirror(service)
        mirror.look()
        printed = service.publications[-1]
        service.lies = {path: 503 for path in ("/v1/calendar", "/publications")}
        alone = self.mirror(service)
        alone.look()
        # against the mirror's list, and against the print
        files.write(self.at("print"), publications_file([printed]))
        for name, signature in signatures.items():
            files.write(self.at("extended"), extended(alone, signature))
            for listed in (alone.seen.path, self.at("print")):
                self.assertEqual(extension.ksi("verify", self.at("extended"), name, listed), f"accepted {extension.wanted(signature, printed[0]).second}")

    def test_what_was_not_published_is_not_extended(self):
        service = self.service(Signing()).grow(5)
        old = service.sign(imprint(1))
        service.publish()
        mirror = self.mirror(service)
        mirror.look()
        late, other = service.sign(imprint(2)), signature_of(imprint(3), service.next - 3)
        for signature, reason in ((late, "after the last publication"), (other, "refused V1"), (b"x", "cut off"), (signature_of(imprint(1), PLAN.start - 1), "L second")):
            with self.assertRaisesRegex((extension.NotExtended, roots.NotComputed), reason):
                extended(mirror, signature)
        self.assertTrue(extended(mirror, old))


class ByFilesTest(Mirrored):
    def test_a_service_whose_cores_do_not_answer_extends_by_its_calendar_files(self):
        one = self.service(Signing()).grow(5)
        signature = one.sign(imprint(1))
        one.grow(5).publish()
        calendar = Calendar(self.at("calendar"), PLAN)
        publications = Publications(self.room.name)
        publications.add(*one.publications[0])
        parts = extension.wanted(signature, publications.last())
        kept = Subtrees(calendar)
        self.assertIsNone(extended_by_files(kept, signature, parts, publications.last(), publications))
        calendar.add(b"".join(one.roots))
        content = extended_by_files(kept, signature, parts, publications.last(), publications)
        self.assertEqual(extension.wanted(content, publications.last()).second, PLAN.start + 5)
        with mock.patch.object(Subtrees, "extended", return_value=None):
            self.assertEqual(extended_by_files(kept, signature, parts, publications.last(), publications), content)
            with mock.patch.object(roots, "run", side_effect=programs.Missing("ksi_roots is not built")):
                self.assertIsNone(extended_by_files(kept, signature, parts, publications.last(), publications))


class ServedTest(Mirrored):
    """The HTTP server of a mirror."""

    def setUp(self):
        super().setUp()
        self.one = self.service(Signing()).grow(5)
        self.signature = self.one.sign(imprint(1))
        self.one.grow(40).publish()
        self.made = self.mirror(self.one)
        self.made.look()
        opened = threading.Event()

        async def serve():
            self.house = MirrorHouse(self.made, Anchors(self.made.folder))
            door, self.ending, self.loop = Door(self.house, prometheus=prometheus), asyncio.Event(), asyncio.get_running_loop()
            await door.begin("127.0.0.1", 0)
            self.address = door.where()
            opened.set()
            await self.ending.wait()
            await door.stop()
        thread = threading.Thread(target=lambda: asyncio.run(serve()))
        thread.start()
        opened.wait()
        self.addCleanup(lambda: (self.loop.call_soon_threadsafe(self.ending.set), thread.join()))

    def ask(self, path, content=None, kind="text/plain"):
        connection = http.client.HTTPConnection(self.address, timeout=20)
        connection.request("GET" if content is None else "POST", path, content, {"Content-Type": kind})
        answer = connection.getresponse()
        told = answer.status, answer.read()
        connection.close()
        return told

    def test_it_serves_the_reading_paths(self):
        self.assertEqual(published_in(self.ask("/publications")[1]), self.one.publications)
        self.assertEqual(json.loads(self.ask("/v1/calendar")[1])["calendars"], [{"plan": PLAN.digest, "start": PLAN.start, "next": self.one.next}])
        for number in (PLAN.first_file(), PLAN.first_file() + 1):
            self.assertEqual(self.ask(self.one.file_path(number)), (200, self.one.truth(self.one.file_path(number))))
        status, content = self.ask("/extend", self.signature)
        self.assertEqual((status, extension.wanted(content, self.one.next - 1).second), (200, PLAN.start + 5))
        self.assertEqual(self.ask("/extend", b"x")[0], 409)
        self.assertEqual(self.ask("/sign", imprint(1).encode()), (404, b"a mirror signs nothing: ask the service\n"))
        self.assertEqual(self.ask(f"/signature/{imprint(1)}")[0], 404)

    def test_it_serves_the_paths_of_v1(self):
        publication = self.one.next - 1
        rows = [base64.b64encode(it).decode() for it in (self.signature, b"x")]
        status, content = self.ask("/v1/extensions", json.dumps(rows), "application/json")
        one, other = json.loads(content)
        self.assertEqual((status, one["hash"], one["second"], one["publication"], other["error"]["code"]), (200, imprint(1), PLAN.start + 5, publication, "malformed-signature"))
        self.assertEqual(extension.wanted(base64.b64decode(one["signature"]), publication).second, PLAN.start + 5)
        for path, content, code in ((f"/v1/extensions?to={publication - 1}", self.signature, "no-such-publication"), ("/v1/signatures", imprint(1), "signs-nothing"),
                                    (f"/v1/signatures/{imprint(1)}", None, "signature-unknown")):
            kind = "application/octet-stream" if content is self.signature else "text/plain"
            self.assertEqual(json.loads(self.ask(path, content, kind)[1])["code"], code, path)
        self.assertEqual(published_in(self.ask("/v1/publications")[1]), self.one.publications)
        self.assertEqual([self.ask(path)[0] for path in ("/healthz", "/readyz")], [200, 200])

    def test_its_page_and_its_counters(self):
        status, page = self.ask("/")
        self.assertEqual(status, 200)
        self.assertIn(self.one.publications[0][1].encode(), page)
        self.assertIn(b"No fork was found.", page)
        self.assertEqual(json.loads(self.ask("/status")[1])["last_publication"], self.one.next - 1)
        status, rows = self.ask("/metrics")
        for row in (f"ksi_mirror_last_publication {self.one.next - 1}", "ksi_mirror_forks 0", f'ksi_mirror_source{{url="{self.one.url}",kind="service",state="agrees"}} 1',
                    f'ksi_mirror_source{{url="{self.one.url}",kind="service",state="faulty"}} 0'):
            self.assertIn(row, rows.decode().splitlines())

    def test_another_mirror_compares_with_it(self):
        class Url:
            url = f"http://{self.address}"
        other = self.mirror(self.one, also=[Url], name="other")
        other.look()
        self.assertEqual(self.states(other), ["agrees", "agrees"])
        alone = self.mirror(Url, name="alone")
        alone.look()
        self.assertEqual((self.states(alone), alone.seen.last()), (["agrees"], self.one.next - 1))

    def test_a_page_without_a_calendar(self):
        gone = Service()
        gone.end()
        house = MirrorHouse(self.mirror(gone, name="other"), Anchors(self.room.name))
        with self.assertRaises(Refusal):
            house.page()
        self.assertEqual((house.publications(), house.calendars(), house.counters()["publications"]), (None, {}, 0))


class CommandTest(Mirrored):
    def run_command(self, *words):
        told = subprocess.run([sys.executable, stands.COMMAND, *words], capture_output=True, text=True, check=False, timeout=60)
        return told.returncode, told.stdout, told.stderr

    def test_one_look_has_a_status(self):
        one = self.service().grow(20).publish()
        other = self.service(one.copy())
        words = ["mirror", one.url, other.url, self.at("mirror"), "--once"]
        self.assertEqual(self.run_command(*words)[0], 0)
        one.grow(5).publish()
        other.roots[3] = root_of(1)
        other.grow(5).publications = list(one.publications)
        self.assertEqual(self.run_command(*words)[0], 5)
        other.roots, other.publications = list(one.roots), list(one.publications)
        other.lies = {"/publications": 500}
        status, said, _ = self.run_command(*words)
        self.assertEqual(status, 6)
        self.assertIn(f"{one.url} agrees\n{other.url} unknown: /publications has status 500\n2 publications, the last one of second {one.next - 1}\n", said)
        other.lies = {}
        one.grow(5, "b").publish()
        other.grow(6, "c").publish()
        status, said, reason = self.run_command(*words)
        self.assertEqual((status, "ksi-service evidence" in reason), (4, True), said + reason)
        self.assertEqual(self.run_command(*words)[0], 4)
        status, said, _ = self.run_command("evidence", self.at("mirror"))
        self.assertEqual((status, said.splitlines()[-1]), (0, "1 fork"))
        self.assertIn(f"differ from second {PLAN.start + 25} on", said)

    def test_words_that_are_none(self):
        status, _, said = self.run_command("mirror", "ftp://x", self.at("mirror"))
        self.assertEqual(status, 1)
        self.assertIn("is not http", said)
        self.assertEqual(self.run_command("evidence", self.at("nothing"))[:2], (0, "0 forks\n"))
        files.write(self.at("plan"), b"ksi-schedule 1\ncores 3\n")
        self.assertEqual(self.run_command("mirror", "http://127.0.0.1:1", self.room.name, "--once")[0], 3)

    def test_it_runs_until_it_is_stopped_and_goes_on(self):
        one = self.service(Signing()).grow(3)
        signature = one.sign(imprint(1))
        one.grow(3).publish()
        for count in (1, 2):
            with subprocess.Popen([sys.executable, stands.COMMAND, "mirror", one.url, self.at("mirror"), "--door", "127.0.0.1:0", "--every", "1"], stderr=subprocess.DEVNULL) as process:
                self.addCleanup(process.kill)
                self.wait(lambda: json.loads(self.ask("/status"))["publications"] == count)
                self.assertEqual(len(published_in(self.ask("/publications"))), count)
                self.assertEqual(extension.wanted(self.ask("/extend", signature), one.next).second, PLAN.start + 3)
                self.assertEqual(self.run_command("mirror", one.url, self.at("mirror"), "--once")[0], 1)
                self.assertIn(f"last_publication {one.next - 1}", self.run_command("status", self.at("mirror"))[1])
                files.write(self.at("deed.ksig"), signature)
                self.assertEqual(self.run_command("extend", self.at("deed.ksig"), "--folder", self.at("mirror"), "-o", self.at("extended"))[0], 0)
                self.assertEqual(self.run_command("publications", "--folder", self.at("mirror"), "-o", self.at("publications"))[0], 0)
                self.assertEqual(extension.ksi("verify", self.at("extended"), imprint(1), self.at("publications")), f"accepted {PLAN.start + 3}")
                process.send_signal(signal.SIGTERM)
                self.assertEqual(process.wait(20), 0)
            one.grow(3).publish()

    def ask(self, path, content=None):
        with open(self.at("mirror", "door"), encoding="ascii") as file:
            connection = http.client.HTTPConnection(file.read().split()[0], timeout=20)
        connection.request("GET" if content is None else "POST", path, content)
        answer = connection.getresponse()
        told = answer.read()
        connection.close()
        return told

    def wait(self, holds):
        end = time.monotonic() + 60
        while time.monotonic() < end:
            try:
                if holds():
                    return
            except (OSError, ValueError):
                pass
            time.sleep(0.1)
        self.fail("it did not come about in time")


class ProbeTest(Mirrored):
    def setUp(self):
        super().setUp()
        self.one = self.service(Signing()).grow(3).publish()
        self.made = self.mirror(self.one)
        self.made.look()
        self.logs = stands.logged(self, "ksi_service.probe")

    def probe(self, sign):
        it = Probe(self.made, 3600)
        for server in it.servers:
            server.post = lambda path, content, most: sign(content.decode())
        return it

    def test_a_probe_is_signed_and_later_extended(self):
        it = self.probe(self.one.sign)
        it.look()
        self.assertEqual((len(it.names()), it.extended, it.failed), (1, 0, 0))
        self.one.grow(3).publish()
        self.made.look()
        it.look()
        self.assertEqual((len(it.names()), it.extended, it.failed), (0, 1, 0))

    def test_a_signature_that_does_not_extend_is_kept(self):
        it = self.probe(lambda text: signature_of(text, self.one.next - 1))
        it.look()
        it.look()
        self.assertEqual((len(it.names()), it.extended, it.failed), (0, 0, 1))
        self.assertEqual([name[64:] for name in os.listdir(it.folder)], [".failed"])
        self.assertIn("is not extended", self.logs[-1])

    def test_a_door_that_does_not_sign(self):
        it = self.probe(lambda text: b"nothing")
        it.look()
        self.assertEqual((it.failed, it.counters()["probe_waiting_seconds"]), (1, 0))


if __name__ == "__main__":
    unittest.main()
