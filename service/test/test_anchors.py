"""Anchors: a command after each publication, and the two scripts that ship."""
import asyncio
import contextlib
import hashlib
import http.server
import os
import stat
import subprocess
import tempfile
import threading
import unittest
from unittest import mock

import stands
from ksi_service import anchors
from ksi_service.anchors import Anchors, BadCommand, NotAnchored
from ksi_service.mirror_metrics import prometheus as mirror_rows
from ksi_service.metrics import prometheus

SCRIPTS = os.path.join(os.path.dirname(stands.HERE), "anchors")
ROOT = "ab" * 32


class Room(unittest.TestCase):
    def setUp(self):
        room = tempfile.TemporaryDirectory(prefix="ksi-test-")
        self.addCleanup(room.cleanup)
        self.folder = room.name

    def at(self, *names):
        return os.path.join(self.folder, *names)

    def script(self, text):
        path = self.at("command")
        with open(path, "w", encoding="ascii") as file:
            file.write(f"#!/bin/sh\n{text}\n")
        os.chmod(path, stat.S_IRWXU)
        return path

    def rows(self, name):
        try:
            with open(self.at(name), encoding="ascii") as file:
                return file.read().splitlines()
        except FileNotFoundError:
            return []


class AnchorsTest(Room):
    def setUp(self):
        super().setUp()
        self.logs = stands.logged(self, "ksi_service.anchors")

    def play(self, command, work):
        async def go():
            made = Anchors(self.folder, command)
            task = asyncio.create_task(made.run())
            try:
                return await asyncio.wait_for(work(made), 30)
            finally:
                task.cancel()
                with contextlib.suppress(asyncio.CancelledError):
                    await task
        with mock.patch.object(anchors, "FIRST_PAUSE", 0.05):
            return asyncio.run(go())

    async def until(self, made, second):
        while made.last[0] < second:
            await asyncio.sleep(0.02)

    def test_the_command_is_given_the_second_and_the_root(self):
        async def work(made):
            made.published(100, ROOT)
            await self.until(made, 100)
            return made.counters()
        told = self.play(f"{self.script('echo $* >> ' + self.at('told'))} 'a b'", work)
        self.assertEqual(self.rows("told"), [f"a b 100 {ROOT}"])
        self.assertEqual((told["anchored_second"], told["anchored_age_seconds"] < 5, told["anchors_failed"]), (100, True, 0))
        self.assertRegex(self.rows("anchored")[0], f"^100 {ROOT} [0-9]+$")

    def test_one_that_fails_is_tried_again(self):
        async def work(made):
            made.published(100, ROOT)
            await self.until(made, 100)
            return made.failed
        fails = self.script(f"echo x >> {self.at('told')}\n[ $(wc -l < {self.at('told')}) -ge 3 ] || {{ echo no network >&2; exit 4; }}")
        self.assertEqual(self.play(fails, work), 2)
        self.assertIn("status 4: no network", self.logs[0])

    def test_the_last_one_is_enough_and_nothing_waits_for_a_run(self):
        async def work(made):
            for second in (100, 101, 102):
                made.published(second, ROOT)
                await asyncio.sleep(0.1)
            await self.until(made, 102)
        self.play(self.script(f"echo $1 >> {self.at('told')}; sleep 0.5"), work)
        self.assertEqual(self.rows("told"), ["100", "102"])

    def test_one_that_hangs_is_killed(self):
        async def work(made):
            made.published(100, ROOT)
            while not made.failed:
                await asyncio.sleep(0.02)
        with mock.patch.object(anchors, "LONGEST_SECONDS", 0.3):
            self.play(self.script("exec sleep 60"), work)
        self.assertIn("did not end within", self.logs[0])

    def test_after_a_start_only_what_is_not_anchored_yet_is_given(self):
        async def work(made):
            made.published(100, ROOT)
            made.published(101, ROOT)
            await self.until(made, 101)
        with open(self.at("anchored"), "w", encoding="ascii") as file:
            file.write(f"100 {ROOT} 1700000000\n101 {ROOT} 17")
        self.play(self.script(f"echo $1 >> {self.at('told')}"), work)
        self.assertEqual(self.rows("told"), ["101"])

    def test_without_a_command_nothing_is_counted(self):
        async def work(made):
            made.published(100, ROOT)
            await asyncio.sleep(0.1)
            return made.counters()
        self.assertEqual(self.play(None, work), {})

    def test_words_that_are_none(self):
        for text in ("'", " "):
            with self.assertRaises(BadCommand):
                anchors.words_of(text)

        async def once():
            made = Anchors(self.folder, self.at("nothing"))
            made.published(100, ROOT)
            await made.once()
        with self.assertRaisesRegex(NotAnchored, "No such file"):
            asyncio.run(once())

    def test_the_age_is_a_metric_of_a_service_and_of_a_mirror(self):
        counters = {"anchored_second": 100, "anchored_age_seconds": 90_000, "anchors_failed": 2, "looked": 0, "sources": []}
        self.assertIn("ksi_anchored_age_seconds 90000", prometheus(counters))
        self.assertIn("ksi_mirror_anchored_age_seconds 90000", mirror_rows(counters))


class GitTest(Room):
    def git(self, *words, folder="clone"):
        return subprocess.run(["git", "-C", self.at(folder), *words], capture_output=True, text=True, check=True).stdout

    def setUp(self):
        super().setUp()
        for name in ("remote", "clone", "other"):
            os.mkdir(self.at(name))
        self.git("init", "--quiet", "--bare", "--initial-branch=main", folder="remote")
        for name in ("clone", "other"):
            self.git("init", "--quiet", "--initial-branch=main", folder=name)
            self.git("remote", "add", "origin", self.at("remote"), folder=name)

    def anchor(self, second, name="clone"):
        environment = {**os.environ, "KSI_ANCHOR_REPOSITORY": self.at(name)}
        return subprocess.run([os.path.join(SCRIPTS, "anchor-git"), str(second), ROOT], env=environment, capture_output=True, text=True, check=False)

    def pushed(self):
        return self.git("show", "main:publications.txt", folder="remote").splitlines()

    def test_a_publication_is_committed_and_pushed(self):
        for second in (100, 200, 200):
            self.assertEqual(self.anchor(second).returncode, 0)
        self.assertEqual(self.pushed(), [f"100 {ROOT}", f"200 {ROOT}"])
        self.assertEqual(self.git("log", "--format=%s", folder="remote").splitlines()[0], f"Publication of second 200, root {ROOT}")

    def test_a_remote_that_is_away_fails_and_is_caught_up(self):
        self.anchor(100)
        os.rename(self.at("remote"), self.at("away"))
        self.assertNotEqual(self.anchor(200).returncode, 0)
        os.rename(self.at("away"), self.at("remote"))
        self.assertEqual(self.anchor(200).returncode, 0)
        self.assertEqual(self.pushed(), [f"100 {ROOT}", f"200 {ROOT}"])

    def test_two_machines_push_to_one_remote(self):
        self.anchor(100)
        self.git("pull", "--quiet", "origin", "main", folder="other")
        self.assertEqual(self.anchor(200).returncode, 0)
        said = self.anchor(200, "other")
        self.assertEqual(said.returncode, 0, said.stderr)
        self.anchor(300, "other")
        self.assertEqual(self.pushed(), [f"100 {ROOT}", f"200 {ROOT}", f"300 {ROOT}"])


class StandIn(http.server.BaseHTTPRequestHandler):
    """An OpenTimestamps calendar: it answers a digest by an attestation that it will be in a block."""

    taken = []

    def do_POST(self):
        self.taken.append(self.rfile.read(int(self.headers["Content-Length"])))
        url = b"http://stand.in"
        body = bytes([len(url)]) + url
        content = b"\x00" + bytes.fromhex("83dfe30d2ef90c8e") + bytes([len(body)]) + body
        self.send_response(200)
        self.send_header("Content-Length", str(len(content)))
        self.end_headers()
        self.wfile.write(content)

    def log_message(self, *_):
        pass


class OtsTest(Room):
    def setUp(self):
        super().setUp()
        if subprocess.run(["/usr/bin/python3", "-c", "import opentimestamps.calendar"], capture_output=True, check=False).returncode:
            self.skipTest("python3-opentimestamps is not here, so no print text is timestamped")
        server = http.server.HTTPServer(("127.0.0.1", 0), StandIn)
        threading.Thread(target=server.serve_forever, args=(0.05,), daemon=True).start()
        self.addCleanup(server.server_close)
        self.addCleanup(server.shutdown)
        self.url = f"http://127.0.0.1:{server.server_address[1]}"
        StandIn.taken.clear()

    def anchor(self, urls):
        environment = {**os.environ, "KSI_ANCHOR_FOLDER": self.folder, "KSI_ANCHOR_CALENDARS": urls}
        return subprocess.run([os.path.join(SCRIPTS, "anchor-ots"), "1700000000", ROOT], env=environment, capture_output=True, text=True, check=False)

    def test_the_print_text_is_timestamped(self):
        said = self.anchor(f"{self.url} http://127.0.0.1:1")
        self.assertEqual(said.returncode, 0, said.stderr)
        with open(self.at("1700000000.txt"), "rb") as file:
            text = file.read()
        self.assertEqual(text.decode(), f"Publication of second 1700000000, 2023-11-14 22:13:20 UTC\n{ROOT}\n")
        with open(self.at("1700000000.txt.ots"), "rb") as file:
            proof = file.read()
        # the header of a proof, version 1, SHA-256, the digest; a nonce of 16 bytes; SHA-256; and what the calendar added
        digest = hashlib.sha256(text).digest()
        self.assertEqual(proof[:65], b"\x00OpenTimestamps\x00\x00Proof\x00\xbf\x89\xe2\xe8\x84\xe8\x92\x94\x01\x08" + digest)
        self.assertEqual((proof[65:67], proof[83:85]), (b"\xf0\x10", b"\x08\x00"))
        self.assertEqual(StandIn.taken, [hashlib.sha256(digest + proof[67:83]).digest()])

    def test_no_calendar_that_answers_fails(self):
        said = self.anchor("http://127.0.0.1:1")
        self.assertNotEqual(said.returncode, 0)
        self.assertIn("http://127.0.0.1:1", said.stderr)
        self.assertEqual(os.listdir(self.folder), [])


if __name__ == "__main__":
    unittest.main()
