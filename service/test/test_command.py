"""The command alone, over a folder whose service was killed, or with a door that is none of a service."""
import contextlib
import io
import json
import os
import sqlite3
import subprocess
import sys
import tempfile
import threading
import time
import unittest
from http.server import BaseHTTPRequestHandler, HTTPServer
from unittest import mock

import stands
from ksi_service import command, command_asking, command_running, command_stopped, files
from ksi_service.elements import publications_file

SIGNATURE = os.path.join(os.path.dirname(os.path.dirname(stands.HERE)), "crates", "ksi", "data", "linked_signature")


class Status(BaseHTTPRequestHandler):
    """Answers each request by a counter."""

    def do_GET(self):
        content = json.dumps({"signed": 3}).encode()
        self.send_response(200)
        self.send_header("Content-Length", str(len(content)))
        self.end_headers()
        self.wfile.write(content)

    def log_message(self, *_):
        pass


class CommandTest(unittest.TestCase):
    def setUp(self):
        self.room = tempfile.TemporaryDirectory(prefix="ksi-test-")
        self.addCleanup(self.room.cleanup)
        self.folder = os.path.join(self.room.name, "data")
        os.mkdir(self.folder)

    def door(self, address, number):
        files.write(os.path.join(self.folder, "door"), f"{address}\n{number}\n".encode())

    def command(self, *words, status=0):
        told = io.StringIO()
        with contextlib.redirect_stdout(told), contextlib.redirect_stderr(told):
            self.assertEqual(command.main(words), status, told.getvalue())
        return told.getvalue()

    def held(self):
        """The folder is held, as by who checks it."""
        held = files.lock(self.folder)
        self.addCleanup(held.close)

    def serve(self):
        """A door, over a folder that is held."""
        server = HTTPServer(("127.0.0.1", 0), Status)
        thread = threading.Thread(target=server.serve_forever)
        thread.start()
        self.addCleanup(server.server_close)
        self.addCleanup(thread.join)
        self.addCleanup(server.shutdown)
        self.door("127.0.0.1:%d" % server.server_address[1], os.getpid())
        self.held()

    def test_who_takes_long_to_start_is_waited_for(self):
        """As cores that read a plan of months, or nodes behind a server that come later."""
        programs = stands.make(os.path.join(self.room.name, "bin"))
        path = os.path.join(programs, stands.NODE)
        files.write(path, files.content_of(path).replace(b"exec ", b"sleep 2; exec ", 1))
        os.chmod(path, 0o700)
        words = ["start", self.folder, "--door", "127.0.0.1:0", "--clock-unchecked"]
        with mock.patch.dict(os.environ, KSI_BIN=programs), mock.patch.object(command_running, "LONG_SECONDS", 1), mock.patch.object(sys, "argv", [stands.COMMAND, *words]):
            told = self.command(*words)
            self.assertRegex(told, "^its nodes still read .*\nstarted over ")
            self.command("stop", self.folder)
            with mock.patch.object(command_running, "START_SECONDS", 1):
                self.assertIn("within 1 seconds, and is stopped", self.command(*words, status=1))
        while files.is_held(self.folder):
            time.sleep(0.05)

    def test_a_log_that_says_nothing_is_told_as_that(self):
        """Where the disk is full, there is nothing to see in it."""
        with mock.patch.object(sys, "argv", ["/dev/null", "start", self.folder]):
            self.assertIn("its log is empty, as on a full disk", self.command("start", self.folder, status=1))

    def test_a_proxy_of_the_machine_is_not_asked(self):
        self.serve()
        with mock.patch.dict(os.environ, http_proxy="http://127.0.0.1:9", no_proxy=""):
            self.assertIn("signed", self.command("status", self.folder))

    def test_a_signature_that_is_there_is_not_replaced(self):
        """It may be years older than the one that would take its place."""
        name = os.path.join(self.room.name, "deed")
        for path, content in ((name, b"I owe you one."), (f"{name}.ksig", b"older")):
            files.write(path, content)
        with mock.patch.object(command_asking, "ask", lambda *_: b"newer"):
            self.assertIn("deed.ksig is there already", self.command("sign", name, status=1))
            self.assertIn("signed", self.command("sign", name, "-o", f"{name}.second"))
            self.assertIn("is there already", self.command("sign", name, "-o", f"{name}.second", status=1))
        self.assertEqual((files.content_of(f"{name}.ksig"), files.content_of(f"{name}.second")), (b"older", b"newer"))

    def test_publications_take_the_place_of_the_same_ones_alone(self):
        """Who verifies against an older plan has to keep its publications file too."""
        out, roots = os.path.join(self.room.name, "publications"), [(5, "1" * 64), (9, "2" * 64), (12, "3" * 64)]
        for told, status in ((roots[:1], 0), (roots[:2], 0), (roots[1:], 1), ([*roots[:1], (9, "4" * 64)], 1), (roots, 0)):
            with mock.patch.object(command_asking, "ask", lambda *_, told=told: publications_file(told)):
                self.assertIn("saved" if status == 0 else "has publications that", self.command("publications", "-o", out, status=status))
        self.assertEqual(files.content_of(out), publications_file(roots))
        files.write(out, b"a letter")
        with mock.patch.object(command_asking, "ask", lambda *_: publications_file(roots)):
            self.assertIn("is not a publications file", self.command("publications", "-o", out, status=1))
        self.assertEqual(files.content_of(out), b"a letter")

    def test_another_user_may_ask(self):
        self.serve()
        os.chmod(self.room.name, 0o755)
        os.chmod(os.path.join(self.folder, "lock"), 0o444)
        user = os.geteuid()
        try:
            # root would be allowed to write
            os.seteuid(user or 65534)
            self.assertIn("signed", self.command("status", self.folder))
        finally:
            os.seteuid(user)

    def test_a_service_that_starts_is_not_called_absent(self):
        """Its nodes may read their files for minutes. Who is told to start it would be told then that another one runs."""
        self.held()
        for word in ("stop", "status"):
            told = self.command(word, self.folder, status=1)
            self.assertIn("is in use, and its door is not open: a service starts or stops", told)
            self.assertNotIn("ksi-service start", told)

    def test_a_door_that_closes_in_the_middle_of_an_answer_is_told(self):
        self.serve()
        with mock.patch.object(Status, "send_header", lambda it, name, _: BaseHTTPRequestHandler.send_header(it, name, "99")):
            self.assertIn("does not answer", self.command("status", self.folder, status=1))

    def test_who_was_killed_is_not_stopped_while_somebody_checks_the_folder(self):
        """The number that it left may be another process's by now."""
        with subprocess.Popen(["sleep", "60"]) as other:
            self.addCleanup(other.kill)
            self.door("127.0.0.1:9", other.pid)
            files.write(os.path.join(self.folder, "plan"), b"")

            def check(*_, **__):
                self.assertIn("no service runs", self.command("stop", self.folder, status=1))
                self.assertIn("no service runs", self.command("status", self.folder, status=1))
            with mock.patch.object(command_stopped.checking, "check", check):
                self.command("check", self.folder)
            self.assertIsNone(other.poll())
            other.kill()

    def test_a_folder_that_was_no_services_is_left_as_it_is(self):
        """As one that was misspelled: nothing in it is removed."""
        self.door("127.0.0.1:9", 1)
        for words in (("check", self.folder), ("backup", self.folder, self.room.name), ("forget", self.folder)):
            self.assertIn("has no plan: no service ran over it", self.command(*words, status=1))
        self.assertEqual(os.listdir(self.folder), ["door"])
        self.assertIn("has no plan", self.command("check", os.path.join(self.room.name, "absent"), status=1))

    def test_a_check_that_lacks_room_is_told(self):
        """`check --by-node` has what was said in a file of the system's folder for such, which may be small."""
        files.write(os.path.join(self.folder, "plan"), b"")
        with mock.patch.object(command_stopped.checking, "check", side_effect=sqlite3.OperationalError("database or disk is full")):
            self.assertIn("ksi-service: database or disk is full", self.command("check", self.folder, "--by-node", status=1))

    def test_a_node_that_ends_before_it_is_asked_is_told(self):
        path = os.path.join(self.room.name, stands.NODE)
        files.write(path, b"#!/bin/sh\nexec 0<&-\necho ready 0; echo .; sleep 0.3; echo failed file\n")
        os.chmod(path, 0o700)
        for name, content in (("plan", b"cores 1\nstart 5\naggregator 0 parent c0\n"), ("c0.facts", b""), ("publications", publications_file([(9, "1" * 64)]))):
            files.write(os.path.join(self.folder, name), content)
        with mock.patch.dict(os.environ, KSI_BIN=self.room.name):
            told = self.command("extend", SIGNATURE, "--folder", self.folder, status=1)
        self.assertIn("c0 ended: failed file", told)


if __name__ == "__main__":
    unittest.main()
