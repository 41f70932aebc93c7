"""What tests of mirrors share: services without nodes, each a small HTTP server over a calendar, which may do whatever a test wants."""
import contextlib
import hashlib
import http.server
import io
import json
import os
import tempfile
import threading
import unittest
from unittest import mock

import stand_in_roots
import stands
from calendar_tree import Tree
from ksi_service import roots
from ksi_service.calendar_files import SECONDS, PlanName, packed
from ksi_service.elements import publications_file
from ksi_service.mirror import Mirror

PLAN = PlanName("ab" * 32, 1_700_000_000 // SECONDS * SECONDS + SECONDS - 30)
"""A plan whose second file begins 30 seconds after its start."""


def root_of(second, calendar="a"):
    return b"\x01" + hashlib.sha256(f"{calendar} {second}".encode()).digest()


class Server(http.server.ThreadingHTTPServer):
    def handle_error(self, *_):
        """A client that leaves is no error."""


class Service:
    """A calendar with its publications, and an HTTP server that returns them."""

    def __init__(self, plan=PLAN, roots=None):
        self.plan = plan
        self.roots = list(roots or [])
        self.publications = []
        self.lies = {}
        """Other bytes of a path, a status in their place, or a function of its true bytes."""
        self.asked = []
        service = self

        class Handler(http.server.BaseHTTPRequestHandler):
            protocol_version = "HTTP/1.1"
            wbufsize = 1 << 16

            def do_GET(self):
                service.asked.append((self.path, self.headers.get("Cache-Control")))
                self.answer(service.answer(self.path, self.headers))

            def answer(self, content):
                if isinstance(content, int):
                    status, content = content, b""
                else:
                    status = 200
                tag = f'"{hashlib.sha256(content).hexdigest()}"'
                if status == 200 and self.headers.get("If-None-Match") == tag:
                    status, content = 304, b""
                self.send_response(status)
                if status != 304:
                    self.send_header("Content-Length", str(len(content)))
                self.send_header("ETag", tag)
                self.end_headers()
                with contextlib.suppress(OSError):
                    self.wfile.write(content)

            def log_message(self, *_):
                pass
        self.server = Server(("127.0.0.1", 0), Handler)
        self.server.daemon_threads = True
        self.url = f"http://127.0.0.1:{self.server.server_address[1]}"
        threading.Thread(target=self.server.serve_forever, args=(0.05,), daemon=True).start()

    def end(self):
        self.server.shutdown()
        self.server.server_close()

    @property
    def next(self):
        return self.plan.start + len(self.roots)

    def grow(self, count, calendar="a"):
        """Decides further seconds."""
        self.roots += [root_of(it, calendar) for it in range(self.next, self.next + count)]
        return self

    def publish(self, second=None):
        """Publishes a second, the last one if none is named."""
        second = self.next - 1 if second is None else second
        self.publications.append((second, Tree(self.plan.start, self.roots[:second + 1 - self.plan.start]).root(second)[1:].hex()))
        return self

    def copy(self):
        """Another service that begins with what this one has."""
        other = Service(self.plan, self.roots)
        other.publications = list(self.publications)
        return other

    def truth(self, path):
        if path == "/v1/calendar":
            return json.dumps({"calendars": [{"plan": self.plan.digest, "start": self.plan.start, "next": self.next}]}).encode()
        if path == "/publications":
            return publications_file(self.publications) if self.publications else 404
        if path == "/v1/book":
            return 404
        number = int(path.rsplit("/", 1)[1])
        first, last = self.plan.first_of(number), min(self.next, (number + 1) * SECONDS)
        if not path.startswith(f"/v1/calendar/{self.plan.digest}/") or number < self.plan.first_file() or first >= last:
            return 404
        return packed(self.plan, number, b"".join(self.roots[first - self.plan.start:last - self.plan.start]))

    def answer(self, path, headers):
        lie = self.lies.get(path)
        if callable(lie):
            return lie(self.truth(path), headers)
        return self.truth(path) if lie is None else lie

    def file_path(self, number):
        return f"/v1/calendar/{self.plan.digest}/{number}"


def run_here(*words):
    """As `roots.run` by the stand-in for `ksi_roots`, without a process."""
    said = io.StringIO()
    try:
        with contextlib.redirect_stdout(said):
            stand_in_roots.main(*words)
    except SystemExit:
        raise roots.NotComputed(said.getvalue().strip()) from None
    return said.getvalue().strip()


class Mirrored(unittest.TestCase):
    """Mirrors over services of this process, by the stand-in for `ksi_roots`."""

    def setUp(self):
        self.room = tempfile.TemporaryDirectory(prefix="ksi-test-")
        self.addCleanup(self.room.cleanup)
        self.logged = stands.logged(self, "ksi_service.mirror")
        programs = self.at("bin")
        for name, script in (("ksi_roots", "stand_in_roots.py"), ("ksi", "stand_in_ksi.py")):
            stands.make_program(programs, name, script)
        named = mock.patch.dict(os.environ, KSI_BIN=programs)
        named.start()
        self.addCleanup(named.stop)
        # a sync takes long on a busy disk
        self.synced = []
        for quick in (mock.patch.object(roots, "run", run_here), mock.patch("os.fsync", self.synced.append)):
            quick.start()
            self.addCleanup(quick.stop)

    def at(self, *names):
        return os.path.join(self.room.name, *names)

    def service(self, service=None):
        service = service or Service()
        self.addCleanup(service.end)
        return service

    def mirror(self, *doors, also=(), name="mirror", **options):
        return Mirror(self.at(name), [it.url for it in doors], [it.url for it in also], **{"again": 0, "all_seconds": 5, **options})

    def states(self, mirror):
        return [it.state for it in mirror.sources]
