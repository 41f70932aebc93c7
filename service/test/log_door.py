"""An HTTP server for tests of ksi-log: it signs, extends and publishes as docs/API.md says, by the independent writer page/sample.py."""
import base64
import http.server
import json
import os
import sys
import threading

import stands
from ksi_service.elements import element, imprint, number, parts_of, publications_file

sys.path.insert(0, os.path.join(os.path.dirname(os.path.dirname(stands.HERE)), "page"))
import sample  # noqa: E402

START = 1_700_000_000


class Calendar:
    """The seconds of an invented service: one for each request."""

    def __init__(self):
        self.roots, self.published = [], []
        self.requests = 0
        self.is_away = False
        self.lock = threading.Lock()

    @property
    def last(self):
        return START + len(self.roots) - 1

    def leaf_at(self, second):
        return self.roots[second - START] if START <= second <= self.last else sample.ZERO

    def publish(self):
        with self.lock:
            root = sample.calendar(self.leaf_at, START, 0, self.last + 1)
            self.published.append((self.last, root[1:].hex()))

    def sign(self, hashes):
        with self.lock:
            self.requests += 1
            items = [(b"\1" + bytes.fromhex(it), 0, None) for it in hashes]
            self.roots.append(sample.tree(items)[0])
            return [self.row(it, self.signature(items, place)) for place, it in enumerate(hashes)]

    def row(self, digest, content):
        return {"hash": digest, "second": parts_of(content).second, "signature": base64.b64encode(content).decode()}

    def signature(self, items, place):
        links = sample.path(items, place)
        chain = sample.chain(self.last, [sample.shape_of(links)], items[place][0], 0, links)
        return element(0x800, chain, self.calendar_chain(self.last, self.last))

    def calendar_chain(self, second, last):
        links = sample.calendar_path(self.leaf_at, START, second, 0, last + 1)
        body = [number(0x01, last), number(0x02, second), element(0x05, self.leaf_at(second))]
        return element(0x802, *body, *(element(0x07 if is_left else 0x08, it) for is_left, it in links))

    def extend(self, content):
        parts = parts_of(content)
        last, root = self.published[-1] if self.published else (-1, "")
        if parts.second > last:
            return {"error": {"status": 409, "code": "not-yet-published", "detail": f"no publication covers second {parts.second} yet"}}
        made = element(0x800, *parts.kept, self.calendar_chain(parts.second, last), element(0x803, element(0x10, number(0x02, last), imprint(0x04, root))))
        return {**self.row(parts.imprint, made), "publication": last}


class Handler(http.server.BaseHTTPRequestHandler):
    protocol_version = "HTTP/1.1"

    def do_POST(self):
        entries = json.loads(self.rfile.read(int(self.headers["Content-Length"])))
        calendar = self.server.calendar
        if calendar.is_away:
            self.answer(503, json.dumps({"status": 503, "code": "stopping", "detail": "the service stops"}).encode())
        elif self.path == "/v1/signatures":
            self.answer(200, json.dumps(calendar.sign(entries)).encode())
        else:
            self.answer(200, json.dumps([calendar.extend(base64.b64decode(it)) for it in entries]).encode())

    def do_GET(self):
        self.answer(200, publications_file(self.server.calendar.published))

    def answer(self, status, content):
        self.send_response(status)
        self.send_header("Content-Length", str(len(content)))
        self.end_headers()
        self.wfile.write(content)

    def log_message(self, *_):
        pass


def opened(test):
    """A server until the end of a test, its calendar and its URL."""
    server = http.server.ThreadingHTTPServer(("127.0.0.1", 0), Handler)
    server.daemon_threads = True
    server.calendar = Calendar()
    threading.Thread(target=server.serve_forever, args=(0.05,), daemon=True).start()
    test.addCleanup(server.server_close)
    test.addCleanup(server.shutdown)
    return server.calendar, f"http://127.0.0.1:{server.server_address[1]}"
