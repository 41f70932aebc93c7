"""Two mirrors of a service through servers with stale caches, shorter lists, wrong roots and wrong publications, and of each other: no alarm.

KSI_MIRROR_SECONDS states for how long; an hour is 3600."""
import http.client
import http.server
import os
import random
import threading
import time
import unittest

from ksi_service.elements import publications_file, published_in
from machined import free_ports
from mirrored import Server
from test_fork import Running

SECONDS = int(os.environ.get("KSI_MIRROR_SECONDS", "20"))


class Cache:
    """A server before another one, whose answers are those of some time ago, unless a client passes caches. And some of them are wrong."""

    def __init__(self, port, lies):
        self.port = port
        self.lies = lies
        self.kept = {}
        self.dice = random.Random(port)
        self.wrong = 0
        cache = self

        class Handler(http.server.BaseHTTPRequestHandler):
            protocol_version = "HTTP/1.1"
            wbufsize = 1 << 16

            def do_GET(self):
                status, content = cache.answer(self.path, self.headers.get("Cache-Control") == "no-cache")
                self.send_response(status)
                self.send_header("Content-Length", str(len(content)))
                self.end_headers()
                self.wfile.write(content)

            def log_message(self, *_):
                pass
        self.server = Server(("127.0.0.1", 0), Handler)
        self.server.daemon_threads = True
        self.url = f"http://127.0.0.1:{self.server.server_address[1]}"
        threading.Thread(target=self.server.serve_forever, args=(0.05,), daemon=True).start()

    def end(self):
        self.server.shutdown()
        self.server.server_close()

    def answer(self, path, is_fresh):
        until, status, content = self.kept.get(path, (0, 0, b""))
        if is_fresh or time.monotonic() > until:
            try:
                connection = http.client.HTTPConnection(f"127.0.0.1:{self.port}", timeout=10)
                connection.request("GET", path)
                answer = connection.getresponse()
                status, content = answer.status, answer.read()
                connection.close()
            except OSError:
                status, content = 502, b""
            self.kept[path] = time.monotonic() + self.dice.uniform(0, 8), status, content
        return (status, self.lie(path, content)) if status == 200 and self.dice.random() < self.lies else (status, content)

    def lie(self, path, content):
        self.wrong += 1
        if path == "/publications":
            published = published_in(content)
            if self.dice.random() < 0.5:
                return publications_file(published[:self.dice.randrange(len(published)) + 1])
            at = self.dice.randrange(len(published))
            return publications_file([*published[:at], (published[at][0], self.dice.randbytes(32).hex()), *published[at + 1:]])
        at = self.dice.randrange(len(content))
        if self.dice.random() < 0.3:
            return content[:at]
        # never the first byte of an imprint alone: a file that is malformed is no lie
        return content[:at] + bytes([content[at] ^ 1]) + content[at + 1:]


class ChaosTest(Running):
    def test_no_alarm(self):
        ports = dict(zip("AMN", free_ports(3)))
        self.service("A", ports["A"], 2)
        self.sign(ports["A"], 1)
        old, liar = Cache(ports["A"], 0), Cache(ports["A"], 0.3)
        for it in (old, liar):
            self.addCleanup(it.end)
        true = f"http://127.0.0.1:{ports['A']}"
        self.start("M", "mirror", liar.url, old.url, true, self.at("M"), "--door", f"127.0.0.1:{ports['M']}", "--every", "1", "--also", f"http://127.0.0.1:{ports['N']}")
        self.start("N", "mirror", old.url, true, self.at("N"), "--door", f"127.0.0.1:{ports['N']}", "--every", "1", "--also", f"http://127.0.0.1:{ports['M']}")
        end, number = time.monotonic() + SECONDS, 1
        while time.monotonic() < end:
            number += 1
            self.sign(ports["A"], number)
            time.sleep(1)
        last = self.status(ports["A"])["last_publication"]
        self.wait(lambda: all(self.status(ports[name])["last_publication"] >= last for name in "MN"))
        for name in "MN":
            status = self.status(ports[name])
            self.assertEqual((status["forks"], status["frozen"]), (0, False), self.log(name))
            self.assertFalse(os.path.exists(self.at(name, "evidence")))
        self.assertGreater(liar.wrong, 5)
        mine = {name: set(published_in(self.ask(ports[name], "/publications")[1])) for name in "AMN"}
        self.assertEqual({it for it in mine["M"] | mine["N"] if it[0] <= last} - mine["A"], set())


if __name__ == "__main__":
    unittest.main()
