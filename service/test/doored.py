"""A door alone, over a house that has no nodes, and clients that write raw bytes."""
import asyncio
import http.client
import socket
import threading
import time
import unittest

from ksi_service import houses
from ksi_service.access import Access
from ksi_service.answers import Refusal
from ksi_service.door import Door
from ksi_service.metrics import Spans

ONES = "1" * 64


SECOND = 1_700_000_000


class House(houses.House):
    """A house behind a door that has no nodes: a signature is the hash itself. A hash of fives is refused, one of sixes and sevens takes
    a while, and one of eights has no signature."""

    published = None

    full = False
    early = 0
    names = []
    """The names with which was signed."""
    left = []
    """Whether the client of a request of sevens had left, each time that the house looked."""

    def admit(self, count=1):
        if self.full:
            raise Refusal("busy", "too many requests wait", Retry_After="2")

    def is_full(self):
        return self.full

    def retry_after(self):
        return 4

    def refused_early(self):
        self.early += 1

    async def sign(self, imprints, is_gone, name=None):
        self.names.append(name)
        if self.full:
            raise Refusal("busy", "too many requests wait", Retry_After="4")
        if "5" * 64 in imprints:
            raise Refusal("busy", "too many requests wait", Retry_After="2")
        if "7" * 64 in imprints:
            while not self.left or not self.left[-1]:
                self.left.append(is_gone())
                await asyncio.sleep(0.02)
        if "6" * 64 in imprints:
            await asyncio.sleep(0.5)
        return [Refusal("not-signed", "no second took the request", Retry_After="10") if it == "8" * 64 else houses.Signed(it, bytes.fromhex(it), SECOND) for it in imprints]

    async def extend(self, contents, to):
        if to not in (None, SECOND):
            raise Refusal("no-such-publication", f"second {to} was not published")
        return [Refusal("not-accepted", f"refused S3 {len(it)}") if len(it) > 100 else houses.Extended(it[:32].hex(), it, SECOND - 9, SECOND) for it in contents]

    async def lookup(self, imprint):
        if imprint != ONES:
            raise Refusal("signature-unknown", "no such signature since the start")
        return houses.Signed(imprint, b"kept", SECOND)

    def publications(self):
        return self.published

    def book(self):
        return b"a zip file"

    def calendars(self):
        return {}

    def not_ready(self):
        return "not yet" if self.full else None

    def page(self):
        return b"<html>"

    def counters(self):
        spans = Spans()
        spans.add(0.3)
        return {"signed": 3, "waiting": 1, "sign_seconds": spans.told()}


class Doored(unittest.TestCase):
    def setUp(self):
        self.loop = asyncio.new_event_loop()
        thread = threading.Thread(target=self.loop.run_forever, daemon=True)
        thread.start()
        self.addCleanup(self.loop.close)
        self.addCleanup(thread.join)
        self.addCleanup(self.loop.call_soon_threadsafe, self.loop.stop)
        self.begin(512)

    def begin(self, most):
        self.door = self.run_there(self.open(most))
        self.address = self.door.address()
        self.addCleanup(self.run_there, self.door.stop())

    words = {}
    """Further words of the door."""

    async def open(self, most):
        door = Door(House(), most, **{"access": Access(host_names=["x", "y"]), **self.words})
        await door.begin("127.0.0.1", 0)
        return door

    def run_there(self, work):
        return asyncio.run_coroutine_threadsafe(work, self.loop).result(60)

    def wait_for(self, connections):
        while len(self.door.open) != connections:
            time.sleep(0.01)

    def ask(self, method, path, body=None, **headers):
        return self.ask_whole(method, path, body, {name.replace("_", "-"): value for name, value in headers.items()})[:2]

    def ask_whole(self, method, path, body=None, headers=None):
        """The status, the content and the headers of an answer."""
        connection = http.client.HTTPConnection(*self.address, timeout=60)
        connection.request(method, path, body, headers or {})
        answer = connection.getresponse()
        told = answer.status, answer.read(), answer.headers
        connection.close()
        return told

    def raw(self, *pieces, more=True):
        """What the door answers to bytes, until it ends the connection."""
        told = b""
        with socket.create_connection(self.address, timeout=60) as client:
            for piece in pieces:
                client.sendall(piece)
            if not more:
                client.shutdown(socket.SHUT_WR)
            while piece := client.recv(65536):
                told += piece
        return told

    def connect(self, content=b""):
        client = socket.create_connection(self.address, timeout=60)
        self.addCleanup(client.close)
        client.sendall(content)
        return client
