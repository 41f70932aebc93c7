"""A door that has more to do than it bears: requests to sign are refused before anything is made of them, and others are served."""
import asyncio
import http.client
import json
import socket
import threading
import time
import unittest
from unittest import mock

from doored import House
from ksi_service import gate, overload
from ksi_service.access import Access
from ksi_service.door import Door

ALONE = "it measures what a door with much to do answers"

ONES, TWOS = "1" * 64, "2" * 64


class GateTest(unittest.TestCase):
    def setUp(self):
        self.loop = asyncio.new_event_loop()
        thread = threading.Thread(target=self.loop.run_forever, daemon=True)
        thread.start()
        self.addCleanup(thread.join, 5)
        self.addCleanup(lambda: self.loop.call_soon_threadsafe(self.loop.stop))
        self.house = House()
        self.house.left = []
        self.door = Door(self.house, access=Access(host_names=["x"]))
        self.run_in_loop(self.door.begin("127.0.0.1", 0))
        self.addCleanup(lambda: self.run_in_loop(self.door.stop()))
        self.address = self.door.address()

    def run_in_loop(self, work):
        return asyncio.run_coroutine_threadsafe(work, self.loop).result(60)

    def client(self):
        client = http.client.HTTPConnection(*self.address, timeout=60)
        self.addCleanup(client.close)
        return client

    def ask(self, client, path="/sign", body=ONES):
        client.request("POST" if body else "GET", path, body)
        answer = client.getresponse()
        return answer.status, answer.getheader("Retry-After"), answer.getheader("Connection"), answer.read()

    def ask_whole(self, client):
        """As `ask`, with head and body in one piece."""
        client.sock.sendall(f"POST /sign HTTP/1.1\r\nHost: x\r\nContent-Length: 64\r\n\r\n{ONES}".encode())
        answer = http.client.HTTPResponse(client.sock, method="POST")
        answer.begin()
        return answer.status, answer.getheader("Retry-After"), answer.getheader("Connection"), answer.read()

    def ask_before_it_is_accepted(self):
        """All that a new connection is sent whose first bytes are there when it is accepted: until then the loop stands still."""
        sent = threading.Event()
        self.loop.call_soon_threadsafe(sent.wait, 60)
        with socket.create_connection(self.address, timeout=60) as client:
            client.sendall(b"POST /sign HTTP/1.1\r\nHost: x\r\nConnection: close\r\nContent-Length: 64\r\n\r\n" + ONES.encode())
            sent.set()
            return b"".join(iter(lambda: client.recv(4096), b""))

    def test_a_full_door_refuses_new_connections_that_want_a_signature(self):
        self.house.full = True
        told = self.ask_before_it_is_accepted()
        self.assertTrue(told.startswith(b"HTTP/1.1 503 ") and b"Retry-After: 4\r\n" in told and b"Connection: close\r\n" in told, told)
        self.assertEqual((len(self.door.open), self.house.early), (0, 1))

    def test_a_refusal_below_v1_is_a_problem(self):
        client = self.client()
        self.assertEqual(self.ask(client)[0], 200)
        self.house.full = True
        client.request("POST", "/v1/signatures", ONES)
        answer = client.getresponse()
        content = json.loads(answer.read())
        self.assertEqual((answer.status, answer.getheader("Content-Type"), content["code"], content["retry_after"]), (503, "application/problem+json", "busy", 4))

    def test_a_full_door_ends_a_connection_that_is_to_end(self):
        """However the pieces of the request arrive."""
        client = self.client()
        self.assertEqual(self.ask(client)[0], 200)
        self.house.full = True
        client.sock.sendall(f"POST /sign HTTP/1.1\r\nHost: x\r\nContent-Length: 64\r\nConnection: close\r\n\r\n{ONES}".encode())
        told = b"".join(iter(lambda: client.sock.recv(4096), b""))
        self.assertTrue(told.startswith(b"HTTP/1.1 503") and b"Connection: close" in told, told)

    def test_a_full_door_serves_all_else(self):
        self.house.full = True
        self.assertEqual(self.ask(self.client(), "/status", None)[0], 200)
        self.assertEqual(self.ask(self.client(), f"/signature/{ONES}", None)[0], 200)

    def test_a_full_door_refuses_on_kept_connections_and_keeps_them(self):
        client = self.client()
        self.assertEqual(self.ask(client)[0], 200)
        self.house.full = True
        for number in range(1, 4):
            status, after, connection, _ = self.ask_whole(client)
            self.assertEqual((status, after, connection, self.house.early), (503, "4", None, number))
        self.house.full = False
        self.assertEqual(self.ask(client, body=TWOS)[::3], (200, bytes.fromhex(TWOS)))

    def test_what_is_no_whole_small_request_is_read(self):
        """A request in pieces, one behind another one, and one for something else."""
        client = self.client()
        self.assertEqual(self.ask(client)[0], 200)
        self.house.full = True
        head = f"POST /sign HTTP/1.1\r\nHost: x\r\nContent-Length: 64\r\n\r\n{ONES}"
        for pieces in ((head[:9], head[9:]), (head + head,), ("GET /status HTTP/1.1\r\nHost: x\r\n\r\n",)):
            for piece in pieces:
                client.sock.sendall(piece.encode())
                time.sleep(0.1)
            told = client.sock.recv(1 << 16)
            self.assertTrue(told.startswith(b"HTTP/1.1 "), told)
        self.assertEqual(self.house.early, 0)

    def test_a_client_that_wants_the_connection_to_end_sees_its_end(self):
        """It may wait for that, and not look at the length of the answer."""
        client = self.client()
        self.assertEqual(self.ask(client)[0], 200)
        self.house.full = True
        client.sock.sendall(f"POST /sign HTTP/1.1\r\nHost: x\r\nConnection: close\r\nContent-Length: 64\r\n\r\n{ONES}".encode())
        told = b"".join(iter(lambda: client.sock.recv(4096), b""))
        self.assertIn(b"\r\nConnection: close\r\n", told)
        self.assertEqual(self.house.early, 0)

    def test_each_part_can_be_switched_off(self):
        with mock.patch.object(overload, "ON", frozenset()):
            client = self.client()
            self.assertEqual(self.ask(client)[0], 200)
            self.house.full = True
            self.ask(client)
        self.assertEqual(self.house.early, 0)

    def test_what_is_refused_early(self):
        whole = b"POST /sign HTTP/1.1\r\nHost: x\r\ncontent-length: 64\r\nA: b\r\n\r\n"
        for head, is_whole in ((whole, True), (whole.replace(b"content-length", b"Content-Length"), True), (whole.replace(b"64", b"6400"), False), (whole.replace(b"/sign", b"/extend"), False),
                               (whole[:-2], False), (whole.replace(b"content-length: 64\r\n", b""), False), (whole.replace(b"1.1", b"1.0"), False), (b"", False)):
            self.assertEqual(bool(gate.WHOLE.match(head)), is_whole, head)


if __name__ == "__main__":
    unittest.main()
