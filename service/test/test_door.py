"""The door alone, with clients that mean no good."""
import contextlib
import hashlib
import json
import os
import random
import socket
import struct
import time
import unittest
from unittest import mock

from doored import ONES, Doored, House
from hostile import hostile_request
from ksi_service import bodies
from ksi_service import connections as own
from ksi_service.client import sign as sign_by_doors
from ksi_service import overload
from ksi_service.metrics import memory, prometheus

ALONE = "it measures when a slow client is ended"


class DoorTest(Doored):
    def test_what_is_asked_in_order(self):
        document = os.urandom(300_000)
        rows = [("POST", "/sign", ONES.encode(), {}, 200, bytes.fromhex(ONES)),
                ("POST", "/sign", b"\n" + b"AB" * 32 + b"\n", {}, 200, b"\xab" * 32),
                ("POST", "/sign", document, {"Content_Type": "application/octet-stream"}, 200, hashlib.sha256(document).digest()),
                ("POST", "/sign", b"", {"Content_Type": "application/octet-stream"}, 200, hashlib.sha256().digest()),
                ("POST", "/sign", b"5" * 64, {}, 503, b"too many requests wait\n"),
                ("GET", "/signature/" + ONES, None, {}, 200, b"kept"),
                ("POST", "/extend", b"x" * 700, {}, 409, b"refused S3 700\n"),
                ("GET", "/", None, {"Sec_Fetch_Site": "none"}, 200, b"<html>"),
                ("GET", "/publications", None, {}, 404, b"nothing was published yet\n")]
        for method, path, body, headers, status, content in rows:
            self.assertEqual(self.ask(method, path, body, **headers), (status, content), (method, path))

    def test_an_address_stands_in_a_url(self):
        for address, where in ((("127.0.0.1", 80), "127.0.0.1:80"), (("::1", 80), "[::1]:80")):
            with mock.patch.object(self.door, "address", lambda address=address: address):
                self.assertEqual(self.door.where(), where)

    def test_counters_as_json_and_for_prometheus(self):
        told = json.loads(self.ask("GET", "/status")[1])
        self.assertEqual((told["signed"], told["sign_seconds"]["count"]), (3, 1))
        text = self.ask("GET", "/metrics")[1].decode()
        self.assertEqual(self.ask("GET", "/status", Accept="text/plain")[1].decode(), text)
        for row in ("# TYPE ksi_signed_total counter", "ksi_signed_total 3", "ksi_waiting 1", 'ksi_sign_seconds_bucket{le="0.25"} 0',
                    'ksi_sign_seconds_bucket{le="0.5"} 1', 'ksi_sign_seconds_bucket{le="+Inf"} 1', "ksi_sign_seconds_sum 0.3"):
            self.assertIn(row, text.splitlines())

    def test_what_is_refused(self):
        rows = [("POST", "/sign", b"no hash", {}, 400), ("POST", "/sign", b"", {}, 400), ("POST", "/sign", b"0" * 65, {}, 400),
                ("POST", "/sign", b"0" * 300, {}, 400), ("POST", "/sign", b"0" * 64, {}, 400), ("POST", "/sign", b"0" * 64, {"Content_Type": "image/png"}, 415),
                ("GET", "/signature/0", None, {}, 404), ("GET", "/signature/" + "0" * 64, None, {}, 404),
                ("GET", "/../../etc/passwd", None, {}, 404), ("POST", "/elsewhere", b"x", {}, 404), ("PUT", "/sign", b"x", {}, 405),
                ("GET", "/sign", None, {}, 405), ("POST", "/extend", b"x" * 65_540, {}, 413), ("GET", "/status", b"body", {}, 400),
                ("POST", "/sign", b"0" * 64, {"Sec_Fetch_Site": "cross-site"}, 403)]
        for method, path, body, headers, status in rows:
            self.assertEqual(self.ask(method, path, body, **headers)[0], status, (method, path, body))

    def test_a_path_is_taken_as_it_is_written(self):
        for path in ("//", "//sign", "/sign/", "/sign#", "/SIGN", "/%73ign", "/./sign", "/x/../sign", "/sign;a", "/signature/" + ONES + "/", "/signature/" + ONES + "0",
                     "/signature/..%2f..%2fetc%2fpasswd", "/page.html", "/door", "/record"):
            told = self.raw(f"GET {path} HTTP/1.1\r\nHost: x\r\nConnection: close\r\n\r\n".encode())
            self.assertTrue(told.startswith(b"HTTP/1.1 404"), (path, told))

    def test_a_reason_is_told_to_hostile_input(self):
        host, sign = b"Host: x\r\n", b"POST /sign HTTP/1.1\r\nHost: x\r\n"
        rows = [(b"\r\n\r\n", b"400", b"first line"), (b"GET\r\n\r\n", b"400", b"first line"), (b"GET / HTTP/2.0\r\n\r\n", b"400", b"first line"),
                (b"get / HTTP/1.1\r\n" + host + b"\r\n", b"400", b"first line"), (b"GET /\xff HTTP/1.1\r\n\r\n", b"400", b"first line"),
                (b"GET / HTTP/1.1\r\n\r\n", b"400", b"no Host"), (b"GET / HTTP/1.1\r\n" + host + host + b"\r\n", b"400", b"host occurs twice"),
                (b"GET / HTTP/1.1\r\nHost : x\r\n\r\n", b"400", b"a header"), (b"GET / HTTP/1.1\r\n" + host + b" folded\r\n\r\n", b"400", b"a header"),
                (b"GET / HTTP/1.1\r\nHost: \0\r\n\r\n", b"400", b"a header"), (b"GET / HTTP/1.1\nHost: x\n\n", b"400", b"CR LF"),
                (b"GET / HTTP/1.1\r\n" + host + b"A: b\r\n" * 70 + b"\r\n", b"431", b"headers"), (b"GET /" + b"a" * 9000 + b" HTTP/1.1\r\n\r\n", b"431", b"bytes"),
                (sign + b"Content-Length: -1\r\n\r\n", b"400", b"no number"), (sign + b"Content-Length: 1e3\r\n\r\n", b"400", b"no number"),
                (sign + b"Content-Length: 18446744073709551616\r\n\r\n", b"400", b"no number"), (sign + b"\r\n", b"411", b"Content-Length"),
                (sign + b"Content-Length: 1\r\nContent-Length: 2\r\n\r\n", b"400", b"occurs twice"),
                (sign + b"Content-Type: application/octet-stream\r\nContent-Length: 99999999999\r\n\r\n", b"413", b"at most"),
                (sign + b"Content-Length: 64\r\n\r\n0123", b"400", b"ended early"), (b"GET / HT", b"400", b"ended early")]
        for content, status, reason in rows:
            told = self.raw(content, more=False)
            self.assertTrue(told.startswith(b"HTTP/1.1 " + status), (content[:80], told))
            self.assertIn(reason, told.split(b"\r\n\r\n")[1], content[:80])
            self.assertIn(b"Connection: close", told)
        self.assertEqual(self.ask("GET", "/status")[0], 200)

    def test_each_refusal_is_counted(self):
        ask = b"GET /elsewhere HTTP/1.1\r\nHost: x\r\n\r\n"
        for content in (ask + b"GET\r\n\r\n", ask + b"GET / HTTP/1.1\r\n\r\n", b"GET /" + b"a" * 9000):
            self.raw(content, more=False)
        self.assertEqual(self.ask("POST", "/sign", b"5" * 64)[0], 503)
        with mock.patch.object(own, "SECONDS_FOR_HEAD", 0.2):
            self.raw(b"GET / HT")
            self.raw()
        self.assertEqual(self.door.refused, 6)

    def test_a_connection_takes_many_requests(self):
        one = b"POST /sign HTTP/1.1\r\nHost: x\r\nContent-Length: 64\r\n\r\n" + b"2" * 64
        last = b"GET /signature/" + ONES.encode() + b" HTTP/1.1\r\nHost: x\r\nConnection: close\r\n\r\n"
        told = self.raw(one + one[:70], one[70:] + last)
        self.assertEqual((told.count(b"HTTP/1.1 200 OK"), told.count(b"\x22" * 32), told.endswith(b"kept")), (3, 2, True))

    def test_a_client_that_waits_for_word_gets_it(self):
        head = b"POST /sign HTTP/1.1\r\nHost: x\r\nContent-Length: 64\r\nExpect: 100-continue\r\nConnection: close\r\n\r\n"
        with socket.create_connection(self.address, timeout=60) as client:
            client.sendall(head)
            self.assertEqual(client.recv(65536), b"HTTP/1.1 100 Continue\r\n\r\n")
            client.sendall(b"2" * 64)
            self.assertTrue(client.recv(65536).startswith(b"HTTP/1.1 200 OK"))

    def test_a_client_that_waits_for_word_is_refused_before_it_sends(self):
        head = b"POST /sign HTTP/1.1\r\nHost: x\r\nContent-Length: 64\r\nExpect: 100-continue\r\n\r\n"
        with mock.patch.object(House, "full", True), mock.patch.object(overload, "ON", frozenset()):
            told = self.raw(head)
        self.assertTrue(told.startswith(b"HTTP/1.1 503"), told)
        self.assertIn(b"Retry-After: 2", told)

    def test_the_client_of_several_doors_signs(self):
        host, port = self.address
        self.assertEqual(sign_by_doors(["127.0.0.1:1", f"{host}:{port}"], ONES), bytes.fromhex(ONES))

    def test_what_is_sent_ahead_is_not_read(self):
        """A client that sends one request after the other, and reads no answer, has little of the memory."""
        one = b"POST /sign HTTP/1.1\r\nHost: x\r\nContent-Length: 64\r\n\r\n" + b"6" * 64
        ahead = self.connect(one)
        ahead.settimeout(0.2)
        with self.assertRaises(TimeoutError):
            for _ in range(2000):
                ahead.sendall(b"GET / HTTP/1.1\r\nHost: x\r\n\r\n" * 1000)
        held = [len(it.reader._buffer) for it in self.door.open]
        self.assertTrue(held and max(held) <= (256 << 10) + 2 * own.MOST_HEAD, held)
        ahead.close()
        self.wait_for(0)

    def test_the_house_knows_whether_the_client_left(self):
        with mock.patch.object(House, "left", []):
            client = self.connect(b"POST /sign HTTP/1.1\r\nHost: x\r\nContent-Length: 64\r\n\r\n" + b"7" * 64)
            while not House.left:
                time.sleep(0.01)
            client.close()
            while House.left[-1] is False:
                time.sleep(0.01)
            self.assertEqual(set(House.left), {False, True})

    def test_slow_clients_are_ended(self):
        with mock.patch.object(own, "SECONDS_FOR_HEAD", 0.2), mock.patch.object(bodies, "SECONDS_FOR_BODY", 0.2):
            self.assertEqual(self.raw(), b"")
            self.assertTrue(self.raw(b"GET / HTTP/1.1\r\nHost: x\r\n\r\n").endswith(b"\r\n\r\n<html>"))
            for piece in (b"GET / HT", b"POST /sign HTTP/1.1\r\nHost: x\r\nContent-Length: 64\r\n\r\n0"):
                self.assertTrue(self.raw(piece).startswith(b"HTTP/1.1 408"), piece)

    def test_five_hundred_hostile_requests_leave_the_door_open(self):
        dice = random.Random(3)
        starts = {b"200", b"400", b"404", b"405", b"408", b"411", b"413", b"417", b"431", b"501"}
        for _ in range(500):
            try:
                told = self.raw(hostile_request(dice), more=False)
            except ConnectionError:
                continue
            if told:
                self.assertIn(told.replace(b"HTTP/1.1 100 Continue\r\n\r\n", b"")[9:12], starts, told[:200])
        self.assertEqual(self.ask("GET", "/status")[0], 200)

    def test_whoever_waits_longest_makes_room(self):
        self.begin(50)
        idle = [self.connect(b"GET / HT" if number % 2 else b"") for number in range(50)]
        self.wait_for(50)
        for at in range(3):
            idle.append(self.connect())
            with contextlib.suppress(ConnectionError):
                self.assertEqual(idle[at].recv(9), b"")
        self.assertEqual(self.ask("GET", "/status")[0], 200)
        self.wait_for(49)
        idle = idle[:50]
        idle[-1].sendall(b"TP/1.1\r\nHost: x\r\n\r\n")
        self.assertEqual(idle[-1].recv(12), b"HTTP/1.1 200")

    def test_slow_clients_keep_nobody_out(self):
        self.begin(20)
        for _ in range(15):
            for piece in (b"", b"GET / HT", b"POST /sign HTTP/1.1\r\nHost: x\r\nA: b", b"\r\n"):
                self.connect(piece)
            self.assertEqual(self.ask("POST", "/sign", ONES.encode()), (200, bytes.fromhex(ONES)))
        self.assertLessEqual(len(self.door.open), 20)

    def test_where_all_connections_are_at_work_one_more_is_refused(self):
        self.begin(5)
        ask = b"POST /sign HTTP/1.1\r\nHost: x\r\nContent-Length: 64\r\n\r\n" + b"6" * 64
        busy = [self.connect(ask) for _ in range(5)]
        while len(self.door.open) < 5 or self.door.idle:
            time.sleep(0.01)
        self.assertTrue(self.raw().startswith(b"HTTP/1.1 503"))
        self.assertEqual({client.recv(12) for client in busy}, {b"HTTP/1.1 200"})

    def test_a_body_that_does_not_come_and_too_many_that_are_coming(self):
        head = b"POST /sign HTTP/1.1\r\nHost: x\r\nContent-Type: application/octet-stream\r\nContent-Length: 67108864\r\n\r\n"
        with mock.patch.object(bodies, "MOST_BODIES", 3):
            coming = [self.connect(head + b"0" * 999) for _ in range(3)]
            while self.door.transfers.count < 3:
                time.sleep(0.01)
            self.assertIn(b"too many documents", self.raw(head, more=False))
            self.assertEqual(self.ask("POST", "/extend", b"x")[0], 503)
            self.assertEqual(self.ask("POST", "/sign", ONES.encode())[0], 200)
            for client in coming:
                client.close()
            self.wait_for(0)
        self.assertEqual(self.door.transfers.count, 0)
        with mock.patch.object(bodies, "SECONDS_FOR_BODY", 0.2):
            self.assertTrue(self.raw(head + b"0" * 999).startswith(b"HTTP/1.1 408"))

    def test_a_client_that_does_not_read_is_ended_and_holds_little(self):
        with mock.patch.object(House, "published", b"p" * (8 << 20)):
            self.assertEqual(self.ask("GET", "/publications"), (200, House.published))
            with mock.patch.object(own, "SECONDS_FOR_BODY", 0.2), mock.patch.object(own, "BYTES_A_SECOND", 1 << 30):
                client = self.connect(b"GET /publications HTTP/1.1\r\nHost: x\r\n\r\n")
                self.wait_for(1)
                time.sleep(0.1)
                held = [it.writer.transport.get_write_buffer_size() for it in self.door.open]
                self.wait_for(0)
        self.assertTrue(all(0 < it <= 2 * own.PIECE for it in held), held)
        self.assertLess(len(client.recv(1 << 20)), 8 << 20)

    def unread(self):
        """A client that reads nothing, and for whom something waits in memory."""
        client = socket.socket()
        self.addCleanup(client.close)
        client.setsockopt(socket.SOL_SOCKET, socket.SO_RCVBUF, 2048)
        client.connect(self.address)
        self.wait_for(1)
        transport = next(iter(self.door.open)).writer.transport
        while not transport.get_write_buffer_size():
            client.sendall(b"GET / HTTP/1.1\r\nHost: x\r\n\r\n" * 4)
            time.sleep(0.002)
        return client, transport

    def test_a_client_that_never_takes_its_last_answer_is_counted_until_it_is_ended(self):
        client, transport = self.unread()
        with mock.patch.object(own, "SECONDS_FOR_BODY", 0.5), mock.patch.object(own, "SECONDS_TO_LINGER", 0.1):
            client.sendall(b"GET / HTTP/1.1\r\nHost: x\r\nConnection: close\r\n\r\n")
            while not transport.is_closing():
                time.sleep(0.01)
            counted, began = len(self.door.open), time.monotonic()
            while transport.get_extra_info("socket").fileno() >= 0 and time.monotonic() < began + 60:
                time.sleep(0.01)
        self.assertEqual((counted, transport.get_extra_info("socket").fileno()), (1, -1))
        self.wait_for(0)

    def test_a_head_has_no_body_behind_it(self):
        ask = b" / HTTP/1.1\r\nHost: x\r\n\r\nGET /signature/" + ONES.encode() + b" HTTP/1.1\r\nHost: x\r\nConnection: x, Close\r\n\r\n"
        told = self.raw(b"HEAD" + ask)
        self.assertEqual((told.count(b"HTTP/1.1 200 OK"), b"Content-Length: 6\r\n" in told, b"<html>" in told, told.endswith(b"kept")), (2, True, False, True))

    def test_of_a_client_that_is_gone_before_its_body_came_nothing_is_logged(self):
        with mock.patch("sys.stderr") as log:
            for _ in range(20):
                client = self.connect(b"POST /sign HTTP/1.1\r\nHost: x\r\nContent-Length: 64\r\n\r\n0")
                self.wait_for(1)
                time.sleep(0.01)
                client.setsockopt(socket.SOL_SOCKET, socket.SO_LINGER, struct.pack("ii", 1, 0))
                client.close()
                self.wait_for(0)
            self.assertEqual([it.args for it in log.write.call_args_list], [])
        with mock.patch.object(House, "publications", side_effect=ConnectionError("of the service")), mock.patch("sys.stderr") as log:
            self.assertEqual(self.ask("GET", "/publications")[0], 500)
            self.assertIn("of the service", log.write.call_args_list[0][0][0])

    def test_a_failure_inside_is_told_and_logged(self):
        with mock.patch.object(House, "publications", side_effect=OSError(5, "Input/output error")), mock.patch("sys.stderr") as log:
            self.assertEqual(self.ask("GET", "/publications")[0], 500)
            self.assertIn("Input/output error", log.write.call_args_list[0][0][0])


class MetricsTest(unittest.TestCase):
    def test_what_has_no_meaning_is_left_out(self):
        self.assertEqual(prometheus({"processes": {"c0": 5}}), "")

    def test_memory_of_processes_that_run(self):
        told = memory({"host": os.getpid(), "gone": 1 << 30})
        self.assertEqual(list(told), ["host"])
        self.assertGreater(told["host"], 1 << 20)
        self.assertIn('ksi_memory_bytes{process="host"} 5', prometheus({"memory_bytes": {"host": 5}}).splitlines())


if __name__ == "__main__":
    unittest.main()
