"""A client of several doors: which one it asks, and how long it waits."""
import contextlib
import os
import socket
import tempfile
import threading
import time
import unittest
from unittest import mock

from ksi_service import client
from ksi_service.command import main

ALONE = "it measures when a door is left"

ONES = "1" * 64
TAKEN = b"HTTP/1.1 100 Continue\r\n\r\n"


def answer(status, content=b"", **headers):
    rows = [f"HTTP/1.1 {status} x", f"Content-Length: {len(content)}", *(f"{name.replace('_', '-')}: {value}" for name, value in headers.items())]
    return "\r\n".join(rows).encode() + b"\r\n\r\n" + content


class ClientTest(unittest.TestCase):
    def setUp(self):
        self.asked = []
        self.slept = []
        for name, value in (("CONNECT_SECONDS", 1.0), ("INTERIM_SECONDS", 1.0), ("TAKEN_SECONDS", 4.0)):
            patch = mock.patch.object(client, name, value)
            patch.start()
            self.addCleanup(patch.stop)

    def door(self, *plays):
        """A door that plays these answers, one for each connection: pieces of bytes, seconds to wait, and `body` to take one."""
        server = socket.create_server(("127.0.0.1", 0))
        self.addCleanup(server.close)
        address = f"127.0.0.1:{server.getsockname()[1]}"

        def serve():
            for play in plays:
                with contextlib.suppress(OSError):
                    taken, _ = server.accept()
                    self.asked.append((address, self.play(taken, play)))
                    taken.close()
        threading.Thread(target=serve, daemon=True).start()
        return address

    def play(self, taken, play):
        head = b""
        while b"\r\n\r\n" not in head:
            head += taken.recv(4096)
        body = b""
        for it in play:
            if it == "body":
                while len(body) < 64:
                    body += taken.recv(64)
            elif isinstance(it, bytes):
                taken.sendall(it)
            else:
                time.sleep(it)
        return body.decode()

    def sign(self, *doors):
        return client.sign(doors, ONES, client.Pauses(lambda: 0.0), self.slept.append)

    def test_a_door_that_takes_it_is_waited_for(self):
        door = self.door((TAKEN, "body", 0.6, answer(200, b"signed")))
        self.assertEqual(self.sign(door), b"signed")
        self.assertEqual((self.asked, self.slept), ([(door, ONES)], []))

    def test_doors_that_are_dead_are_left_soon(self):
        closed = self.door()
        silent, ended = self.door((600,)), self.door(())
        live = self.door((TAKEN, "body", answer(200, b"signed")))
        began = time.monotonic()
        self.assertEqual(self.sign(closed, "127.0.0.1:1", silent, ended, live), b"signed")
        self.assertLess(time.monotonic() - began, 60)
        self.assertEqual(self.slept, [])

    def test_a_door_that_took_it_and_gives_nothing_is_left_in_the_end(self):
        stuck = self.door((TAKEN, "body", 600))
        self.assertEqual(self.sign(stuck, self.door((TAKEN, "body", answer(200, b"signed")))), b"signed")

    def test_a_door_that_is_busy_for_a_moment_is_left_and_one_that_says_that_all_are_is_obeyed(self):
        moment = self.door((answer(503, b"no majority", Retry_After=1),), (TAKEN, "body", answer(200, b"signed")))
        busy = self.door((answer(503, b"busy", Retry_After=3),))
        never = self.door((TAKEN, "body", answer(200, b"not asked")))
        self.assertEqual(self.sign(moment, busy, never), b"signed")
        self.assertEqual(([address for address, _ in self.asked], self.slept), ([moment, busy, moment], [3.0]))

    def test_each_pause_is_twice_as_long(self):
        door = self.door(*[(answer(503, b"busy", Retry_After=2),)] * 5, (TAKEN, "body", answer(200, b"signed")))
        self.assertEqual(self.sign(door), b"signed")
        self.assertEqual(self.slept, [2.0, 4.0, 8.0, 16.0, 16.0])
        self.assertEqual([client.Pauses(lambda: 1.0).next(told) for told in (0, 4, 99)], [1.5, 6.0, 24.0])

    def test_a_refusal_is_final_and_a_fault_of_a_door_is_not(self):
        with self.assertRaisesRegex(client.NotSigned, "^no hash$"):
            self.sign(self.door((answer(400, b"no hash\n"),)), self.door((TAKEN, "body", answer(200, b"not asked"))))
        self.assertEqual(self.sign(self.door((TAKEN, "body", answer(500, b"failed"))), self.door((TAKEN, "body", answer(200, b"signed")))), b"signed")

    def test_what_is_said_if_no_door_signs(self):
        with mock.patch.object(client, "ALL_SECONDS", 0.5), self.assertRaisesRegex(client.NotSigned, "127.0.0.1:1: .*refused; 127.0.0.1:[0-9]*: it stops"):
            self.sign("127.0.0.1:1", self.door((answer(503, b"it stops", Retry_After=1),)))

    def test_an_answer_that_comes_in_pieces(self):
        door = self.door((TAKEN[:7], 0.1, TAKEN[7:], "body", answer(200, b"signed")[:20], 0.1, answer(200, b"signed")[20:]))
        self.assertEqual(self.sign(door), b"signed")

    def test_words(self):
        self.assertEqual(client.doors_of("a:1, [::1]:2"), ["a:1", "[::1]:2"])
        for words in ("", "a", "a:0", "a:1,", "a:x", ":1"):
            with self.assertRaisesRegex(client.NotSigned, "not HOST:PORT"):
                client.doors_of(words)
        self.assertEqual([client.seconds_of(it) for it in (None, "3", "-1", "Thu, 01 Jan 2026 00:00:00 GMT", "²")], [0.0, 3.0, 0.0, 0.0, 0.0])

    def test_the_command_signs_by_doors(self):
        with tempfile.TemporaryDirectory() as room:
            path = os.path.join(room, "deed")
            with open(path, "wb") as file:
                file.write(b"I owe you one.\n")
            door = self.door((TAKEN, "body", answer(200, b"signed")))
            self.assertEqual(main(["sign", path, "--door", f"127.0.0.1:1,{door}"]), 0)
            with open(f"{path}.ksig", "rb") as file:
                self.assertEqual(file.read(), b"signed")


if __name__ == "__main__":
    unittest.main()
