"""What a service reports to systemd: that its door is open."""
import asyncio
import os
import socket
import tempfile
import unittest
from unittest import mock

import stands
from ksi_service import opening
from ksi_service.notify import notify


class Listening:
    """A door that opens at once."""

    certificate = None
    scheme = "http"

    async def begin(self, host, port):
        self.address = f"{host}:{port}"

    def where(self):
        return self.address


class NotifyTest(unittest.TestCase):
    def setUp(self):
        room = tempfile.TemporaryDirectory(prefix="ksi-test-")
        self.addCleanup(room.cleanup)
        self.folder = room.name
        self.path = os.path.join(room.name, "notify")

    def listen(self, address):
        """A socket like systemd's, under a name of NOTIFY_SOCKET."""
        taken = socket.socket(socket.AF_UNIX, socket.SOCK_DGRAM | socket.SOCK_NONBLOCK)
        self.addCleanup(taken.close)
        taken.bind("\0" + address[1:] if address[0] == "@" else address)
        change = mock.patch.dict(os.environ, {"NOTIFY_SOCKET": address})
        change.start()
        self.addCleanup(change.stop)
        return taken

    def test_a_state_is_sent_to_the_socket(self):
        for address in (self.path, f"@{self.path}"):
            with self.subTest(address):
                taken = self.listen(address)
                notify("READY=1")
                self.assertEqual(taken.recv(100), b"READY=1")

    def test_ready_is_sent_once_the_door_is_open_and_its_address_is_written(self):
        taken = self.listen(self.path)
        asyncio.run(opening.show(Listening(), self.folder, ("127.0.0.1", 8080)))
        self.assertTrue(os.path.exists(os.path.join(self.folder, "door")))
        self.assertEqual(taken.recv(100), b"READY=1")
        self.assertRaises(BlockingIOError, taken.recv, 100)

    def test_without_systemd_nothing_is_sent(self):
        with mock.patch.dict(os.environ, clear=True), mock.patch("socket.socket", side_effect=AssertionError):
            notify("READY=1")

    def test_a_socket_that_is_gone_does_not_end_the_service(self):
        self.listen(self.path).close()
        with self.assertLogs("ksi_service.notify", "WARNING"):
            notify("READY=1")


if __name__ == "__main__":
    unittest.main()
