"""The Python client of the HTTP API (lang/python/ksi/client.py), at a door over a house without nodes."""
import hashlib
import http.server
import importlib.util
import os
import sys
import threading
import unittest
from unittest import mock

import stands
from doored import ONES, SECOND, Doored, House
from ksi_service.elements import publications_file


def loaded():
    """The module by its file: the package would load libksi."""
    path = os.path.join(os.path.dirname(os.path.dirname(stands.HERE)), "lang", "python", "ksi", "client.py")
    spec = importlib.util.spec_from_file_location("ksi_client", path)
    module = importlib.util.module_from_spec(spec)
    sys.modules["ksi_client"] = module
    spec.loader.exec_module(module)
    return module


client = loaded()
UNSIGNED = bytes.fromhex("8" * 64)


def digest(number):
    return hashlib.sha256(b"%d" % number).digest()


class ClientTest(Doored):
    def setUp(self):
        super().setUp()
        host, port = self.address
        self.client = client.Client(f"http://{host}:{port}", patience=5.0)
        self.addCleanup(self.client.close)

    def test_hashes_are_signed_in_portions(self):
        self.assertEqual(self.client.sign(digest(1)), client.Signature(digest(1), SECOND, digest(1)))
        hashes = [digest(number) for number in range(2300)]
        with mock.patch.object(House, "sign", autospec=True, side_effect=House.sign) as sign:
            found = self.client.sign_many(iter(hashes))
        self.assertEqual([len(call.args[1]) for call in sign.call_args_list], [1000, 1000, 300])
        self.assertEqual(found, [client.Signature(it, SECOND, it) for it in hashes])
        self.assertEqual(self.client.sign_many([]), [])
        self.assertRaises(ValueError, self.client.sign_many, [b"short"])

    def test_a_hash_that_is_not_signed_has_its_reason(self):
        one, other = self.client.sign_many([digest(1), UNSIGNED])
        self.assertEqual((one.second, other.code, other.status, other.retry_after), (SECOND, "not-signed", 503, 10.0))
        with self.assertRaisesRegex(client.Refused, "no second took the request"):
            self.client.sign(UNSIGNED)
        refused = self.client.sign_many([bytes(32), digest(1)])
        self.assertEqual([(it.code, it.status) for it in refused], [("zero-hash", 400)] * 2)

    def test_a_busy_door_is_asked_again(self):
        with mock.patch.object(House, "full", True), mock.patch.object(client.time, "sleep") as sleep:
            sleep.side_effect = lambda seconds: setattr(House, "full", False)
            self.assertEqual(self.client.sign(digest(1)).second, SECOND)
        self.assertEqual([call.args[0] for call in sleep.call_args_list], [4.0])
        with mock.patch.object(House, "full", True):
            with self.assertRaises(client.Refused) as refused:
                client.Client(f"http://127.0.0.1:{self.address[1]}", patience=1.0).sign(digest(1))
        self.assertEqual(refused.exception.code, "busy")

    def test_lookup_extend_and_publications(self):
        self.assertEqual(self.client.lookup(bytes.fromhex(ONES)), client.Signature(bytes.fromhex(ONES), SECOND, b"kept"))
        self.assertIsNone(self.client.lookup(digest(1)))
        self.assertEqual(self.client.extend(b"s" * 32, to=SECOND), client.Signature(b"s" * 32, SECOND - 9, b"s" * 32, SECOND))
        one, other = self.client.extend_many([b"a" * 32, b"x" * 101])
        self.assertEqual((one.content, other.code), (b"a" * 32, "not-accepted"))
        with self.assertRaises(client.Refused) as refused:
            self.client.extend(b"s" * 32, to=1)
        self.assertEqual(refused.exception.code, "no-such-publication")
        with self.assertRaises(client.Refused) as refused:
            self.client.publications()
        self.assertEqual((refused.exception.code, refused.exception.status), ("no-publication", 404))
        content = publications_file([(SECOND, "ab" * 32)])
        with mock.patch.object(House, "published", content):
            self.assertEqual([self.client.publications() for _ in range(3)], [content] * 3)

    def test_a_connection_that_ended_is_opened_again(self):
        self.client.sign(digest(1))
        for it in list(self.door.open):
            self.loop.call_soon_threadsafe(it.writer.transport.abort)
        self.wait_for(0)
        self.assertEqual(self.client.sign(digest(2)).second, SECOND)

    def test_addresses_and_servers_that_are_none(self):
        for url in ("127.0.0.1:8080", "ftp://x", "http://", ""):
            self.assertRaises(ValueError, client.Client, url)
        with self.assertRaises(client.Refused) as refused:
            client.Client("http://127.0.0.1:1").sign(digest(1))
        self.assertEqual((refused.exception.code, refused.exception.status), ("no-answer", 0))

    def test_a_proxy_that_answers_with_text(self):
        class Proxy(http.server.BaseHTTPRequestHandler):
            def do_POST(self):
                self.server.keys.append(self.headers["Authorization"])
                self.send_response(502)
                self.end_headers()
                self.wfile.write(b"bad gateway")

            def log_message(self, *_):
                pass
        server = http.server.HTTPServer(("127.0.0.1", 0), Proxy)
        server.keys = []
        threading.Thread(target=server.serve_forever, daemon=True).start()
        self.addCleanup(server.server_close)
        self.addCleanup(server.shutdown)
        with self.assertRaises(client.Refused) as refused:
            client.Client(f"http://127.0.0.1:{server.server_address[1]}", key="secret").sign(digest(1))
        self.assertEqual((refused.exception.code, refused.exception.detail, server.keys), ("status-502", "bad gateway", ["Bearer secret"]))


if __name__ == "__main__":
    unittest.main()
