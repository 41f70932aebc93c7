"""Who may use a door: keys and rates, proxies, names in Host; TLS, and the log of requests."""
import asyncio
import contextlib
import http.client
import json
import os
import shutil
import ssl
import subprocess
import tempfile
import time
import unittest
from types import SimpleNamespace
from unittest import mock

import stands
from doored import ONES, SECOND, Doored
from ksi_service import clients, watching
from ksi_service.access import Access, OpenDoor, name_in
from ksi_service.access_log import AccessLog
from ksi_service.answers import Refusal
from ksi_service.clients import BadClients, Clients
from ksi_service.command import main
from ksi_service.door_tls import BadCertificate, DoorCertificate

SIGNING = [("POST", "/sign", ONES), ("POST", "/v1/signatures", ONES), ("POST", "/extend", b"s" * 32), ("GET", f"/v1/signatures/{ONES}", None), ("GET", f"/signature/{ONES}", None)]
COUNTERS = [("GET", "/status", None), ("GET", "/metrics", None)]
PUBLIC = [("GET", "/healthz", None), ("GET", "/readyz", None), ("GET", "/v1/problems", None), ("GET", "/v1/calendar", None), ("GET", "/", None)]
NEEDS_OPENSSL = unittest.skipUnless(shutil.which("openssl"), "openssl is not here")


def request_of(peer, own="10.0.0.1", host="", **headers):
    """A request as `access.py` sees it."""
    at = {"peername": (peer, 5), "sockname": (own, 8080)}
    return SimpleNamespace(host=host, headers=headers, connection=SimpleNamespace(writer=SimpleNamespace(get_extra_info=at.get)))


class Keyed(Doored):
    """A door whose clients have keys."""

    def setUp(self):
        room = tempfile.TemporaryDirectory(prefix="ksi-test-")
        self.addCleanup(room.cleanup)
        self.room = room.name
        self.path = os.path.join(self.room, "clients")
        patch = mock.patch.object(watching, "LOOK_SECONDS", 0.0)
        patch.start()
        self.addCleanup(patch.stop)
        self.words = self.door_words()
        super().setUp()

    def door_words(self):
        self.key = clients.add(self.path, "registrar", None)
        self.slow = clients.add(self.path, "archive", 0.1)
        return {"access": Access(Clients(self.path), host_names=["x"]), "log_to": AccessLog(os.path.join(self.room, "log"))}

    def statuses(self, rows, **headers):
        return [self.ask(*row, **headers)[0] for row in rows]

    def rows(self):
        with open(os.path.join(self.room, "log"), encoding="utf-8") as file:
            return [json.loads(row) for row in file]


class KeyTest(Keyed):
    def test_a_client_needs_its_key(self):
        self.assertEqual(self.statuses(SIGNING), [401] * 5)
        self.assertEqual(self.statuses(SIGNING, Authorization="Bearer nobody's"), [401] * 5)
        self.assertEqual(self.statuses(SIGNING, Authorization=f"Basic {self.key}"), [401] * 5)
        self.assertEqual(self.statuses(SIGNING, Authorization=f"Bearer {self.key}"), [200] * 5)
        self.assertEqual(self.statuses([*PUBLIC, *COUNTERS]), [200] * 7)
        for headers, code, wants in (({}, "key-required", "Bearer"), ({"Authorization": "Bearer x"}, "key-unknown", 'Bearer error="invalid_token"')):
            status, told, answered = self.ask_whole("POST", "/v1/signatures", ONES, headers)
            self.assertEqual((status, json.loads(told)["code"], answered["WWW-Authenticate"]), (401, code, wants))

    def test_a_client_that_is_added_or_removed_counts_at_once(self):
        key = clients.add(self.path, "new", None)
        self.assertEqual(self.statuses(SIGNING[:1], Authorization=f"Bearer {key}"), [200])
        clients.remove(self.path, "new")
        self.assertEqual(self.statuses(SIGNING[:1], Authorization=f"Bearer {key}"), [401])
        with self.assertLogs("ksi_service.clients") as logs:
            with open(self.path, "a", encoding="ascii") as file:
                file.write("no row\n")
            self.assertEqual(self.statuses(SIGNING[:1], Authorization=f"Bearer {self.key}"), [200])
            os.remove(self.path)
            self.assertEqual(self.statuses(SIGNING[:1], Authorization=f"Bearer {self.key}"), [200])
            self.assertEqual(self.statuses(SIGNING[:1]), [401])
        self.assertEqual([("line 3 is not NAME" in row, "is gone" in row) for row in logs.output[:2]], [(True, False), (False, True)])

    def test_a_client_over_its_rate_is_refused_for_a_while(self):
        headers = {"Authorization": f"Bearer {self.slow}"}
        hashes = json.dumps([ONES] * 10)
        self.assertEqual(self.ask_whole("POST", "/v1/signatures", hashes, {**headers, "Content-Type": "application/json"})[0], 200)
        status, told, answered = self.ask_whole("POST", "/v1/signatures", ONES, headers)
        self.assertEqual((status, json.loads(told)["code"]), (429, "rate-exceeded"))
        self.assertIn(int(answered["Retry-After"]), range(50, 101))
        self.assertEqual(self.ask("POST", "/extend", b"s" * 32, **headers)[0], 429)
        self.assertEqual(self.statuses(SIGNING[3:], **headers), [200, 200])
        self.assertEqual(self.statuses(SIGNING, Authorization=f"Bearer {self.key}"), [200] * 5)

    def test_the_rate_of_a_client(self):
        now = [100.0]
        with mock.patch.object(time, "monotonic", lambda: now[0]):
            client = clients.Client(clients.Row("a", "0" * 64, 5.0))
            taken = 0
            for _ in range(1000):
                now[0] += 0.05
                with contextlib.suppress(Refusal):
                    client.take(3)
                    taken += 3
        self.assertAlmostEqual(taken, 250, delta=8)

    def test_each_request_is_logged(self):
        headers = {"Authorization": f"Bearer {self.key}", "X-Request-Id": "seven", "Content-Type": "application/json"}
        self.ask_whole("POST", "/v1/signatures", json.dumps([ONES, "2" * 64]), headers)
        self.ask("GET", "/nothing?x")
        first, second = self.rows()
        self.assertGreaterEqual(first.pop("milliseconds"), 0)
        self.assertRegex(first.pop("time"), r"^\d{4}-\d\d-\d\dT\d\d:\d\d:\d\dZ$")
        self.assertEqual(first, {"id": "seven", "client": "registrar", "address": "127.0.0.1", "method": "POST", "path": "/v1/signatures", "status": 200, "hashes": 2, "second": SECOND})
        self.assertEqual((second["client"], second["path"], second["status"], second["hashes"], second["second"]), (None, "/nothing", 404, 0, None))
        os.rename(os.path.join(self.room, "log"), os.path.join(self.room, "log.1"))
        self.ask("GET", "/healthz")
        self.assertEqual([it["path"] for it in self.rows()], ["/healthz"])


class AccessTest(unittest.TestCase):
    ROUTE = SimpleNamespace(is_public=False, is_counter=False)

    def code(self, access, request, route=ROUTE):
        """The code of a refusal, or the caller's address and whether it is local."""
        try:
            caller = access.caller(request, route)
            return caller.address, caller.is_local
        except Refusal as refusal:
            return refusal.code

    def test_without_keys_only_this_machine_and_a_trusted_proxy_get_in(self):
        for access, peer, wanted in ((Access(), "127.0.0.1", ("127.0.0.1", True)), (Access(), "::1", ("::1", True)), (Access(), "::ffff:127.0.0.2", ("127.0.0.2", True)),
                                     (Access(), "10.0.0.7", "client-not-allowed"), (Access(is_open=True), "10.0.0.7", ("10.0.0.7", False)),
                                     (Access(proxies=["10.0.0.7"]), "10.0.0.8", "client-not-allowed"), (Access(proxies=["10.0.0.7"]), "10.0.0.7", ("", False))):
            self.assertEqual(self.code(access, request_of(peer)), wanted, peer)
        self.assertEqual(self.code(Access(), request_of("10.0.0.7"), SimpleNamespace(is_public=True, is_counter=False)), ("10.0.0.7", False))

    def test_a_trusted_proxy_says_who_asks(self):
        access = Access(proxies=["127.0.0.1"])
        for text, wanted in (("192.0.2.1", ("192.0.2.1", False)), ("127.0.0.1, 192.0.2.1", ("192.0.2.1", False)), ("x", ("", False)), ("2001:db8::1", ("2001:db8::1", False))):
            self.assertEqual(self.code(access, request_of("127.0.0.1", host="evil.example", **{"x-forwarded-for": text})), wanted)
        # of others the header counts for nothing
        self.assertEqual(self.code(Access(is_open=True), request_of("10.0.0.9", **{"x-forwarded-for": "127.0.0.1"})), ("10.0.0.9", False))

    def test_a_host_has_a_name_of_the_door(self):
        access = Access(is_open=True, host_names=["Time.Example.org"])
        for host in ("", "10.0.0.1", "10.0.0.1:8080", "localhost:1", "[::1]:8080", "127.0.0.1", "time.example.org", "TIME.example.ORG:443"):
            self.assertEqual(self.code(access, request_of("10.0.0.9", host=host)), ("10.0.0.9", False), host)
        for host in ("evil.example", "10.0.0.2", "time.example.org.evil.example", "time.example.org@evil.example", "[::2]"):
            self.assertEqual(self.code(access, request_of("10.0.0.9", host=host)), "host-not-allowed", host)
        self.assertEqual(self.code(Access(is_open=True, host_names=None), request_of("10.0.0.9", host="any")), ("10.0.0.9", False))
        self.assertEqual([name_in(it) for it in ("a:80", "[::1]:80", "[::1]", "A", "")], ["a", "::1", "::1", "a", ""])

    def test_a_door_for_others_needs_somebody_who_says_who_may_use_it(self):
        for address in ("127.0.0.1", "::1", "localhost"):
            Access().see_address(address, 0)
        for address in ("0.0.0.0", "::", "192.0.2.1"):
            with self.assertRaisesRegex(OpenDoor, "--open-door"):
                Access().see_address(address, 0)
            for access in (Access(is_open=True), Access(proxies=["192.0.2.9"])):
                access.see_address(address, 0)
        self.assertEqual(OpenDoor.status, 3)
        self.assertRaises(ValueError, Access, proxies=["no address"])


class ClientsTest(unittest.TestCase):
    def setUp(self):
        room = tempfile.TemporaryDirectory(prefix="ksi-test-")
        self.addCleanup(room.cleanup)
        self.path = os.path.join(room.name, "clients")

    def said(self, *words):
        with mock.patch("sys.stdout") as out, mock.patch("sys.stderr") as err:
            status = main(["client", *words, "--clients", self.path])
        return status, "".join(it.args[0] for it in out.write.call_args_list), "".join(it.args[0] for it in err.write.call_args_list)

    def test_the_commands(self):
        status, key, hint = self.said("add", "registrar", "--rate", "100")
        self.assertEqual((status, len(key.strip()), "is new" in hint), (0, 43, True))
        self.assertEqual(self.said("add", "archive")[::2], (0, ""))
        with open(self.path, encoding="ascii") as file:
            content = file.read()
        self.assertNotIn(key.strip(), content)
        self.assertEqual(content.splitlines()[0], f"registrar {clients.digest_of(key.strip())} 100")
        self.assertEqual(os.stat(self.path).st_mode & 0o777, 0o600)
        self.assertEqual(self.said("list")[1].split(), "registrar 100 hashes a second archive any rate".split())
        self.assertEqual(Clients(self.path).of_key(key.strip()).name, "registrar")
        self.assertEqual(self.said("remove", "registrar")[0], 0)
        self.assertIsNone(Clients(self.path).of_key(key.strip()))
        for words in (("add", "archive"), ("add", "a b"), ("add", ""), ("remove", "nobody")):
            self.assertEqual(self.said(*words)[0], 3, words)

    def test_a_malformed_file_is_refused(self):
        one = "a " + "0" * 64
        for text in ("a\n", f"{one} x\n", f"{one} -1\n", f"{one}\n{one}\n", f"{one}\na {'1' * 64}\n", f"{one}\nb {'0' * 64}\n"):
            with self.assertRaises(BadClients, msg=text):
                clients.rows_in(text, "clients")
        self.assertEqual(clients.rows_in(f"# a comment\n\n{one} 2.5\n", "clients"), [clients.Row("a", "0" * 64, 2.5)])
        self.assertIsNone(clients.rows_of(self.path))


@NEEDS_OPENSSL
class TlsTest(Keyed):
    def door_words(self):
        self.make("localhost")
        return {"access": Access(), "certificate": DoorCertificate(*self.files)}

    @property
    def files(self):
        return os.path.join(self.room, "door.crt"), os.path.join(self.room, "door.key")

    def make(self, name):
        words = ["openssl", "req", "-x509", "-newkey", "ec", "-pkeyopt", "ec_paramgen_curve:prime256v1", "-nodes", "-days", "2", "-subj", f"/CN={name}", "-addext", f"subjectAltName=DNS:{name}",
                 "-out", self.files[0], "-keyout", self.files[1]]
        subprocess.run(words, check=True, capture_output=True)

    def name_seen(self):
        """The name in the certificate of the door, which a client verifies."""
        context = ssl.create_default_context(cafile=self.files[0])
        context.check_hostname = False
        connection = http.client.HTTPSConnection(*self.address, timeout=30, context=context)
        connection.request("POST", "/sign", ONES)
        answer = connection.getresponse()
        self.assertEqual((answer.status, answer.read()), (200, bytes.fromhex(ONES)))
        name = dict(it[0] for it in connection.sock.getpeercert()["subject"])["commonName"] if connection.sock else None
        connection.close()
        return name

    def test_a_new_certificate_counts_without_a_restart(self):
        self.assertEqual(self.name_seen(), "localhost")
        self.make("other.example")
        self.assertEqual(self.name_seen(), "other.example")
        with self.assertLogs("ksi_service.door_tls"):
            with open(self.files[1], "w", encoding="ascii") as file:
                file.write("no key")
            self.assertEqual(self.name_seen(), "other.example")
        self.assertRaises(BadCertificate, DoorCertificate, *self.files)

    def test_plain_requests_and_slow_handshakes_end(self):
        told = self.raw(b"GET /healthz HTTP/1.1\r\nHost: localhost\r\n\r\n")
        self.assertNotIn(b"200", told)
        waits = self.connect()
        self.assertEqual(self.name_seen(), "localhost")
        waits.close()

    def test_the_client_of_several_doors_uses_it(self):
        from ksi_service import client
        host, port = self.address
        with mock.patch.dict(os.environ, SSL_CERT_FILE=self.files[0]):
            self.assertEqual(client.sign(["127.0.0.1:1", f"https://localhost:{port}"], ONES), bytes.fromhex(ONES))
        self.assertIsNone(client.ask(f"https://{host}:{port}", ONES).status)


if __name__ == "__main__":
    unittest.main()
