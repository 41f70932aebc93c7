"""Batches between hosts over HTTPS: who is believed to have sent one, and what clients that mean no good get."""
import asyncio
import contextlib
import os
import shutil
import socket
import ssl
import subprocess
import tempfile
import unittest
from unittest import mock

from ksi_service import certificates
from ksi_service.errors import ServiceError

ALONE = "it measures when a machine is given up"

try:
    from ksi_service import carrier_https
    from ksi_service.carrier_https import Credentials, HttpsCarrier
    WHY = None if shutil.which("openssl") else "openssl is not here, so nothing goes over HTTPS between machines"
except ServiceError as missing:
    WHY = f"{missing}, so nothing goes over HTTPS between machines"


def free_port():
    with socket.socket() as found:
        found.bind(("127.0.0.1", 0))
        return found.getsockname()[1]


@unittest.skipIf(WHY, WHY)
class HttpsTest(unittest.IsolatedAsyncioTestCase):
    @classmethod
    def setUpClass(cls):
        cls.room = tempfile.TemporaryDirectory()
        cls.addClassCleanup(cls.room.cleanup)
        certificates.make_all(cls.at("ours"), ["A", "B", "C", "D"])
        certificates.make_all(cls.at("theirs"), ["A", "B"])

    @classmethod
    def at(cls, *names):
        return os.path.join(cls.room.name, *names)

    @classmethod
    def credentials(cls, machine, folder="ours"):
        return Credentials(cls.at(folder, machine, f"{machine}.crt"), cls.at(folder, machine, f"{machine}.key"), cls.at(folder, "authority.crt"))

    async def asyncSetUp(self):
        asyncio.get_running_loop().set_debug(False)
        self.addresses = {it: f"127.0.0.1:{free_port()}" for it in "ABC"}
        self.came = []

    async def carrier(self, machine, folder="ours", addresses=None):
        made = HttpsCarrier(machine, addresses or self.addresses, self.credentials(machine, folder))
        await made.begin(lambda name, batch: self.came.append((machine, name, batch)))
        self.addAsyncCleanup(made.stop)
        return made

    async def until(self, holds):
        end = asyncio.get_running_loop().time() + 60
        while not holds():
            self.assertLess(asyncio.get_running_loop().time(), end, "it did not come about in time")
            await asyncio.sleep(0.02)

    async def test_a_carrier_that_was_stopped_takes_nothing(self):
        """Another one of this process has its address: a connection whose handshake ended later would deliver to nobody for ever."""
        here, there = await self.carrier("A"), await self.carrier("B")
        self.assertTrue(await there.send("A", b"1\n", 5))
        await here.stop()
        late = mock.Mock(machine="B")
        here.opened(late)
        late.abort.assert_called_once()
        self.assertNotIn(late, here.connections["B"])
        await self.carrier("A")
        self.assertTrue(await there.send("A", b"2\n", 5))
        self.assertEqual(self.came, [("A", "B", b"1\n"), ("A", "B", b"2\n")])

    async def as_client(self, machine, content, folder="ours", versions=None):
        """What a client with this certificate gets from A, or the name of what ended the connection."""
        try:
            context = ssl.create_default_context(cafile=self.at("ours", "authority.crt"))
            if versions:
                context.maximum_version = versions
            if machine:
                context.load_cert_chain(*self.credentials(machine, folder)[:2])
            host, port = carrier_https.parts_of(self.addresses["A"])
            reader, writer = await asyncio.open_connection(host, port, ssl=context, server_hostname="A")
            writer.write(content)
            answer = await asyncio.wait_for(reader.read(), 60)
            writer.close()
            return answer.split(b"\r\n")[0].decode()
        except (OSError, asyncio.TimeoutError) as error:
            return type(error).__name__

    async def test_a_batch_comes_with_its_senders_name(self):
        a, b = await self.carrier("A"), await self.carrier("B")
        self.assertTrue(await a.send("B", b'["x"]\n', 20))
        self.assertTrue(await b.send("A", b"y" * carrier_https.MOST_BYTES, 20))
        self.assertEqual([(to, name, len(batch)) for to, name, batch in self.came], [("B", "A", 6), ("A", "B", carrier_https.MOST_BYTES)])
        self.assertEqual((a.reachable(), b.reachable()), (["B"], ["A"]))

    async def test_a_machine_that_it_comes_to_know(self):
        """As one of a plan that is given up."""
        alone = {it: address for it, address in self.addresses.items() if it != "C"}
        here, there = await self.carrier("A", addresses=dict(alone)), await self.carrier("C")
        self.assertFalse(await there.send("A", b"1\n", 5))
        here.add("C", self.addresses["C"])
        self.assertTrue(await here.send("C", b"2\n", 5))
        self.assertTrue(await there.send("A", b"3\n", 5))
        self.assertEqual(self.came, [("C", "A", b"2\n"), ("A", "C", b"3\n")])

    async def test_many_batches_go_over_one_connection(self):
        a, b = await self.carrier("A"), await self.carrier("B")
        self.assertEqual([await a.send("B", b"%d" % number, 20) for number in range(50)], [True] * 50)
        self.assertEqual([batch for _, _, batch in self.came], [b"%d" % number for number in range(50)])
        self.assertEqual(len(b.connections["A"]), 1)

    async def test_what_is_not_received(self):
        a = await self.carrier("A")
        await self.carrier("B")
        self.assertFalse(await a.send("C", b"x", 0.5))
        self.assertFalse(await a.send("B", b"y" * (carrier_https.MOST_BYTES + 1), 2))
        self.assertEqual((self.came, a.reachable()), ([], []))

    async def test_a_machine_that_comes_back_is_reached_at_once(self):
        a, b = await self.carrier("A"), await self.carrier("B")
        self.assertTrue(await a.send("B", b"1", 20))
        await b.stop()
        self.assertFalse(await a.send("B", b"2", 0.5))
        await self.carrier("B")
        self.assertTrue(await a.send("B", b"3", 20))

    async def test_a_machine_that_says_nothing_is_given_up_in_time(self):
        a = await self.carrier("A")
        server = await asyncio.start_server(lambda reader, writer: asyncio.sleep(600), *carrier_https.parts_of(self.addresses["B"]))
        began = asyncio.get_running_loop().time()
        self.assertFalse(await a.send("B", b"x", 0.4))
        self.assertLess(asyncio.get_running_loop().time() - began, 60)
        server.close()

    async def test_another_machine_at_an_address_gets_nothing(self):
        """C runs at B's address: its certificate names another machine."""
        a = await self.carrier("A")
        await self.carrier("C", addresses={**self.addresses, "C": self.addresses["B"]})
        with self.assertLogs("ksi_service.carrier_https", "ERROR") as logs:
            for _ in range(3):
                self.assertFalse(await a.send("B", b"x", 1))
        self.assertEqual(self.came, [])
        self.assertEqual(len(logs.output), 1)
        self.assertRegex(logs.output[0], "no TLS connection to B: .*not valid for 'b'")

    async def test_what_the_log_has_of_a_certificate_of_another_authority(self):
        a = await self.carrier("A")
        b = await self.carrier("B", "theirs")
        for sender, machine, reason in ((a, "B", "unable to get local issuer certificate|self-signed"), (b, "A", "unable to get local issuer certificate|self-signed")):
            with self.assertLogs("ksi_service.carrier_https", "ERROR") as logs:
                self.assertFalse(await sender.send(machine, b"x", 1))
            self.assertRegex(logs.output[0], f"no TLS connection to {machine}: .*({reason})")

    async def test_who_is_refused(self):
        a = await self.carrier("A")
        post = b"POST /lines HTTP/1.1\r\nHost: A\r\nContent-Length: 1\r\nConnection: close\r\n\r\nx"
        rows = [(None, "ours", None), ("B", "theirs", None), ("D", "ours", None), ("A", "ours", None), ("B", "ours", ssl.TLSVersion.TLSv1_2)]
        for machine, folder, versions in rows:
            self.assertNotIn("204", await self.as_client(machine, post, folder, versions), (machine, folder))
        self.assertEqual((self.came, a.refused), ([], 2))
        self.assertEqual(a.strangers, {"D", "A"})
        self.assertEqual(await self.as_client("B", post), "HTTP/1.1 204 No Content")
        self.assertEqual(self.came, [("A", "B", b"x")])

    async def test_a_machine_that_is_refused_tries_twice(self):
        """The server refuses the certificate after the client has taken the server's."""
        a = await self.carrier("A")
        d = HttpsCarrier("D", {**self.addresses, "D": f"127.0.0.1:{free_port()}"}, self.credentials("D"))
        await d.begin(lambda name, batch: None)
        self.addAsyncCleanup(d.stop)
        with self.assertLogs("ksi_service.carrier_https", "ERROR") as logs:
            self.assertFalse(await d.send("A", b"x", 5))
        self.assertEqual((a.refused, len(logs.output)), (2, 1))

    async def test_what_is_refused_of_a_machine(self):
        await self.carrier("A")
        head = b" HTTP/1.1\r\nHost: A\r\n"
        for content in (b"GET /lines" + head + b"\r\n", b"POST /sign" + head + b"Content-Length: 1\r\n\r\nx", b"POST /lines" + head + b"Transfer-Encoding: chunked\r\n\r\n1\r\nx\r\n0\r\n\r\n",
                        b"POST /lines" + head + b"Content-Length: 99999999\r\n\r\n", b"POST /lines" + head + b"Content-Length: x\r\n\r\n", b"no HTTP at all\r\n\r\n"):
            self.assertRegex(await self.as_client("B", content), "^HTTP/1.[01] 400 ", content)
        self.assertEqual(self.came, [])

    async def test_a_batch_that_cannot_be_taken_is_logged(self):
        a, b = await self.carrier("A"), await self.carrier("B")
        b.take = lambda name, batch: 1 // 0
        with self.assertLogs("ksi_service.carrier_https", "ERROR") as logs:
            self.assertFalse(await a.send("B", b"x", 2))
        self.assertIn("a batch of A could not be taken", logs.output[0])

    async def test_a_slow_batch_is_given_up(self):
        await self.carrier("A")
        with mock.patch.object(carrier_https, "MOST_PATIENCE", 0.2):
            self.assertEqual(await self.as_client("B", b"POST /lines HTTP/1.1\r\nHost: A\r\nContent-Length: 9\r\n\r\nx"), "HTTP/1.1 400 Bad Request")
        self.assertEqual(self.came, [])

    async def test_a_machine_has_few_connections(self):
        a = await self.carrier("A")
        context = ssl.create_default_context(cafile=self.at("ours", "authority.crt"))
        context.load_cert_chain(*self.credentials("B")[:2])
        host, port = carrier_https.parts_of(self.addresses["A"])
        opened = [await asyncio.open_connection(host, port, ssl=context, server_hostname="A") for _ in range(carrier_https.MOST_CONNECTIONS + 2)]
        with contextlib.suppress(OSError):
            self.assertEqual(await asyncio.wait_for(opened[0][0].read(), 60), b"")
        await self.until(lambda: len(a.connections["B"]) == carrier_https.MOST_CONNECTIONS)
        for _, writer in opened:
            writer.close()

    async def test_few_connections_show_no_certificate(self):
        """One that shows none is ended after some time, and those of machines come in then."""
        with mock.patch.object(carrier_https, "MOST_HANDSHAKES", 3), mock.patch.object(carrier_https, "HANDSHAKE_SECONDS", 3):
            a, b = await self.carrier("A"), await self.carrier("B")
            opened = [await asyncio.open_connection(*carrier_https.parts_of(self.addresses["A"])) for _ in range(10)]
            await self.until(lambda: (len(a.handshakes), a.refused) == (3, 7))
            for reader, _ in opened[3:]:
                self.assertEqual(await asyncio.wait_for(reader.read(), 60), b"")
            self.assertFalse(await b.send("A", b"1", 0.2))
            await self.until(lambda: not a.handshakes)
            self.assertTrue(await b.send("A", b"2", 20))
        for _, writer in opened:
            writer.close()

    async def test_certificates_that_cannot_be_used(self):
        for machine, folder, reason in (("Z", "ours", "No such file"), ("A", "none", "No such file")):
            with self.assertRaisesRegex(ServiceError, reason):
                HttpsCarrier("A", self.addresses, self.credentials(machine, folder))
        mixed = Credentials(self.at("ours", "A", "A.crt"), self.at("ours", "B", "B.key"), self.at("ours", "authority.crt"))
        with self.assertRaisesRegex(ServiceError, "not usable"):
            HttpsCarrier("A", self.addresses, mixed)

    async def test_an_address_that_is_taken(self):
        await self.carrier("A")
        with self.assertRaisesRegex(ServiceError, "cannot listen for other machines at 127.0.0.1"):
            await self.carrier("A")


@unittest.skipUnless(shutil.which("openssl"), "openssl is not here, so no certificate is made")
class CertificatesTest(unittest.TestCase):
    def setUp(self):
        room = tempfile.TemporaryDirectory()
        self.addCleanup(room.cleanup)
        self.folder = os.path.join(room.name, "out")

    def test_an_authority_certifies_machines_now_and_later(self):
        certificates.make_all(self.folder, ["A"])
        certificates.make_all(self.folder, ["B-2"])
        at = lambda *names: os.path.join(self.folder, *names)
        self.assertEqual([certificates.name_of(at(it, f"{it}.crt")) for it in ("A", "B-2")], ["A", "B-2"])
        for name in ("A", "B-2"):
            subprocess.run(["openssl", "verify", "-x509_strict", "-CAfile", at(name, "authority.crt"), at(name, f"{name}.crt")], check=True, capture_output=True)
            self.assertEqual(os.stat(at(name, f"{name}.key")).st_mode & 0o077, 0)
            self.assertEqual(sorted(os.listdir(at(name))), [f"{name}.crt", f"{name}.key", "authority.crt"])
        self.assertEqual(os.stat(at("authority.key")).st_mode & 0o077, 0)

    def test_what_is_not_certified(self):
        certificates.make_all(self.folder, ["A"])
        for names, reason in ((["A"], "is not replaced"), (["b", "B"], "one name"), (["10.0.0.1"], "not a machine's name"), (["../x"], "not a machine's name"), ([""], "not a machine's name")):
            with self.assertRaisesRegex(certificates.NotCertified, reason):
                certificates.make_all(self.folder, names)
        os.remove(os.path.join(self.folder, "authority.key"))
        with self.assertRaisesRegex(certificates.NotCertified, "bring the key"):
            certificates.make_all(self.folder, ["B"])

    def test_a_certificate_that_names_no_machine(self):
        certificates.make_all(self.folder, ["A"])
        for name, reason in (("authority.crt", "no machine's name"), ("none.crt", "no such file"), ("A/A.key", "openssl x509")):
            with self.assertRaisesRegex(certificates.NotCertified, reason):
                certificates.name_of(os.path.join(self.folder, name))

    def test_without_openssl_it_is_named(self):
        with mock.patch.dict(os.environ, PATH="/nowhere"), self.assertRaisesRegex(certificates.NotCertified, "apt-get install openssl"):
            certificates.make_all(self.folder, ["A"])


if __name__ == "__main__":
    unittest.main()
