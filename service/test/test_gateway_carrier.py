"""What a carrier over HTTPS takes of a gateway: batches up to a size and a rate, and few connections, also of those that never end."""
import asyncio
import contextlib
import os
import shutil
import ssl
import tempfile
import unittest

from machined import free_ports
from ksi_service import certificates
from ksi_service.carrier import Limit, Outbox
from ksi_service.errors import ServiceError

ALONE = "it measures how long batches take"

try:
    from ksi_service import carrier_https
    from ksi_service.carrier_https import Credentials, HttpsCarrier
    WHY = None if shutil.which("openssl") else "openssl is not here, so nothing goes over HTTPS between machines"
except ServiceError as missing:
    WHY = f"{missing}, so nothing goes over HTTPS between machines"


@unittest.skipIf(WHY, WHY)
class GatewayCarrierTest(unittest.IsolatedAsyncioTestCase):
    async def asyncSetUp(self):
        asyncio.get_running_loop().set_debug(False)
        room = tempfile.TemporaryDirectory()
        self.addCleanup(room.cleanup)
        self.made = room.name
        certificates.make_all(self.made, ["A", "B", "riga"])
        self.addresses = dict(zip(("A", "B", "riga"), (f"127.0.0.1:{port}" for port in free_ports(3))))
        self.came = []
        self.a = await self.carrier("A", "AB")
        self.b = await self.carrier("B", "AB")
        self.riga = await self.carrier("riga", ("A", "riga"))

    def credentials(self, name):
        return Credentials(*(os.path.join(self.made, name, f"{name}.{end}") for end in ("crt", "key")), os.path.join(self.made, "authority.crt"))

    async def carrier(self, name, known):
        made = HttpsCarrier(name, {it: self.addresses[it] for it in known}, self.credentials(name))
        await made.begin(lambda sender, batch: self.came.append((sender, len(batch))))
        self.addAsyncCleanup(made.stop)
        return made

    async def took(self, carrier, count):
        loop = asyncio.get_running_loop()
        began = loop.time()
        for _ in range(count):
            self.assertTrue(await carrier.send("A", b"x", 20))
        return loop.time() - began

    async def test_a_gateway_that_is_added_limited_and_removed(self):
        with self.assertLogs("ksi_service.carrier_https", "ERROR"):
            self.assertFalse(await self.riga.send("A", b"x", 2))
        self.a.add("riga", self.addresses["riga"], Limit(1000, 20.0, 10))
        self.assertTrue(await self.riga.send("A", b"x" * 1000, 20))
        self.assertFalse(await self.riga.send("A", b"x" * 1001, 2))
        self.assertTrue(await self.a.send("riga", b"y", 20))
        self.assertEqual(self.came, [("riga", 1000), ("A", 1)])
        # 30 batches are 20 more than at once, at 20 a second; the machines without a limit do not wait
        slow = asyncio.create_task(self.took(self.riga, 30))
        await asyncio.sleep(0.3)
        quick = await self.took(self.b, 5)
        self.assertGreater(await slow, 0.8)
        self.assertLess(quick, 0.5)
        self.a.remove("riga")
        with self.assertLogs("ksi_service.carrier_https", "ERROR"):
            self.assertFalse(await self.riga.send("A", b"x", 2))

    async def test_connections_that_never_end(self):
        self.a.add("riga", self.addresses["riga"], Limit(1000, 20.0, 10))
        context = ssl.create_default_context(cafile=os.path.join(self.made, "authority.crt"))
        context.load_cert_chain(*self.credentials("riga")[:2])
        host, port = carrier_https.parts_of(self.addresses["A"])
        opened = []
        for number in range(20):
            _, writer = await asyncio.open_connection(host, port, ssl=context, server_hostname="A")
            writer.write((b"POST /lines HTTP/1.1\r\nHost: A\r\n", b"POST /lines HTTP/1.1\r\nHost: A\r\nContent-Length: 900\r\n\r\nx")[number % 2])
            opened.append(writer)
        self.assertLess(await self.took(self.b, 5), 0.5)
        self.assertLessEqual(len(self.a.connections["riga"]), carrier_https.MOST_CONNECTIONS)
        self.assertEqual({sender for sender, _ in self.came}, {"B"})
        for writer in opened:
            writer.close()
            with contextlib.suppress(OSError):
                await writer.wait_closed()


class OutboxTest(unittest.IsolatedAsyncioTestCase):
    async def test_machines_that_come_and_go(self):
        sent = []

        class Carrier:
            async def send(self, machine, batch, patience):
                sent.append(machine)
                return True
        outbox = Outbox(Carrier(), ["B"])
        running = asyncio.create_task(outbox.run())
        await asyncio.sleep(0)
        outbox.add("riga")
        for machine in ("B", "riga", "oslo"):
            outbox.send(machine, ["x"])
        await asyncio.sleep(0.05)
        outbox.remove("riga")
        outbox.send("riga", ["x"])
        outbox.send("B", ["x"])
        await asyncio.sleep(0.05)
        self.assertEqual((sorted(sent), outbox.lost, running.done()), (["B", "B", "riga"], 2, False))
        running.cancel()
        with self.assertRaises(asyncio.CancelledError):
            await running


if __name__ == "__main__":
    unittest.main()
