"""Names that are hashed into the tree: those of clients by their keys. (Gateways' names are in the plan: test_gateways_plan.py.)"""
import os
import unittest
from types import SimpleNamespace

from doored import ONES, House
from hosted import Hosted, imprint
from test_access import Keyed
from test_gateway_links import Above
from test_inbox import NOW
from ksi_service import clients
from ksi_service.access import Access
from ksi_service.access_log import AccessLog
from ksi_service.carrier import batch_of
from ksi_service.clients import Client, Clients, Row
from ksi_service.desk import Batch
from ksi_service.replay import Schedule


class RequestsTest(Hosted):
    def test_requests_with_a_name(self):
        """They are on the record with it, one by one and together, and the next start reads it."""
        async def work(host):
            for batch in (Batch([imprint(1)], "archive-17"), Batch([imprint(2), imprint(3), imprint(4)], "archive-17"), Batch([imprint(5), imprint(6)])):
                await host.desk.sign_all(batch)
            return [text for text, _ in batch.found]
        self.play(work)
        self.assertEqual(len(self.play(work)), 2)
        lines = [it.line.split(" ") for it in self.steps() if (it.line or "").startswith("request ")]
        self.assertEqual([it[3:] for it in lines[:6]], [*([imprint(number), "archive-17"] for number in range(1, 5)), [imprint(5)], [imprint(6)]])
        self.assertEqual(len(lines), 12)


class ReplayTest(unittest.TestCase):
    def test_a_schedule_with_a_name_is_of_version_2(self):
        plan = "ksi-schedule 1\ncores 1\nstart 5\naggregator 0 parent c0\n"
        request = f"request 0 5 {imprint(1)}"
        self.assertEqual([Schedule(plan, events=[it]).text().splitlines()[0] for it in (request, f"{request} bob")], ["ksi-schedule 1", "ksi-schedule 2"])


class AskedTest(unittest.TestCase):
    def test_requests_of_other_machines_with_a_name(self):
        host = Above()
        for more in ([], ["archive-17"]):
            host.inbox.take("B", batch_of([["ask", 1, NOW, "a0", imprint(1), *more]]))
            self.assertEqual(host.notes.pop(), ("ask", "B", 1, NOW, "a0", imprint(1), *more))
        for name in ("a b", "", "x" * 65, 5, "a@b"):
            host.inbox.take("B", batch_of([["ask", 1, NOW, "a0", imprint(1), name]]))
        self.assertEqual((host.notes, host.inbox.dropped), ([], 5))


class DoorTest(Keyed):
    def door_words(self):
        self.key = clients.add(self.path, "archive-17", None)
        return {"access": Access(Clients(self.path), host_names=["x"], names=True), "log_to": AccessLog(os.path.join(self.room, "log"))}

    def test_a_client_signs_by_its_name(self):
        House.names.clear()
        self.assertEqual(self.ask("POST", "/sign", ONES, Authorization=f"Bearer {self.key}")[0], 200)
        self.assertEqual(House.names, ["archive-17"])

    def test_names_that_no_tree_has(self):
        access, without = Access(names=True), Access()
        row = SimpleNamespace(name="a@b")
        self.assertEqual([access.name_of(it) for it in (None, row, Client(Row("a.b", "0" * 64, None)))], [None, None, "a.b"])
        self.assertIsNone(without.name_of(Client(Row("a", "0" * 64, None))))


if __name__ == "__main__":
    unittest.main()
