"""Many hashes in one request: signed together, made again one by one if some are not, and counted one by one."""
import asyncio
import unittest
from types import SimpleNamespace

from hosted import Hosted, imprint
from ksi_service.admission import Busy
from ksi_service.desk import Batch, NotSigned, Over
from ksi_service.house import ServiceHouse
from ksi_service.houses import Signed


class BatchTest(Hosted):
    def test_a_batch_is_signed_together(self):
        async def work(host):
            batch = Batch([imprint(number) for number in range(1, 601)])
            await host.desk.sign_all(batch)
            return batch, host.desk.signed, host.desk.waiting
        batch, signed, waiting = self.play(work)
        self.assertEqual((signed, waiting), (600, 0))
        for text, (found, second) in zip(batch.imprints, batch.found):
            self.assertIn(text, found)
            self.assertGreater(second, 0)
        self.assertEqual(len(self.handed_out()), 600)

    def test_hashes_that_a_node_lost_are_asked_for_again(self):
        async def work(host):
            batch = Batch([imprint(number) for number in range(1, 201)])
            signing = asyncio.create_task(host.desk.sign_all(batch))
            while not host.desk.pending:
                await asyncio.sleep(0.01)
            await asyncio.sleep(0.3)
            host.nodes[next(iter(host.desk.pending.values())).aggregator].kill()
            await signing
            return batch, host.desk.again
        batch, again = self.play(work)
        self.assertTrue(all(text in found for text, (found, _) in zip(batch.imprints, batch.found)))
        self.assertGreater(again, 0)
        self.assertEqual(len({text[:64] for text in (it.text for it in self.handed_out())}), 200)

    def test_a_batch_counts_as_its_hashes(self):
        async def work(host):
            batches = [Batch([imprint(100 * number + it) for it in range(1, 101)]) for number in range(4)]
            signing = [asyncio.create_task(host.desk.sign_all(it)) for it in batches[:2]]
            await asyncio.sleep(0)
            waiting = host.desk.waiting
            with self.assertRaises(Busy):
                await host.desk.sign_all(batches[2])
            await asyncio.gather(*signing)
            await host.desk.sign_all(batches[3])
            return waiting, host.desk.waiting, host.desk.busy
        self.assertEqual(self.play(work, most_waiting=250), (200, 0, 1))

    def test_a_client_that_left_gets_nothing(self):
        async def work(host):
            batch = Batch([imprint(number) for number in range(1, 9)])
            with self.assertRaises(NotSigned):
                await host.desk.sign_all(batch, is_gone=lambda: True)
            return batch.found
        self.assertEqual(self.play(work), [None] * 8)

    def test_the_house_answers_for_each_hash(self):
        """Those that were signed before the rest failed keep their signatures."""
        class Desk:
            async def sign_all(self, batch, is_gone):
                batch.found[1] = "ab", 7
                raise NotSigned("no second took the request")

            def see_room(self, count):
                self.count = count

        class Service:
            def __init__(self):
                self.host = self
                self.desk = Desk()

        async def work():
            house = ServiceHouse(Service())
            return await house.sign([imprint(1), imprint(2)], lambda: False), house.service.desk.count
        (refusal, signed), count = asyncio.run(work())
        self.assertEqual((refusal.code, signed, count), ("not-signed", Signed(imprint(2), b"\xab", 7), 2))

    def between(self, is_followed):
        """The answer to two hashes, of which a plan signs one before it is over; and what the next plan was asked for."""
        class Desk:
            def __init__(self, place, second):
                self.place, self.second, self.asked = place, second, None

            def see_room(self, count):
                pass

            async def sign_all(self, batch, is_gone):
                self.asked = batch.left()
                batch.found[self.place] = "ab", self.second
                if batch.left():
                    raise Over("the plan is over")

        def service(*words):
            host = SimpleNamespace(desk=Desk(*words), succession=SimpleNamespace(is_followed=lambda: is_followed))
            return SimpleNamespace(host=host, is_ready=True)

        async def work():
            first, following = service(1, 7), service(0, 8)
            house = ServiceHouse(first)
            asyncio.get_running_loop().call_later(0.2, lambda: setattr(house, "service", following))
            return await house.sign([imprint(1), imprint(2)], lambda: False), following.host.desk.asked, house.between
        return asyncio.run(work())

    def test_the_next_plan_signs_what_is_missing(self):
        found, asked, between = self.between(True)
        self.assertEqual(found, [Signed(imprint(1), b"\xab", 8), Signed(imprint(2), b"\xab", 7)])
        self.assertEqual((asked, between), ([0], 0))

    def test_a_plan_that_is_over_is_ready_only_if_another_one_follows(self):
        for now, is_followed, is_ready in ((9.5, False, True), (11.5, False, False), (11.5, True, True)):
            succession = SimpleNamespace(is_followed=lambda: is_followed)
            host = SimpleNamespace(now=lambda: now, last_second=10, desk=SimpleNamespace(has_majority=True), succession=succession)
            self.assertEqual(ServiceHouse(SimpleNamespace(host=host, is_ready=True)).not_ready() is None, is_ready, (now, is_followed))

    def test_without_a_next_plan_the_rest_is_refused(self):
        (refusal, signed), asked, between = self.between(False)
        self.assertEqual((refusal.code, refusal.headers["Retry-After"], signed.second, asked, between), ("plan-over", "2", 7, None, 0))


if __name__ == "__main__":
    unittest.main()
