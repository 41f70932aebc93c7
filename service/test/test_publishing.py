"""Publications of one machine, with stand-ins for the nodes."""
import asyncio
import time
import unittest
from unittest import mock

from hosted import Hosted, imprint
from ksi_service import plan as plans
from ksi_service import publishing as publishings
from ksi_service.publishing import PlanEnded, Publishing


class PublishingTest(Hosted):
    def test_a_second_is_published_by_another_core_if_the_one_in_turn_is_down(self):
        async def work(host):
            publishing, seconds = Publishing(host, self.folder, 1), []
            host.nodes["c1"].words = ["/bin/sleep", "1000"]
            host.nodes["c1"].kill()
            await host.desk.sign(imprint(1))
            for _ in range(3):
                seconds.append(publishing.due())
                while not await publishing.publish(seconds[-1]):
                    await asyncio.sleep(0.05)
            return seconds, [second for second, _ in publishing.publications.published]
        seconds, published = self.play(work)
        self.assertEqual(published, seconds)

    def test_seconds_before_whole_multiples_are_published_in_order(self):
        async def work(host):
            publishing = Publishing(host, self.folder, 5)
            for number in range(4):
                self.assertTrue(await publishing.publish(publishing.due()), number)
            return [second for second, _ in publishing.publications.published], publishing.due()
        start = 1_000_000_003
        with mock.patch.object(Publishing, "holders", lambda *_: ["c0"]), mock.patch.object(Publishing, "root_of", self.root):
            published, due = self.play(work, start=int(time.time()) + 1000 + (start - int(time.time()) - 1000) % 5)
        self.assertEqual(([it % 5 for it in published], {b - a for a, b in zip(published, published[1:])}, due), ([4] * 4, {5}, published[-1] + 5))

    async def root(self, *_):
        return imprint(7)

    def test_a_plan_ends_with_its_last_second_published(self):
        async def work(host):
            publishing = Publishing(host, self.folder, 3600)
            try:
                await publishing.run()
            finally:
                self.last = publishing.publications.last() - host.plan.start
        with mock.patch.object(plans, "SECONDS", 3), self.assertRaisesRegex(PlanEnded, "is published: begin a new folder"):
            self.play(work)
        self.assertEqual(self.last, 2)

    def test_what_no_core_publishes_is_told(self):
        """As if a majority is away: a plan that ends so does not say that all is well."""
        async def work(host):
            await Publishing(host, self.folder, 2).run()
        nobody = mock.patch.object(Publishing, "holders", lambda *_: [])
        with nobody, mock.patch.object(plans, "SECONDS", 2), mock.patch.object(publishings, "END_SECONDS", 1), mock.patch.object(publishings, "LATE_SECONDS", -1):
            with self.assertLogs("ksi_service.publishing") as logs, self.assertRaisesRegex(PlanEnded, "is not published: .* start again"):
                self.play(work)
        self.assertRegex(logs.output[-1], "second [0-9]+ is not published: no core that is up holds all")


if __name__ == "__main__":
    unittest.main()
