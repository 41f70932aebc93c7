"""A machine that sees no majority of the cores: how soon its door refuses requests. Time is counted here, not measured."""
import asyncio
import http.client
import os
import time
import unittest

from desked import Desked
from hosted import imprint
from machined import OverHttps
from ksi_service.desk import Minority


class DeskTest(Desked):
    def test_before_a_majority_was_seen_requests_are_refused_at_once(self):
        async def work(desk):
            with self.assertRaises(Minority):
                await desk.sign(imprint(1))
            desk.look()
            asked = asyncio.ensure_future(desk.sign(imprint(1)))
            await self.turn(desk)
            return asked.done() or asked.cancel()
        self.assertTrue(self.play(work))

    def test_requests_are_refused_within_a_second_after_the_majority_is_lost(self):
        """Those that wait for an answer, and those that come later."""
        async def work(desk):
            await self.turn(desk)
            waiting = [asyncio.ensure_future(desk.sign(imprint(number))) for number in range(3)]
            for _ in range(40):
                await self.turn(desk)
            self.assertFalse(any(it.done() for it in waiting))
            self.has_majority, lost = False, self.clock.now
            while not all(it.done() for it in waiting):
                await self.turn(desk)
            took = self.clock.now - lost
            with self.assertRaises(Minority):
                await desk.sign(imprint(9))
            return took, {type(it.exception()) for it in waiting}
        took, kinds = self.play(work)
        self.assertLess(took, 1.0)
        self.assertGreater(took, 0.3)
        self.assertEqual(kinds, {Minority})

    def test_a_majority_that_is_back_soon_costs_nothing(self):
        async def work(desk):
            await self.turn(desk)
            waiting = asyncio.ensure_future(desk.sign(imprint(1)))
            self.has_majority = False
            for _ in range(8):
                await self.turn(desk)
            self.has_majority = True
            for _ in range(40):
                await self.turn(desk)
            return waiting.done() or waiting.cancel()
        self.assertTrue(self.play(work))


class AloneTest(OverHttps):
    """One of three machines that is started alone."""

    def sign(self):
        """The status of the door's answer, and how long it took."""
        began = time.monotonic()
        connection = http.client.HTTPConnection(self.doors["A"], timeout=60)
        try:
            connection.request("POST", "/sign", imprint(1))
            answer = connection.getresponse()
            return answer.status, answer.read().decode(errors="replace"), answer.headers["Retry-After"], time.monotonic() - began
        finally:
            connection.close()

    def test_its_door_answers_503_at_once_and_signs_once_the_others_are_there(self):
        self.start("A")
        self.wait(lambda: not self.status("A")["ready"])
        said = [self.sign() for _ in range(20)]
        self.assertEqual({it[:3] for it in said}, {(503, "this machine sees no majority of the cores, or its clock is off: ask another machine's door\n", "1")})
        # one of twenty is not kept waiting by whatever else the machine does
        self.assertLess(min(it[3] for it in said), 1.0)
        # it stops while it waits for the others
        self.assertEqual(self.stop_all(), {"A": 0})
        self.assertFalse(os.path.exists(self.at("A", "door")))
        self.start("A")
        self.start("B")
        self.wait(lambda: self.sign()[0] == 200)
        self.assertTrue(self.status("A")["ready"])


if __name__ == "__main__":
    unittest.main()
