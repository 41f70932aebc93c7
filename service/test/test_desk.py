"""Parts of the design for overload at the desk and the cores, each with its switch: what is on, and what is off."""
import asyncio
import unittest
from types import SimpleNamespace
from unittest import mock

from desked import START, Desked
from hosted import imprint
from ksi_service import overload
from ksi_service.desk import NotSigned
from ksi_service.host import Host
from ksi_service.known import Core
from ksi_service.lines import always

OFF = mock.patch.object(overload, "ON", frozenset())


class PartsTest(Desked):
    def asked_by_one_who_left(self):
        """Whether a request ends, and how it is counted, after its client left."""
        async def work(desk):
            await self.turn(desk)
            left = []
            asked = asyncio.ensure_future(desk.sign(imprint(1), is_gone=lambda: bool(left)))
            await self.turn(desk)
            self.assertEqual(len(desk.pending), 1)
            left.append(True)
            for _ in range(40):
                await self.turn(desk)
            is_done = asked.done()
            asked.cancel()
            found = await asyncio.gather(asked, return_exceptions=True)
            return is_done, desk.gone, type(found[0])
        return self.play(work)

    def test_a_request_whose_client_left_is_dropped(self):
        self.assertEqual(self.asked_by_one_who_left(), (True, 1, NotSigned))
        with OFF:
            self.assertEqual(self.asked_by_one_who_left(), (False, 0, asyncio.CancelledError))

    def second_of_a_request(self, usual):
        """The second of a request for another machine half a second before its end, by how long batches usually take."""
        self.host.view.leader = lambda _: 1
        self.host.outbox.usual = lambda _: usual

        async def work(desk):
            await self.turn(desk)
            return (await desk.place(START + 10))[0] - START
        return self.play(work)

    def test_a_request_goes_to_a_second_that_it_reaches(self):
        self.assertEqual([self.second_of_a_request(it) for it in (0.0, 0.2, 0.3)], [10, 10, 11])
        with OFF:
            self.assertEqual(self.second_of_a_request(0.3), 10)

    def test_a_core_gets_only_lines_of_the_vote_that_change_something(self):
        core = Core("c0", START)
        core.hold(START)
        core.phase[START + 1] = "begin"
        is_needed = lambda line: Host.is_needed(SimpleNamespace(cores={"c0": core}), "c0", line)
        lines = [f"synod 1 {second} {kind}" for second in (START, START + 1) for kind in ("last 16 0", "voted 16", f"success {imprint(1)}", "next 17", f"begin 17 {imprint(1)}")]
        self.assertEqual([is_needed(it)() for it in lines], [False] * 3 + [True] * 2 + [False] + [True] * 4)
        self.assertIs(is_needed(f"submission 1 {START} {imprint(1)} 0"), always)
        with OFF:
            self.assertTrue(all(is_needed(it) is always for it in lines))


if __name__ == "__main__":
    unittest.main()
