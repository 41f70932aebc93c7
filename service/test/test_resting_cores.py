"""Cores of a running service that forget, with stand-ins for the nodes and for their forgetting."""
import asyncio
import os
import unittest
from unittest import mock

import stands
from hosted import Hosted, imprint
from ksi_service import files, forget
from ksi_service import resting as restings
from ksi_service.forget import NotForgotten, Older, cores_forget
from ksi_service.marks import HEADERS
from ksi_service.record import State
from ksi_service.resting import Resting
from ksi_service.view import Peer


class CoresTest(Hosted):
    def setUp(self):
        super().setUp()
        stands.make(os.path.join(self.folder, "bin"), "cores,records")

    def facts(self, name):
        """The facts of a node's file, by the stand-in's own reader."""
        content = files.content_of(os.path.join(self.folder, f"{name}.facts"))
        size = HEADERS[content[:8]]
        found = []
        while content[size:size + 1] == b"\1":
            end = size + 5 + int.from_bytes(content[size + 1:size + 5], "big")
            found.append(content[size + 5:end].decode().split())
            size = end
        return found

    async def seconds(self, host, count):
        last = max(core.next for core in host.cores.values()) + count
        while min(core.next for core in host.cores.values()) <= last:
            await asyncio.sleep(0.02)

    def test_cores_forget_one_after_the_other_while_requests_are_signed(self):
        """No request is lost. Each core keeps of forgotten seconds the root alone, and goes on."""
        async def work(host):
            resting, downs, asks = Resting(host), [], []

            async def watch():
                while True:
                    downs.append(sum(not host.nodes[it].alive for it in host.cores))
                    if len(asks) * 10 < len(downs):
                        asks.append(asyncio.create_task(host.desk.sign(imprint(len(asks)))))
                    await asyncio.sleep(0.005)
            await self.seconds(host, 3)
            before = host.record.state.second
            await self.seconds(host, 1)
            await host.record.cut()
            watching = asyncio.create_task(watch())
            with mock.patch.object(restings, "MOST_SECONDS", 40):
                done = [await resting.forget(name) for name in resting.names()]
            await self.seconds(host, 2)
            watching.cancel()
            signed = await asyncio.gather(*asks)
            self.assertEqual([host.nodes[it].starts for it in host.cores], [2, 2, 2])
            published = [await host.nodes[name].ask(f"publish {host.record.state.second - 1}") for name in host.cores]
            return before, done, max(downs), [text[:64] for text, _ in signed], published, dict(resting.before), host.record.state.forgotten_by_cores
        before, done, down, signed, published, forgot, count = self.play(work)
        self.assertEqual(done, [True] * 5)
        self.assertLessEqual(down, 1)
        self.assertEqual(signed, [imprint(number) for number in range(len(signed))])
        self.assertEqual(len({tuple(it) for it in published}), 1)
        self.assertTrue(all(forgot[f"c{it}"] >= before for it in range(3)), (forgot, before))
        self.assertGreater(count, 0)
        for number in range(3):
            old = [fact for fact in self.facts(f"c{number}") if int(fact[1]) < before]
            self.assertEqual({fact[0] for fact in old}, {"held"})

    def test_nothing_is_forgotten_before_its_hour_is_closed(self):
        async def work(host):
            resting = Resting(host)
            await self.seconds(host, 2)
            await resting.forget("c0")
            first, closed = host.nodes["c0"].starts, host.record.state.closed_before()
            await host.record.cut()
            # a second that is sealed after the cut is in the open hour
            last = host.record.state.second
            host.record.add(["given", "c0", f"seal {last - 1}", None])
            settled = host.settled("c0")
            host.record.add(["said", "c0", ["refused word"]])
            return first, closed, settled < last
        self.assertEqual(self.play(work), (1, 0, True))

    def test_a_core_that_never_seals_forgets_the_seconds_of_closed_files(self):
        """As the only core of a machine without aggregators."""
        state = State()
        for second in (5, 6, 7):
            state.take(["given", "c2", f"synod 0 {second} next 16", None])
            state.take(["said", "c2", ["answer done", "stored"]])
        self.assertEqual(state.closed_before(), 0)
        again = State()
        again.take(state.begins())
        again.take(["given", "c2", "synod 0 8 next 16", None])
        self.assertEqual(again.closed_before(), 7)
        again.take(["given", "c2", "seal 6", None])
        self.assertEqual(again.closed_before(), 6)
        last = State()
        last.take(again.begins())
        self.assertEqual(last.closed_before(), 6)

    def test_a_program_of_before_lets_no_core_forget(self):
        stands.make(os.path.join(self.folder, "bin"))

        async def work(host):
            resting = Resting(host)
            await resting.see_program()
            return resting.names()
        self.assertEqual(self.play(work), ["a0", "a1"])
        self.assertFalse(cores_forget(os.path.join(self.folder, "plan")))
        stands.make(os.path.join(self.folder, "bin"), "cores")
        self.assertTrue(cores_forget(os.path.join(self.folder, "plan")))

    def test_a_program_of_before_runs_no_core_that_forgot(self):
        """Its votes are gone, and only the newer program refuses to vote again."""
        self.play(lambda host: self.seconds(host, 2))
        forget.forget(self.folder, 0, lambda text: None)
        self.play(lambda host: host.record.cut())
        stands.make(os.path.join(self.folder, "bin"))
        self.assertRaisesRegex(Older, "c0 c1 c2 forgot seconds", self.play, lambda host: self.seconds(host, 1))
        stands.make(os.path.join(self.folder, "bin"), "cores")
        self.play(lambda host: self.seconds(host, 1))

    def test_a_core_that_was_away_catches_up_by_what_others_tell(self):
        """Its ballots for forgotten seconds are refused, and each refusal has a core tell the root."""
        async def work(host):
            resting, away = Resting(host), host.nodes["c2"]
            await self.seconds(host, 1)
            away.late = True
            with mock.patch.object(host.cores["c2"], "hold", lambda second: False):
                first = host.cores["c2"].next
                while host.cores["c0"].next < first + 4:
                    await asyncio.sleep(0.02)
            await host.record.cut()
            settled = min(host.cores[it].next for it in ("c0", "c1"))
            for name in ("c0", "c1"):
                await host.forget(name, host.record.state.closed_before())
                while not host.nodes[name].alive:
                    await asyncio.sleep(0.01)
            refused = [await host.nodes[it].ask(f"synod 2 {first + 1} next 1618") for it in ("c0", "c1")]
            away.late = False
            host.give("c0", f"synod 2 {first + 1} next 1618", None)
            while not host.cores["c2"].holds(first + 1):
                await asyncio.sleep(0.01)
            answers = [await host.nodes[it].ask(f"{word} {first + 1}") for it in ("c0", "c1") for word in ("seal", "ballot", "respond")]
            told = [(await host.nodes[it].ask(f"held {first + 1} 1"))[0] for it in host.cores]
            return refused, answers, told, settled > first
        refused, answers, told, _ = self.play(work)
        self.assertEqual(refused + answers, [["refused forgotten"]] * 8)
        self.assertEqual(len(set(told)), 1)

    def test_a_core_does_not_forget_while_another_is_down_or_forgets_first(self):
        async def work(host):
            resting, reasons = Resting(host), []

            def reason():
                try:
                    resting.see_others("c1")
                except NotForgotten as why:
                    reasons.append(str(why))
            reason()
            host.nodes["c0"].late = True
            reason()
            host.nodes["c0"].late = False
            peer = Peer("B", 1)
            peer.is_there = True
            peer.rests = {"c2": 7}
            with mock.patch.multiple(host, peers={"B": peer}, trusted={"B": peer}):
                for mine in ({}, {"c1": 8}, {"c1": 7}, {"c1": 6}):
                    host.view.rests = mine
                    reason()
                    reasons.append("-")
                host.view.rests = {}
                leads = [host.view.leads(1, second) for second in (6, 7)]
            return reasons, leads
        reasons, _ = self.play(work)
        self.assertEqual(reasons, ["without it no majority of the cores is up", "c2 is to forget first", "-", "c2 is to forget first", "-", "-", "-"])

    def test_a_crash_while_a_core_forgets_leaves_the_old_file_or_the_new_one(self):
        """Before the entry, before the new name, and after it. The folder starts, and all roots are there."""
        class Crash(Exception):
            pass

        async def grow(host):
            await self.seconds(host, 2)
            return host.record.state.second - 1

        async def roots(host):
            last = host.record.state.second - 1
            return host.left_out, [await host.nodes[it].ask(f"publish {last}") for it in host.cores]
        for owner, name in ((forget.Record, "add"), (files, "keep"), (files, "sync_folder")):
            self.play(grow)
            with mock.patch.object(owner, name, side_effect=Crash), mock.patch.object(forget, "closed_before", lambda record: asyncio.sleep(0, record.state.second)), \
                    mock.patch.object(forget.Left, "drop", lambda left: None), self.assertRaises(Crash):
                forget.forget(self.folder, 0, lambda text: None)
            left, published = self.play(roots)
            self.assertEqual((left, len({tuple(it) for it in published})), ({}, 1), name)
        # each core has seconds again that it may forget
        self.play(grow)
        said = []
        forget.forget(self.folder, 0, said.append)
        # the first one may have nothing left to forget
        self.assertEqual([it.split()[0] for it in said if it[0] == "c"], ["c0", "c1", "c2"])
        self.assertIn(" keeps ", "".join(said))
        self.assertEqual(self.play(roots)[0], {})


if __name__ == "__main__":
    unittest.main()
