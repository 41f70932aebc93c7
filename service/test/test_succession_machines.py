"""Several machines retire: a majority or a minority of them, and what a machine of the next plan waits for."""
import asyncio
import os
import random
import time
from unittest import mock

from several import THREE, Machines, Several
from test_succession import KINDS, given
from ksi_service import plans, succession
from ksi_service.host import Host
from ksi_service.messages import last_second_to_core
from ksi_service.lines import Down
from ksi_service.places import Places
from ksi_service.plan import Plan
from ksi_service.plans import Before, Content
from ksi_service.record import last_state
from ksi_service.storing import LostFacts
from ksi_service.succession import HasFacts, NotRetired

PARENTS = ("c0", "c1", "c2")
REPLACED = {"A": ("c0", "a0"), "C": ("c2", "a2"), "D": ("c1", "a1")}


def rows(nodes):
    return "".join(f"machine {' '.join([name, f'{name}:7443', *its])}\n" for name, its in sorted(nodes.items()))


def next_plan(start, nodes=None):
    return Content.of(Plan(3, start, PARENTS).text(), rows(nodes or THREE))


class NextMachines(Machines):
    """The machines of a plan that succeeds another, over the folders that the hosts of that one made."""

    def __init__(self, before, content, folders):
        super().__init__(before.room, content.nodes, ",".join(content.plan.parents), content.plan.start, before.publish_every)
        self.folders = folders
        self.wire = before.wire

    def folder(self, name):
        return self.folders[name]


class MachinesTest(Several):
    def later(self, last, names="ABC"):
        """The lines about later seconds that the cores of the first plan were given."""
        return [it for name in names for it in given(os.path.join(self.folder, name)) if last_second_to_core(it) > last]

    def test_two_machines_retire_and_the_third_follows(self):
        async def work(machines):
            await machines.sign("A", "B", "C", count=3)
            content = next_plan(int(time.time()) + 6)
            machines.hosts["A"].succession.retire(content)
            await asyncio.sleep(2)
            # one machine alone lets no other one retire
            self.assertIsNone(machines.hosts["B"].record.state.retired)
            self.assertEqual(set(machines.hosts["B"].succession.heard), {"A"})
            machines.hosts["C"].succession.retire(content)
            await asyncio.gather(*(it.succession.over for it in machines.hosts.values()))
            self.assertGreater(time.time(), content.plan.start)
            for name, host in machines.hosts.items():
                self.assertEqual(host.cores[f"c{'ABC'.index(name)}"].next, content.plan.start)
                self.assertEqual(host.published(), content.plan.start - 1)
            folders = {name: host.succession.over.result() for name, host in machines.hosts.items()}
            for path in folders.values():
                self.assertGreaterEqual(len(plans.retirements_in(path)), 2)
            await machines.stop(*list(machines.hosts))
            following = NextMachines(machines, content, folders)
            try:
                await following.start("A", "B", "C")
                await following.sign("A", "B", "C", count=6, first=10)
                await self.see_third(following, folders)
            finally:
                await following.end()
            return content.plan.start - 1
        last = self.play(work)
        self.assertEqual(self.later(last), [])
        self.assertLessEqual(max(self.roots), last)

    async def see_third(self, machines, folders):
        """A third plan follows the second one."""
        content = next_plan(int(time.time()) + 4)
        before = {name: host.succession.name for name, host in machines.hosts.items()}
        for name in "BC":
            machines.hosts[name].succession.retire(content)
        for name, path in zip("ABC", await asyncio.gather(*(machines.hosts[name].succession.over for name in "ABC"))):
            self.assertEqual(os.path.dirname(path), os.path.dirname(folders[name]))
            self.assertEqual((plans.content_in(path).plan.start, Before.read(path).name), (content.plan.start, before[name]))
            self.assertEqual([it for it in given(folders[name]) if last_second_to_core(it) >= content.plan.start], [])

    def test_lost_late_and_repeated_messages_and_a_cut(self):
        """A and C do not reach each other when they retire."""
        async def work(machines):
            await machines.sign("A", "B", "C", count=3)
            dice = random.Random(4)

            def delays(sender, receiver):
                if dice.random() < 0.1:
                    return []
                return [dice.uniform(0, 0.5) if dice.random() < 0.2 else 0 for _ in range(2 if dice.random() < 0.1 else 1)]
            machines.wire.delays = delays
            machines.wire.cut.update({("A", "C"), ("C", "A")})
            content = next_plan(int(time.time()) + 5)
            for name in "AC":
                machines.hosts[name].succession.retire(content)
            await machines.until(lambda: machines.hosts["B"].record.state.retired)
            await machines.until(lambda: time.time() > content.plan.start)
            machines.wire.join()
            await asyncio.gather(*(it.succession.over for it in machines.hosts.values()))
            self.assertEqual({it.record.state.retired.second for it in machines.hosts.values()}, {content.plan.start - 1})
            self.assertEqual(set(machines.next().values()), {content.plan.start})
            return content.plan.start - 1
        last = self.play(work)
        self.assertEqual((self.later(last), max(self.roots)), ([], last))

    def test_a_plan_follows_without_a_command(self):
        """A machine whose clock is wrong retires only after the others did."""
        after = 16

        async def work(machines):
            for host in machines.hosts.values():
                host.succeed_after = after
            machines.hosts["C"].clock = mock.Mock(fault=lambda: "it is wrong")
            last = machines.plan.start + after - 1
            await machines.until(lambda: all(machines.hosts[name].record.state.retired for name in "AB"))
            self.assertLess(time.time(), last)
            await asyncio.gather(*(it.succession.over for it in machines.hosts.values()))
            found = {plans.content_in(it.succession.over.result()).plan for it in machines.hosts.values()}
            self.assertEqual(found, {Plan(3, last + 1, PARENTS)})
            return last, {it.record.state.retired.digest for it in machines.hosts.values()}
        last, names = self.play(work)
        self.assertEqual((self.later(last), len(names)), ([], 1))

    def test_nothing_follows_while_clocks_are_wrong(self):
        async def work(machines):
            for host in machines.hosts.values():
                host.succeed_after = 8
                host.clock = mock.Mock(fault=lambda: "it is wrong")
            await machines.until(lambda: time.time() > machines.plan.start + 10)
            self.assertEqual({it.record.state.retired for it in machines.hosts.values()}, {None})
            self.assertEqual({it.succession.calm_since for it in machines.hosts.values()}, {None})
        self.play(work)

    def test_a_minority_retires_and_the_others_sign_on(self):
        async def work(machines):
            await machines.sign("A", "B", "C", count=3)
            content = next_plan(int(time.time()) + 3)
            last = content.plan.start - 1
            machines.hosts["A"].succession.retire(content)
            await machines.until(lambda: min(machines.next()["c1"], machines.next()["c2"]) > last + 2)
            await machines.sign("B", "C", count=4, first=10)
            await machines.until(lambda: machines.next()["c0"] > last)
            host = machines.hosts["A"].succession
            self.assertEqual((host.followed, host.is_followed(), host.over.done(), machines.next()["c0"]), ({"A"}, False, False, last + 1))
            with self.assertRaises(HasFacts):
                machines.hosts["B"].succession.retire(content)
            with self.assertRaises(Down):
                await machines.hosts["A"].nodes["c0"].ask(f"seal {last + 1}")
            # its restart changes nothing
            await machines.crash("A")
            await machines.start("A")
            await machines.sign("B", "C", count=2, first=20)
            self.assertEqual(machines.next()["c0"], last + 1)
            await self.see_again(machines)
            return last
        last = self.play(work)
        self.assertEqual(self.later(last, "A"), [])
        self.assertGreater(max(self.roots), last)

    async def see_again(self, machines):
        """The others retire to a further plan, in which the first machine has an empty folder."""
        content = next_plan(int(time.time()) + 4)
        for name in "BC":
            machines.hosts[name].succession.retire(content)
        folders = dict(zip("BC", await asyncio.gather(*(machines.hosts[name].succession.over for name in "BC"))))
        folders["A"] = os.path.join(self.folder, "A again")
        plans.write_folder(folders["A"], content, Before(machines.hosts["A"].succession.content, ""))
        await machines.stop(*list(machines.hosts))
        following = NextMachines(machines, content, folders)
        try:
            await following.start("A", "B", "C")
            await following.sign("A", "B", "C", count=6, first=30)
            await following.until(lambda: following.next()["c0"] > content.plan.start)
        finally:
            await following.end()
        self.assertGreaterEqual(plans.retirements_in(folders["A"]), {"B", "C"})

    def test_two_plans_of_which_none_has_a_majority(self):
        async def work(machines):
            await machines.sign("A", "B", "C", count=3)
            start = int(time.time()) + 4
            one, other = next_plan(start), next_plan(start, REPLACED)
            machines.hosts["A"].succession.retire(one)
            machines.hosts["C"].succession.retire(other)
            with self.assertRaisesRegex(NotRetired, "retire once"):
                machines.hosts["A"].succession.retire(other)
            await machines.until(lambda: len(machines.hosts["B"].succession.heard) == 2)
            await machines.until(lambda: time.time() > start + 2)
            self.assertIsNone(machines.hosts["B"].record.state.retired)
            return [it.succession.is_followed() for name, it in machines.hosts.items() if name != "B"]
        self.assertEqual(self.play(work), [False, False])

    def test_a_machine_that_retired_by_what_others_know_does_not_go_on(self):
        async def work(machines):
            await machines.sign("A", "B", "C", count=3)
            host = machines.hosts["B"]
            content = next_plan(int(time.time()) + 60)
            name = plans.name_of(content.plan, content.nodes, host.succession.name)
            fields = {"of": host.succession.name, "second": content.plan.start - 1, "next": name, "plan": content.plan.text(), "machines": content.machines, "ended": False, "known": ["A", "B"]}
            host.inbox.take_one("A", ["retired", fields])
            with self.assertRaisesRegex(LostFacts, "bring back the folder's last state"):
                host.see_tasks()
        self.play(work)


class WaitingTest(Several):
    """A machine of the next plan gives its cores nothing before it has retirements of a majority."""

    def host(self, content):
        return Host(os.path.join(self.folder, "D"), content.plan, Places("D", content.addresses, content.nodes), NoCarrier())

    def test_what_counts_as_a_retirement(self):
        before = Before(Content.of(Plan(3, 1000, PARENTS).text(), rows({**THREE, "E": ()})), "")
        content = next_plan(2000, {**REPLACED, "F": ()})
        plans.write_folder(os.path.join(self.folder, "D"), content, before)

        async def first():
            it = self.host(content)
            report = {"of": before.name, "second": 1999, "next": it.succession.name, "plan": "", "machines": "", "ended": True, "known": []}
            self.assertEqual(it.succession.former, {"B": "B:7443", "E": "E:7443"})
            refused = [({**report, "second": 1998}, "A"), ({**report, "next": "0" * 64}, "A"), ({**report, "of": "0" * 64}, "A"), (report, "F"), (report, "E"), (report, "D")]
            for fields, machine in [*refused, (report, "A"), (report, "A"), *refused]:
                it.inbox.take_one(machine, ["retired", fields])
                self.assertEqual([line for line in KINDS if it.succession.may_take("c1", line.format(2000))], [])
                self.assertFalse(it.may_begin())
            await close(it)
            return report
        report = asyncio.run(first())
        self.assertEqual(plans.retirements_in(os.path.join(self.folder, "D")), {"A"})

        async def again():
            it = self.host(content)
            self.assertFalse(it.succession.is_begun)
            written = []

            def keep(path, machines):
                # nothing is given before the retirement is on the disk
                self.assertFalse(it.succession.may_take("c1", "seal 2000"))
                written.append(machines)
            with mock.patch.object(succession, "keep_retirements", keep):
                it.inbox.take_one("C", ["retired", report])
            self.assertEqual(written, [{"A", "C"}])
            self.assertTrue(it.succession.may_take("c1", "seal 2000"))
            for odd in (None, [], 7, {}, {**report, "second": "1"}, {**report, "second": float("inf")}, {**report, "of": it.succession.name, "known": 3}):
                it.inbox.take_one("A", ["retired", odd])
            await close(it)
        asyncio.run(again())
        self.assertIsNone(last_state(os.path.join(self.folder, "D", "record"))[0].retired)


class NoCarrier:
    may_succeed = True


async def close(host):
    await host.record.flush()
    await host.record.close()
