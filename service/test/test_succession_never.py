"""A next plan that got no majority is given up: none of its hosts ever starts it, and the machines that retired to it are free."""
import os
import time
from unittest import mock

from several import Several
from test_succession_machines import NextMachines, next_plan
from ksi_service import never, plans
from ksi_service.asking import Questions
from ksi_service.plans import Before
from ksi_service.record import last_state
from ksi_service.succession import NotRetired

ONE, OTHER = ({"A": ("c0", "a0"), "B": ("c1", "a1"), name: ("c2", "a2")} for name in "DE")


class NeverTest(Several):
    async def give_up(self, machines, name, content):
        return (await Questions(machines.hosts[name]).answer(["never", content.plan.text().encode().hex(), content.machines.encode().hex(), "-"]))[0]

    def files(self):
        """The folders that say that their plan is given up."""
        return sorted(os.path.relpath(path, self.folder) for path, _, names in os.walk(self.folder) if "never" in names)

    def test_two_plans_of_which_none_has_a_majority(self):
        async def work(machines):
            await machines.sign("A", "B", "C", count=3)
            start = int(time.time()) + 4
            one, other = next_plan(start, ONE), next_plan(start + 120, OTHER)
            names = [machines.hosts[name].succession.retire(content).digest for name, content in zip("AB", (one, other))]
            await machines.crash("C")
            with mock.patch.object(never, "ANSWER_SECONDS", 2):
                self.assertRegex(await self.give_up(machines, "A", one), "^refused D does not answer, .*: nothing changed$")
            self.assertEqual((self.files(), machines.hosts["A"].record.state.retired.digest), ([], names[0]))
            waiting = await self.start_waiting(machines, one)
            self.assertEqual(await self.give_up(machines, "A", one), f"never {names[0]}")
            a, b, d = machines.hosts["A"], machines.hosts["B"], waiting.hosts["D"]
            self.assertEqual((a.record.state.retired, a.record.state.freed, b.record.state.retired.digest), (None, names[0], names[1]))
            self.assertEqual(len(self.files()), 3)
            self.assertEqual((a.succession.counters()["given_up"], d.succession.counters()["never"]), (names[0][:16], "this plan is given up: it never begins"))
            with self.assertRaisesRegex(NotRetired, "never starts that plan"):
                a.succession.retire(one)
            # another machine that retired to it knows of the retirement, which is void
            report = {"of": a.succession.name, "second": start - 1, "next": names[0], "plan": one.plan.text(), "machines": one.machines, "ended": False, "known": ["A", "B"]}
            a.inbox.take_one("B", ["retired", report])
            a.see_tasks()
            self.see_never(d)
            await waiting.end()
            self.see_never(waiting.host("D"))
            # the machine that is free votes on, also after a restart, and retires to the other plan
            await machines.until(lambda: a.cores["c0"].next > start)
            await machines.crash("A")
            await machines.start("A")
            a = machines.hosts["A"]
            self.assertEqual((a.record.state.retired, a.record.state.freed), (None, names[0]))
            self.assertEqual(a.succession.retire(other).digest, names[1])
            await machines.until(lambda: all(machines.hosts[name].succession.is_followed() for name in "AB"))
            await machines.sign("A", "B", count=2, first=10)
            return start + 119
        last = self.play(work)
        self.assertEqual(last_state(os.path.join(self.folder, "A", "record"))[0].retired.second, last)

    async def start_waiting(self, machines, content):
        """A machine of a next plan that waits for retirements."""
        folder = os.path.join(self.folder, "D")
        plans.write_folder(folder, content, Before(machines.hosts["A"].succession.content, ""))
        waiting = NextMachines(machines, content, {"D": folder})
        waiting.hosts["D"] = waiting.host("D")
        await waiting.hosts["D"].start()
        return waiting

    def see_never(self, host):
        """It does not begin with retirements of all machines either."""
        for name in "ABC":
            host.succession.keep(name)
        self.assertFalse(host.succession.is_begun)
        self.assertFalse(host.succession.may_take("c2", f"seal {host.plan.start}"))

    def test_a_plan_that_begins_is_not_given_up(self):
        async def work(machines):
            await machines.sign("A", "B", "C", count=3)
            content = next_plan(int(time.time()) + 6)
            for name in "AB":
                machines.hosts[name].succession.retire(content)
            await machines.until(lambda: machines.hosts["A"].succession.is_followed())
            said = [await self.give_up(machines, name, content) for name in "AC"]
            self.assertRegex(said[0], "this machine holds retirements of a majority")
            self.assertRegex(said[1], "holds retirements of a majority")
            self.assertEqual(self.files(), [])
        self.play(work)

    def test_answers(self):
        async def work(machines):
            host = machines.hosts["B"]
            it = host.succession.never
            sent = []
            host.send = lambda machine, message: sent.append((machine, message[0], message[1].get("held")))
            question = {"of": host.succession.name, "next": "ab" * 32, "start": 7, "record": False}
            for fields in (question, {**question, "of": "other"}, {**question, "record": True, "of": "other"}, {**question, "record": True}):
                host.inbox.take_one("A", ["never", fields])
            self.assertEqual([row[2] for row in sent], [False, True, True, False])
            self.assertEqual((it.names, never.recorded(host.folder)), ({"ab" * 32}, {"ab" * 32}))
            dropped = host.inbox.dropped
            for machine, words in (("X", question), ("A", {}), ("A", None), ("A", {**question, "start": "later"}), ("A", {**question, "next": "../../.."}), ("A", {**question, "next": 7})):
                host.inbox.take_one(machine, ["never", words])
            self.assertEqual((host.inbox.dropped - dropped, len(sent)), (6, 4))
        self.play(work)
