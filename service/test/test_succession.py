"""The cores of a machine retire: nothing about a later second is given to them any more, also after restarts and kills."""
import asyncio
import json
import os
import shutil
import time

import stands
from hosted import Hosted, sign_all
from ksi_service import check, files, identity, plans
from ksi_service.host import Host
from ksi_service.identity import NotHere
from ksi_service.messages import last_second_to_core
from ksi_service.lines import Down
from ksi_service.plan import Plan
from ksi_service.plans import Before, Content, Lost, NotNext
from ksi_service.record import Record, last_state
from ksi_service.retrace import Differs
from ksi_service.succession import HasFacts, NotRetired

ONE = "1" * 64
KINDS = ["seal {0}", "ballot {0}", "tell {0}", "respond {0}", "publish {0}", "submission 0 {0} " + ONE + " 0",
         "synod 1 {0} next 33", "synod 1 {0} last 17", "synod 1 {0} last 17 1 " + ONE, "synod 1 {0} begin 33 " + ONE, "synod 1 {0} voted 17", "synod 1 {0} success " + ONE,
         "held {0} 1", "chain {0} {0}"]
"""Every line that a core takes, about one second (docs/FORMATS.md, "Lines of nodes")."""
UNKNOWN = ["", "seal", "synod 1", "held 5", "forgot 7", "seal later", "check"]
"""Lines that are about no second that the host knows."""


def next_plan(start, cores=3):
    return Content.of(Plan(cores, start, ("c0", "c1")).text(), "")


async def some_seconds(host):
    """Waits until some seconds are decided."""
    while min(core.next for core in host.cores.values()) < host.plan.start + 3:
        await asyncio.sleep(0.02)


def given(folder):
    """The lines that cores were given, by the record."""
    record = os.path.join(folder, "record")
    return [entry[2] for path in check.hours.all_names(record) for entry, _ in check.hours.entries_of(path, True) if entry[0] == "given" and entry[1][0] == "c"]


class LinesTest(Hosted):
    """What is given to a core that retired."""

    async def withheld(self, host, second):
        """Which of all lines about a second are not given to c0."""
        found = []
        for line in (it.format(second) for it in KINDS):
            try:
                await host.nodes["c0"].ask(line)
            except Down:
                found.append(line)
        return found

    def test_every_kind_of_line_about_a_later_second_is_withheld(self):
        async def work(host):
            await sign_all(host, [1])
            past = host.cores["c0"].next - 1
            last = int(time.time()) + 2
            name = host.succession.retire(next_plan(last + 1)).digest
            before = host.nodes["c0"].withheld
            later = await self.withheld(host, last + 1) + await self.withheld(host, last + 1000)
            wide = [line for line in (f"held {last} 2", f"chain {past} {last + 1}", *UNKNOWN) if not host.succession.may_take("c0", line)]
            self.assertEqual(host.nodes["c0"].withheld - before, 2 * len(KINDS))
            self.assertEqual((later, wide), ([it.format(second) for second in (last + 1, last + 1000) for it in KINDS], [f"held {last} 2", f"chain {past} {last + 1}", *UNKNOWN]))
            self.assertEqual(await self.withheld(host, past), [])
            self.assertTrue(host.succession.may_take("a0", f"close {last + 1}"))
            return last, name
        last, name = self.play(work)
        self.assertEqual([it for it in given(self.folder) if last_second_to_core(it) > last], [])

        async def again(host):
            self.assertEqual(tuple(host.record.state.retired), (last, name))
            self.assertEqual(len(await self.withheld(host, last + 1)), len(KINDS))
            # the seconds up to the last are decided all the same, and none after it
            while host.cores["c0"].next <= last:
                await asyncio.sleep(0.05)
            await asyncio.sleep(max(0.0, last + 2.5 - time.time()))
            return {name: core.next for name, core in host.cores.items()}
        self.assertEqual(self.play(again), {it: last + 1 for it in ("c0", "c1", "c2")})
        self.assertEqual([it for it in given(self.folder) if last_second_to_core(it) > last], [])

    def test_a_cut_of_the_record_keeps_the_retirement(self):
        async def work(host):
            last = int(time.time()) + 30
            host.succession.retire(next_plan(last + 1))
            await host.record.cut()
            await host.record.cut()
            return last
        last = self.play(work)
        record = os.path.join(self.folder, "record")
        for path in check.hours.names(record)[1:]:
            kinds = [entry for entry, _ in check.hours.entries_of(path, True)]
            # a host of before ends at such an entry
            self.assertEqual((kinds[0][0], kinds[1][:2]), ("begins", ["retired", last]))
        self.assertEqual(last_state(record)[0].retired.second, last)


class RefusedTest(Hosted):
    """The host refuses to retire, and goes on."""

    def test_reasons(self):
        async def work(host):
            await some_seconds(host)
            start = int(time.time()) + 60
            several = Content.of(Plan(1, start, ("c0",)).text(), "machine A A:1 c0 a0\n")
            for content, of, reason in (
                (next_plan(host.record.state.latest), None, "were asked about second"),
                (next_plan(host.plan.start), None, "has to begin after one of this plan's seconds"),
                (next_plan(host.plan.last_second + 2), None, "has to begin after one of this plan's seconds"),
                (several, None, "a plan of one machine is succeeded by one of several if"),
                (next_plan(start), Before(next_plan(5), ""), "is to succeed another plan than this one"),
            ):
                with self.assertRaisesRegex(NotRetired, reason):
                    host.succession.retire(content, of)
            self.assertIsNone(host.record.state.retired)
            await sign_all(host, [2])
            retired = host.succession.retire(next_plan(start), Before(Content(host.plan, ""), ""))
            self.assertEqual(host.succession.retire(next_plan(start)), retired)
            with self.assertRaisesRegex(NotRetired, "retire once"):
                host.succession.retire(next_plan(start + 1))
        self.play(work)

    def test_a_core_that_forgot_the_only_later_second_does_not_retire(self):
        """The second is in no line that the core did not answer, and of its file only the root is left."""
        async def work(host):
            await some_seconds(host)
            await host.record.cut()
            later = host.record.state.latest
            await host.forget("c0", later)
            while not host.nodes["c0"].alive:
                await asyncio.sleep(0.01)
            with self.assertRaises(HasFacts):
                host.succession.retire(next_plan(later))
        os.environ["KSI_BIN"] = stands.make(os.path.join(self.folder, "bin"), "cores")
        self.play(work)

        async def again(host):
            with self.assertRaises(HasFacts):
                host.succession.retire(next_plan(host.record.state.latest))
        self.play(again)

    def test_lines_that_wait_count_too(self):
        async def work(host):
            last = int(time.time()) + 20
            # on its way to the core: the record has it, and the core did not answer
            host.nodes["c0"].ask_all(f"submission 0 {last + 1} {ONE} 0")
            with self.assertRaises(HasFacts):
                host.succession.retire(next_plan(last + 1))
            host.nodes["c1"].ask_all(f"synod 0 {last + 2} next 16")
            await asyncio.sleep(0.5)
            with self.assertRaises(HasFacts):
                host.succession.retire(next_plan(last + 1))
            host.succession.retire(next_plan(last + 3))
        self.play(work)

    def test_a_record_of_a_version_that_did_not_note_seconds(self):
        async def work(host):
            return host.record.state.second
        self.play(work)
        record = os.path.join(self.folder, "record")
        state = last_state(record)[0].begins()[1]
        del state["latest"], state["knows_latest"]
        state["steps"] = max(1, state["steps"])
        shutil.rmtree(record)
        os.mkdir(record)
        files.write(os.path.join(record, "00000001"), (json.dumps(["begins", state]) + "\n").encode())

        async def again(host):
            with self.assertRaisesRegex(NotRetired, "did not note which seconds"):
                host.succession.retire(next_plan(int(time.time()) + 60))
        self.play(again)

    def test_plans_that_are_none(self):
        text = Plan(3, 100, ("c0", "c1")).text()
        for plan, machines, reason in ((text + "# more\n", "", "other lines"), ("cores 3\n", "", "not the plan"), (text, "machine A A:1 c0\n", "each core of the plan exactly once"), (text, "odd\n", "is not a line")):
            with self.assertRaisesRegex(NotNext, reason):
                Content.of(plan, machines)


class NamesTest(Hosted):
    def test_the_same_plan_on_other_machines_has_another_name(self):
        plan = Plan(1, 100, ("c0",))
        names = [plans.name_of(plan, nodes, before) for nodes in ({"A": ("c0", "a0")}, {"B": ("c0", "a0")}, {"A": ("c0",), "B": ("a0",)}) for before in ("", "1")]
        self.assertEqual(len(set(names)), 6)

    def test_where_the_next_plans_are(self):
        second = plans.folder_of("/srv/data", 7, "a" * 64)
        third = plans.folder_of(second, 9, "b" * 64)
        self.assertEqual((second, third), ("/srv/data/plans/7-aaaaaaaa", "/srv/data/plans/9-bbbbbbbb"))
        self.assertEqual(plans.folder_of("/srv/plans/data", 7, "a" * 64), "/srv/plans/data/plans/7-aaaaaaaa")


class KillsTest(Hosted):
    """What a kill leaves between any two writes of a retirement."""

    def test_kills_between_every_two_writes(self):
        snapshots, numbers = [], {}

        def keep():
            at = os.path.join(self.room.name, "snapshots", str(len(snapshots)))
            shutil.copytree(self.folder, at, ignore=shutil.ignore_patterns("bin", "snapshots"))
            snapshots.append(at)

        async def work(host):
            await sign_all(host, [1])
            path = os.path.join(self.room.name, "identities", "one")
            opened = identity.opened(self.folder, identity.digest_of(host.plan.text().encode()), host.record.state.steps, path=path)
            host.record.on_synced, host.record.on_retired = opened.reached, opened.retired
            write, append, retired = files.write, host.record.append, host.record.on_retired

            def watched(does):
                def doing(*words):
                    keep()
                    does(*words)
                    keep()
                return doing
            files.write, host.record.append, host.record.on_retired = watched(write), watched(append), watched(retired)
            try:
                numbers["last"] = int(time.time()) + 60
                numbers["name"] = host.succession.retire(next_plan(numbers["last"] + 1)).digest
                while not host.succession.is_reported:
                    await asyncio.sleep(0.005)
                keep()
            finally:
                files.write = write
                opened.close()
        self.play(work)
        self.assertGreater(len(snapshots), 10)
        states = [self.see(path, numbers["last"], numbers["name"]) for path in snapshots]
        # once a snapshot has retired, all later ones have
        self.assertEqual(states, sorted(states))
        self.assertEqual((states[0], states[-1]), (False, True))

    def see(self, path, last, name):
        """Opens what a kill left. Returns whether the cores retired."""
        async def open_it():
            host = Host(path, Plan.read(os.path.join(path, "plan")))
            try:
                if host.record.state.retired is None:
                    # nobody can know of it: the folder of the next plan has no retirement, and another one may follow
                    following = plans.folder_of(path, last + 1, name)
                    self.assertFalse(os.path.exists(os.path.join(following, "retirements")))
                    self.assertIsNone(self.slot(path).retired or None)
                    other = host.succession.retire(next_plan(last + 2))
                    self.assertTrue(os.path.exists(os.path.join(plans.folder_of(path, last + 2, other.digest), "plan")))
                    return False
                self.assertEqual(tuple(host.record.state.retired), (last, name))
                self.assertEqual([it for it in KINDS if host.succession.may_take("c0", it.format(last + 1))], [])
                self.assertEqual(host.succession.followed, {""})
                self.assertTrue(host.succession.is_followed())
                return True
            finally:
                await host.record.flush()
                await host.record.close()
        return asyncio.run(open_it())

    def slot(self, path):
        return identity.read(os.path.join(path, "identities", "one"))

    def test_a_next_plan_that_is_gone(self):
        async def work(host):
            host.succession.retire(next_plan(int(time.time()) + 60))
        self.play(work)
        shutil.rmtree(os.path.join(self.folder, "plans"))
        with self.assertRaisesRegex(Lost, "bring that folder back"):
            self.play(work)


class OlderTest(Hosted):
    def test_a_copy_from_before_the_retirement_is_refused(self):
        """Also if it lacks no step."""
        path = os.path.join(self.room.name, "one")
        words = self.folder, "1" * 64
        identity.opened(*words, 12, path=path).close()
        it = identity.opened(*words, 12, path=path)
        it.retired(500, "ab" * 32)
        it.reached(13)
        it.close()
        self.assertEqual(identity.read(path).retired, f"500:{'ab' * 32}")
        with self.assertRaisesRegex(NotHere, "an older copy: its cores retired at second 500"):
            identity.opened(*words, 13, path=path)
        identity.opened(*words, 13, path=path, has_retired=True).close()
        # a torn write of one slot leaves the other one, which had the retirement before
        content = files.content_of(path)
        for at in (0, identity.SLOT):
            files.write(path, content[:at] + b"x" * identity.SLOT + content[at + identity.SLOT:])
            self.assertIn(identity.read(path).step, (12, 13))


class CheckTest(Hosted):
    """`check` sees what a core that retired was given."""

    def entries(self, *entries):
        folder = os.path.join(self.folder, "record")
        record = Record(folder)
        for entry in entries:
            record.add(entry)

        async def end():
            await record.flush()
            await record.close()
        asyncio.run(end())

        class Folders:
            records = [folder]
        said = []
        check.see_retirements(Folders, said.append)
        return said

    def test_a_line_about_a_later_second_is_a_fault(self):
        for line in [it.format(101) for it in KINDS] + ["held 100 2"]:
            shutil.rmtree(os.path.join(self.folder, "record"), ignore_errors=True)
            with self.assertRaisesRegex(Differs, "retired at second 100, and was given this line"):
                self.entries(["given", "c0", "seal 100", None], ["retired", 100, "ab"], ["given", "c0", line, None])

    def test_a_vote_on_a_later_second_before_the_retirement_is_a_fault(self):
        for line in (it.format(101) for it in KINDS if it.split()[0] in ("seal", "ballot", "synod")):
            shutil.rmtree(os.path.join(self.folder, "record"), ignore_errors=True)
            with self.assertRaises(Differs):
                self.entries(["given", "c0", line, None], ["retired", 100, "ab"])

    def test_other_lines_are_none(self):
        said = self.entries(["given", "c0", f"submission 0 101 {ONE} 0", None], ["retired", 100, "ab"], ["given", "c0", "seal 100", None], ["given", "a0", "close 101", None])
        self.assertEqual(len(said), 1)
        shutil.rmtree(os.path.join(self.folder, "record"))
        self.assertEqual(self.entries(["given", "c0", "seal 101", None]), [])

    def test_a_retirement_that_counts_no_more(self):
        """Its plan was given up."""
        free = ["given", "c0", "seal 101", None], ["retired", 105, "cd"], ["given", "c0", "seal 105", None]
        self.assertEqual(len(self.entries(["retired", 100, "ab"], ["given", "c0", "seal 99", None], ["freed", 100, "ab"], *free)), 1)
        for wrong in (["given", "c0", "seal 101", None], ["given", "c0", "held 100 2", None]):
            shutil.rmtree(os.path.join(self.folder, "record"))
            with self.assertRaisesRegex(Differs, "retired at second 100"):
                self.entries(["retired", 100, "ab"], wrong, ["freed", 100, "ab"], *free)
        shutil.rmtree(os.path.join(self.folder, "record"))
        with self.assertRaisesRegex(Differs, "retired at second 105"):
            self.entries(["retired", 100, "ab"], ["freed", 100, "ab"], ["given", "c0", "seal 106", None], ["retired", 105, "cd"])
