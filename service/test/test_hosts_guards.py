"""Several machines: guards against older folders, against clocks that are off, and against silence that is none."""
import asyncio
import os
import shutil
import time
import unittest

import stands
from hosted import patient
from several import Several
from ksi_service.desk import Minority
from ksi_service.heartbeat import Heartbeat
from ksi_service.storing import LostFacts

ALONE = "machines count as away after a silence"


class FolderTest(Several):
    def returns_with(self, change):
        """What machine A ends with if it comes back with another folder than it had."""
        async def work(machines):
            await machines.sign("A", "B", "C", count=6)
            await asyncio.sleep(2)
            await machines.stop("A")
            folder = machines.folder("A")
            stands.copied(folder, f"{folder}.old")
            await machines.start("A")
            await machines.sign("A", "B", "C", count=6, first=10)
            await asyncio.sleep(1.5)
            await machines.stop("A")
            os.rename(folder, f"{folder}.last")
            change(folder)
            machines.hosts["A"] = machines.host("A")
            before = machines.hosts["A"].record.state.steps
            with self.assertRaises(LostFacts) as refused:
                await machines.hosts["A"].begin()
            given = sum(node.heard for node in machines.hosts["A"].nodes.values())
            await machines.stop("A")
            await machines.sign("B", "C", count=4, first=20)
            # its last folder lets it in again
            shutil.rmtree(folder)
            os.rename(f"{folder}.last", folder)
            await machines.start("A")
            await machines.sign("A", count=2, first=30)
            return str(refused.exception), before, given
        return self.play(work)

    def test_a_machine_with_an_older_folder_ends_before_its_nodes_are_given_a_line(self):
        reason, before, given = self.returns_with(lambda folder: os.rename(f"{folder}.old", folder))
        self.assertRegex(reason, f"^[BC] knows [0-9]+ steps of this machine, whose record has {before}: bring back the folder's last state$")
        self.assertGreater(before, 5)
        self.assertEqual(given, 0)

    def test_a_machine_with_an_empty_folder_ends_too(self):
        reason, before, given = self.returns_with(os.mkdir)
        self.assertRegex(reason, "^[BC] knows [0-9]+ steps of this machine, whose record has 0")
        self.assertEqual((before, given), (0, 0))


    def test_two_of_three_machines_with_older_folders_both_end(self):
        """The third one knows later steps of both. They stay a minority with it, and nobody votes."""
        async def work(machines):
            await machines.sign("A", "B", "C", count=6)
            await machines.stop("A", "B")
            for name in "AB":
                stands.copied(machines.folder(name), f"{machines.folder(name)}.old")
            await machines.start("A", "B")
            await machines.sign("A", "B", "C", count=6, first=10)
            await asyncio.sleep(1.5)
            await machines.stop("A", "B")
            for name in "AB":
                os.rename(machines.folder(name), f"{machines.folder(name)}.last")
                os.rename(f"{machines.folder(name)}.old", machines.folder(name))
                machines.hosts[name] = machines.host(name)
            ended = await asyncio.gather(*(machines.hosts[name].begin() for name in "AB"), return_exceptions=True)
            given = sum(node.heard for name in "AB" for node in machines.hosts[name].nodes.values())
            await machines.stop("A", "B")
            for name in "AB":
                shutil.rmtree(machines.folder(name))
                os.rename(f"{machines.folder(name)}.last", machines.folder(name))
            await machines.start("A", "B")
            return ended, given, await machines.sign("A", "B", "C", count=6, first=20)
        ended, given, after = self.play(work)
        self.assertEqual(([type(it) for it in ended], given), ([LostFacts] * 2, 0))
        self.assertRegex(f"{ended[0]} {ended[1]}", "^C knows [0-9]+ steps of this machine.* C knows [0-9]+ steps of this machine")
        self.assertEqual(len(after), 6)


class ClockTest(Several):
    def signed_with_b(self, ahead):
        """Machine B's clock is off for a while. Returns how B refuses meanwhile, which core comes last by the others, and by how many
        seconds what is decided is early."""
        async def work(machines):
            await machines.sign("A", "B", "C", count=3)
            machines.ahead["B"] = ahead
            await machines.until(lambda: all(machines.hosts[name].view.is_off("B") for name in "ABC"))
            await machines.until(lambda: not machines.hosts["B"].desk.has_majority)
            last = {machines.hosts[name].view.order(second)[-1] for name in "AC" for second in range(3)}
            refused = await asyncio.gather(machines.hosts["B"].desk.sign("1" * 64), return_exceptions=True)
            await machines.sign("A", "C", count=10, first=10)
            await asyncio.sleep(2)
            early = max(machines.next().values()) - time.time()
            machines.ahead["B"] = 0
            await machines.until(lambda: not machines.hosts["B"].view.is_off("B"))
            machines.hosts["B"].desk.look()
            await machines.sign("A", "B", "C", count=9, first=30)
            return type(refused[0]), last, early
        return self.play(work)

    def test_a_clock_that_is_ahead_decides_nothing_and_signs_nothing(self):
        refused, last, early = self.signed_with_b(30)
        self.assertEqual((refused, last), (Minority, {1}))
        self.assertLess(early, 2)

    def test_a_clock_that_is_behind_signs_nothing(self):
        refused, last, _ = self.signed_with_b(-30)
        self.assertEqual((refused, last), (Minority, {1}))


class SilenceTest(Several):
    def test_lines_are_carried_to_a_machine_that_seems_away(self):
        """It may only be slow. Else a machine that is taken for away would miss what it needs to come back."""
        async def work(machines):
            await machines.sign("A", "B", "C", count=3)
            take = Heartbeat.take

            def deaf(heartbeat, machine, fields):
                if machine != "B":
                    take(heartbeat, machine, fields)
            for name in ("A", "C"):
                machines.hosts[name].inbox.kinds["alive"] = lambda *words, it=machines.hosts[name].heartbeat: deaf(it, *words)
            await machines.until(lambda: not any(machines.hosts[name].peers["B"].is_there for name in ("A", "C")))
            told_before = sum(it.told for it in machines.hosts.values())
            last = int(time.time()) + 3
            await machines.until(lambda: machines.next()["c1"] > last)
            return sum(it.told for it in machines.hosts.values()) - told_before, machines.next()
        with patient(ASK_AFTER=5):
            was_told, _ = self.play(work)
        self.assertLessEqual(was_told, 1)


if __name__ == "__main__":
    unittest.main()
