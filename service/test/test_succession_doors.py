"""A plan ends and the next one begins while clients sign: on one machine, and on three."""
import contextlib
import io
import json
import os
import random
import shutil
import time


from machined import NODES, OverHttps, free_ports
from served import Served, imprint
from test_succession import given
from ksi_service import client, command, files, machines, plans
from ksi_service.elements import Malformed, parts_of, published_in
from ksi_service.errors import ServiceError
from ksi_service.messages import decree_of, last_second_to_core
from ksi_service.messages import second_of as second_of_line
from ksi_service.record import Step, told

ALONE = "it measures for how long nothing is signed"

AHEAD = 15
"""How many seconds after the plan is written the next one begins: so long that a busy machine runs two commands."""
MOST_PAUSE = 10


class OneMachineTest(Served):
    def test_the_next_plan_follows_at_the_same_door(self):
        self.start()
        self.assertEqual(self.ask("/sign", imprint(1))[0], 200)
        address = self.door()
        start = self.plan("second", AHEAD)
        self.assertIn("begins at second", self.succeed("second"))
        self.plan("other", AHEAD + 100)
        self.assertIn("retire once", self.succeed("other", status=3))
        times, statuses = [], []
        number = 1
        while not times or times[-1] < start + 4:
            number += 1
            status, content = self.ask("/sign", imprint(number))
            statuses.append(status)
            if status == 200:
                times.append(second_of(content))
            self.assertLess(time.time(), start + 60)
        self.see_times(times, start)
        self.assertEqual((set(statuses) - {503}, self.door()), ({200}, address))
        status = self.status()
        self.assertEqual((status["retired_to_this"], status["ready"]), ("this", True))
        # it is the same door: it goes on to count, and remembers what the plan before signed
        self.assertEqual(sum(status["requests"]["/sign"].values()), number)
        self.assertEqual([self.ask(path)[0] for path in (f"/v1/signatures/{imprint(1)}", f"/v1/signatures/{imprint(number)}", "/readyz")], [200] * 3)
        # the plan before ends with the publication of its last second
        with open(os.path.join(self.folder, "publications"), "rb") as file:
            self.assertEqual(published_in(file.read())[-1][0], start - 1)
        self.wait_for_publication(start + 1)
        # a restart goes on with the newest plan
        self.kill()
        self.start()
        self.assertGreater(second_of(self.ask("/sign", imprint(0))[1]), start)
        self.assertEqual(self.ask(f"/v1/signatures/{imprint(0)}")[0], 200)
        self.assertIn(b"earlier plans are not searched", self.unknown(imprint(1)))
        self.command("stop")
        self.see_checked(start)

    def unknown(self, imprint):
        """The refusal for a hash that is not found, once the index is complete."""
        for _ in range(1800):
            status, content = self.ask(f"/v1/signatures/{imprint}")
            if status != 503:
                self.assertEqual(status, 404)
                return content
            time.sleep(0.1)
        self.fail("the index was not made")

    def plan(self, name, seconds):
        """Writes a plan. Returns its first second."""
        run(self, "plan", os.path.join(self.room.name, name), "--in", str(seconds))
        return plans.content_in(os.path.join(self.room.name, name)).plan.start

    def succeed(self, name, status=0):
        return run(self, "succeed", os.path.join(self.room.name, name), "--folder", self.folder, status=status)

    def see_times(self, times, start):
        """Signatures of both plans, with no longer pause than is allowed."""
        gaps = [after - before for before, after in zip(times, times[1:])]
        self.assertTrue(times[0] < start <= times[-1])
        self.assertLessEqual(max(gaps), MOST_PAUSE)

    def see_checked(self, start):
        """Both plans' records agree with the model, if the programs are here."""
        following = plans.newest(self.folder)
        self.assertEqual(os.path.dirname(following), os.path.join(self.folder, "plans"))
        if self.checked():
            self.folder, first = following, self.folder
            self.checked()
            self.folder = first

    def test_a_kill_at_any_time_of_the_change(self):
        """The service is killed and started again all the while: the next plan follows, and all that was signed is of one of the two."""
        self.start()
        self.assertEqual(self.ask("/sign", imprint(1))[0], 200)
        start = self.plan("second", AHEAD)
        self.succeed("second")
        last = 0
        for number in range(2, 200):
            time.sleep(0.5 + number % 4 / 5)
            self.kill()
            self.start()
            status, content = self.ask("/sign", imprint(number))
            last = second_of(content) if status == 200 else last
            if last > start + 1:
                break
        self.assertGreater(last, start + 1, files.content_of(os.path.join(self.folder, "log"))[-3000:])
        self.command("stop")
        self.see_checked(start)


def second_of(content):
    """The second of a signature, of a stand-in or of a proved node."""
    try:
        return parts_of(content).second
    except (Malformed, ServiceError):
        return int(content.hex()[64:80], 16)


def run(test, *words, status=0):
    """Runs a command in this process, which is quicker than another one on a busy machine."""
    told = io.StringIO()
    with contextlib.redirect_stdout(told), contextlib.redirect_stderr(told):
        test.assertEqual(command.main(words), status, told.getvalue())
    return told.getvalue()


class MachinesTest(OverHttps):
    def setUp(self):
        super().setUp()
        self.seconds = []

    def sign_on(self, number):
        """One hash after the other, with the second of each signature."""
        at = 0
        while not self.ending.is_set():
            at += 1
            doors = list(self.doors.values())
            doors = doors[number % len(doors):] + doors[:number % len(doors)]
            try:
                content = client.sign(doors, f"{number + 1:032x}{at:032x}")
                self.seconds.append((time.time(), second_of(content)))
            except ServiceError as reason:
                self.failed.append(str(reason))

    def see_pause(self):
        times = sorted(at for at, _ in self.seconds)
        self.assertLessEqual(max(after - before for before, after in zip(times, times[1:])), MOST_PAUSE)

    def signed_after(self, second, count=5):
        self.wait(lambda: sum(it > second for _, it in list(self.seconds)) >= count)

    def lines_after(self, name, folder, second):
        """Lines about a later second that cores were given, by the record."""
        return [it for it in given(self.at(name, *folder)) if last_second_to_core(it) > second]

    def test_two_machines_retire_and_a_third_that_was_away_follows(self):
        self.start_all()
        with self.clients():
            self.signed_after(0)
            self.kill("C")
            start = int(time.time()) + AHEAD
            machines.write(self.at("second"), self.made(), machines.plan_of(self.made(), start=start))
            for name in ("A", "B"):
                self.assertIn(f"retired at second {start - 1}", run(self, "succeed", self.at("second"), "--folder", self.at(name)))
            self.signed_after(start + 2)
            self.start("C")
            self.wait(lambda: self.is_complete("C"))
            # a machine of the next plan is lost and comes back
            self.kill("A")
            self.signed_after(max(it for _, it in self.seconds))
            self.start("A")
            self.wait(lambda: self.is_complete("A"))
        self.assertEqual(self.failed, [])
        self.see_pause()
        self.assertEqual(self.stop_all(), {name: 0 for name in NODES})
        for name in NODES:
            self.assertEqual(self.lines_after(name, (), start - 1), [])
            if name != "C":
                # the old plan was over before C was back
                self.assertEqual(published_in(self.published(name))[-1][0], start - 1)
            self.assertEqual(plans.content_in(plans.newest(self.at(name))).plan.start, start)

    def test_machines_are_killed_during_the_change(self):
        dice = random.Random(5)
        self.start_all()
        with self.clients():
            self.signed_after(0)
            start = int(time.time()) + AHEAD
            machines.write(self.at("second"), self.made(), machines.plan_of(self.made(), start=start))
            for name in ("A", "B"):
                run(self, "succeed", self.at("second"), "--folder", self.at(name))
            while time.time() < start - 3:
                time.sleep(0.1)
            while sum(it > start for _, it in list(self.seconds)) < 5:
                name = dice.choice(sorted(NODES))
                self.kill(name)
                time.sleep(dice.uniform(0, 1))
                self.start(name)
                time.sleep(dice.uniform(1, 5))
                self.assertLess(time.time(), start + 150, self.log(name)[-2000:])
            self.wait(lambda: all(self.is_complete(name) for name in NODES))
        self.assertEqual(self.failed, [])
        self.assertEqual(self.stop_all(), {name: 0 for name in NODES})
        roots = {}
        for name in NODES:
            self.assertEqual(self.lines_after(name, (), start - 1), [])
            for folder in plans.chain_of(self.at(name)):
                self.see_roots(os.path.join(folder, "record"), roots)
        self.assertGreater(max(roots), start)

    def see_roots(self, record, roots):
        """Each second has one root, in all records of both plans."""
        for step in (it for it in told(record) if isinstance(it, Step)):
            for text in (row.split(" ", 2)[-1] for row in step.block or [] if row.startswith("send ")):
                if decree_of(text):
                    self.assertEqual(roots.setdefault(second_of_line(text), decree_of(text)), decree_of(text))

    def made(self):
        return [machines.Machine(name, address, NODES[name]) for name, address in plans.content_in(self.at("etc")).addresses.items()]

    def test_a_destroyed_machine_is_replaced(self):
        """A and C sign, D takes B's place, then A is lost, and C and D sign on. B comes back, and learns that it has no part."""
        nodes = dict(NODES)
        self.start_all()
        with self.clients():
            self.signed_after(0)
            self.kill("B")
            self.wait(lambda: self.status("A")["machines"]["B"] == "away")
            port, door = free_ports(2)
            run(self, "replace", "B", self.at("second"), "--by", f"D=127.0.0.1:{port}", "--of", self.at("etc"), "--in", str(AHEAD))
            start = plans.content_in(self.at("second")).plan.start
            shutil.copytree(self.at("second", "D"), self.at("etc", "D"))
            self.doors["D"] = f"127.0.0.1:{door}"
            self.start("D")
            for name in ("A", "C"):
                run(self, "succeed", self.at("second"), "--folder", self.at(name))
            self.signed_after(start + 1)
            self.wait(lambda: self.is_complete("D") and self.is_complete("C"))
            self.see_pause()
            self.kill("A")
            self.wait(lambda: self.status("C")["machines"]["A"] == "away")
            self.signed_after(max(it for _, it in self.seconds))
            self.start("A")
            self.wait(lambda: self.is_complete("A"))
            self.start("B")
            self.assertEqual(self.running.pop("B").wait(60), 3)
        self.assertEqual(self.failed, [])
        self.assertIn("this machine has no part in the next one", self.log("B"))
        self.assertEqual(self.stop_all(), {name: 0 for name in ("A", "C", "D")})
        for name in nodes:
            self.assertEqual(self.lines_after(name, (), start - 1), [])
        self.assertEqual(json.loads(files.content_of(self.at("D", "retirements"))), ["A", "C"])


