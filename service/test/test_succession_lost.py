"""A majority of the machines is lost: another plan follows after what is left was asked, and says so."""
import asyncio
import os
import threading
import time
from http.server import BaseHTTPRequestHandler, ThreadingHTTPServer
from types import SimpleNamespace

from mirrored import Mirrored, Service
from several import Several
from test_book import run
from test_succession import given
from test_succession_machines import PARENTS, NextMachines, next_plan, rows
from ksi_service import asking, command_succeed, files, lost, plans
from ksi_service.asking import Questions
from ksi_service.book import book_of
from ksi_service.command_words import Failed
from ksi_service.earlier import earlier_plans
from ksi_service.elements import notes_in, publications_file, published_in
from ksi_service.messages import last_second_to_core
from ksi_service.newest import line_of
from ksi_service.places import Places
from ksi_service.plan import Plan
from ksi_service.plans import Before, Content
from ksi_service.publishing import Publishing
from ksi_service.succession import BEGUN, NoPart, NotRetired

NEW = {"A": ("c0", "a0"), "D": ("c1", "a1"), "E": ("c2", "a2")}


class LostTest(Several):
    async def succeed(self, machines, content, names, printed):
        """Runs the command's question at machine A. Returns the answer."""
        host = machines.hosts["A"]
        way = Before(host.succession.content, host.succession.origin, tuple(names), printed)
        words = [content.plan.text(), content.machines, way.text()]
        questions = Questions(host, machines.publishings["A"])
        questions.is_waiting = not host.may_begin()
        return (await questions.answer(["succeed", *(it.encode().hex() for it in words)]))[0]

    def test_a_majority_is_lost(self):
        async def work(machines):
            host = machines.hosts["A"]
            await machines.sign("A", "B", "C", count=3)
            await machines.until(lambda: machines.publishings["A"].publications.last())
            content = next_plan(int(time.time()) + 8, NEW)
            printed = line_of(*machines.publishings["A"].publications.published[-1])
            for names, reason in ((("B", "C"), "B C answers: it is not lost"), (("C",), "have a majority of the cores"), (("A", "C"), "A is this machine"), (("B", "X"), "X is no machine of this plan")):
                self.assertIn(reason, await self.succeed(machines, content, names, printed))
            await machines.crash("B", "C")
            await machines.until(lambda: not any(it.is_there for it in host.peers.values()))
            # it was started again, and waits for a majority
            await machines.crash("A")
            host = machines.hosts["A"] = machines.host("A")
            await host.start()
            machines.publishings["A"] = Publishing(host, host.folder, 2)
            await machines.until(lambda: all(it.alive for it in host.nodes.values()))
            self.assertIn("waits for others", await self.succeed(machines, content, (), ""))
            self.assertIn("have a majority of the cores", await self.succeed(machines, content, ("B",), printed))
            self.assertIn("B C has a part in the next plan", await self.succeed(machines, next_plan(int(time.time()) + 60), ("B", "C"), printed))
            # an older print, and another root of the last second
            said = await self.succeed(machines, content, ("B", "C"), f"second {host.plan.start}, root {'12' * 32}")
            known = lost.held_to(host)
            self.assertRegex(said, f"know all seconds to {known}: print `second {known}, root [0-9a-f]{{64}}`, and give that line")
            printed = said.split("`")[1]
            for wrong, reason in ((f"second {known}, root {'12' * 32}", "print `second"), ("none", "is no print"), (f"second {host.plan.start - 1}, root {'12' * 32}", "is not one of this plan")):
                self.assertIn(reason, await self.succeed(machines, content, ("B", "C"), wrong))
            self.assertIsNone(host.record.state.retired)
            self.assertTrue((await self.succeed(machines, content, ("B", "C"), printed)).startswith("retired "))
            # what it knows is published, for mirrors
            self.assertEqual(line_of(*machines.publishings["A"].publications.published[-1]), printed)
            folders = {"A": await asyncio.wait_for(host.succession.over, 60), "D": os.path.join(self.folder, "D"), "E": os.path.join(self.folder, "E")}
            way = Before.read(folders["A"])
            self.assertEqual((way.lost, way.printed), (("B", "C"), printed))
            for name in "DE":
                plans.write_folder(folders[name], content, way)
            await machines.stop("A")
            following = NextMachines(machines, content, folders)
            try:
                await following.start("A", "D", "E")
                await following.sign("A", "D", "E", count=4, first=10)
                for it in following.hosts.values():
                    self.assertIn(f"{BEGUN}: B C lost after the print of {printed}", it.succession.counters()["begun"])
                await self.see_return(machines)
            finally:
                await following.end()
            self.see_book(folders["A"], printed)
            return content.plan.start - 1
        last = self.play(work, publish_every=2)
        for name in "ABC":
            self.assertEqual([it for it in given(os.path.join(self.folder, name)) if last_second_to_core(it) > last], [])

    async def see_return(self, machines):
        """A lost machine that comes back ends, and needs a person."""
        host = machines.hosts["B"] = machines.host("B")
        with self.assertRaisesRegex(NoPart, "named as lost"):
            await asyncio.wait_for(host.begin(), 60)
        self.assertEqual(NoPart.status, 3)

    def see_book(self, folder, printed):
        """The book says how the plan after began."""
        earlier, = earlier_plans(folder)
        book = book_of([earlier])
        self.assertEqual(line_of(*published_in(book)[0]), printed)
        self.assertEqual(notes_in(book), {earlier.record[0]: f"{BEGUN}: B C lost"})

    def test_a_machine_that_is_neither_lost_nor_there(self):
        nodes = {name: (f"c{number}",) for number, name in enumerate("ABCDE")}
        old, new = (Content.of(Plan(5, start, ("c0",)).text(), rows({**nodes, "A": ("c0", "a0")})) for start in (1000, 2000))
        peers = {name: SimpleNamespace(name=name, is_there=False) for name in "BCDE"}
        host = SimpleNamespace(places=Places("A", old.addresses, old.nodes), plan=old.plan, peers=peers, carrier=None)
        new = Content.of(new.plan.text(), rows({"A": ("c0", "a0"), "B": ("c1",), "F": ("c2", "c3", "c4")}))
        with self.assertRaisesRegex(NotRetired, "^B does not answer, and is not named as lost"):
            lost.see_machines(host, Before(old, "", ("C", "D", "E")), new)
        peers["B"].is_there = True
        lost.see_machines(host, Before(old, "", ("C", "D", "E")), new)
        peers["B"].is_there = False
        host.carrier = SimpleNamespace(reachable=lambda: ["B", "D"])
        with self.assertRaisesRegex(NotRetired, "^D answers: it is not lost"):
            lost.see_machines(host, Before(old, "", ("C", "D", "E")), new)

    def test_the_socket_of_a_host_that_waits(self):
        async def work():
            questions = Questions(SimpleNamespace(folder=self.folder, cores={}, plan=Plan(1, 7, ("c0",))))

            def ask(line):
                with command_succeed.running(self.folder) as service:
                    return service.told(line)
            found = []
            for is_waiting in (True, False):
                await questions.begin(is_waiting)
                said = [await asyncio.to_thread(ask, line) for line in ("second", "c0 held 7 1")]
                found.append((asking.answers(self.folder), *said))
            await questions.stop()
            return found
        self.assertEqual(asyncio.run(work()), [(False, asking.WAITS, asking.WAITS), (True, ["6"], ["refused word"])])
        self.assertEqual([it for it in os.listdir(self.folder) if it.startswith("questions")], [])

    def test_other_ways_give_other_names(self):
        content = Content.of(Plan(3, 1000, PARENTS).text(), rows(NEW))
        ways = [Before(content, ""), Before(content, "", ("B", "C"), "second 9"), Before(content, "", ("B", "C"), "second 8"), Before(content, "", ("B",), "second 9"), Before(content, "", alone="A")]
        self.assertEqual(len({it.origin for it in ways}), len(ways))
        self.assertEqual([Before.parsed(it.text()) for it in ways], ways)
        self.assertEqual([it.is_over({"A", "D"}) for it in ways[:2]], [True, False])
        self.assertTrue(Before(content, "", ("D", "E"), "second 9").is_over({"A"}))


class AskedTest(Mirrored):
    """The command asks doors and mirrors, and writes how the plan follows into its folder."""

    def setUp(self):
        super().setUp()
        self.one = self.service(Service()).grow(9).publish()
        self.printed = line_of(*self.one.publications[-1])
        old = Content.of(Plan(3, 1000, PARENTS).text(), rows(NEW))
        plans.write_folder(self.at("next"), old, Before(old, ""))
        plans.write_folder(self.at("next", "D"), old, Before(old, ""))

    def words(self, *names, printed="", ask=()):
        class Words:
            next = self.at("next")
        Words.lost, Words.print, Words.ask = list(names), printed or self.printed, list(ask)
        return Words

    def asked(self, *names, **options):
        return Before.parsed(command_succeed.without_majority(self.words(*names, **options), files.content_of(self.at("next", "succeeds"))).decode())

    def test_what_doors_and_mirrors_know(self):
        self.assertEqual(self.asked("C", "B", ask=[self.one.url]).lost, ("B", "C"))
        empty = self.service(Service())
        self.assertEqual(self.asked("B", "C", ask=[empty.url, self.one.url]).printed, self.printed)
        self.one.grow(1).publish()
        with self.assertRaisesRegex(NotRetired, f"another publication than the print: `second {self.one.next - 1}, root"):
            self.asked("B", "C", ask=[self.one.url])
        with self.assertRaisesRegex(NotRetired, "another publication than the print"):
            self.asked("B", "C", printed=f"second {self.one.next - 1}, root {'12' * 32}", ask=[self.one.url])
        self.one.end()
        with self.assertRaisesRegex(NotRetired, "Leave it out only if it is lost"):
            self.asked("B", "C", ask=[self.one.url])

    def test_the_door_of_a_lost_machine(self):
        class Door(BaseHTTPRequestHandler):
            def do_GET(self):
                self.send_response(200)
                self.end_headers()
                self.wfile.write(b'{"machine": "B"}')

            def log_message(self, *_):
                pass
        server = ThreadingHTTPServer(("127.0.0.1", 0), Door)
        threading.Thread(target=server.serve_forever, args=(0.05,), daemon=True).start()
        self.addCleanup(server.server_close)
        self.addCleanup(server.shutdown)
        with self.assertRaisesRegex(NotRetired, "is the door of B, which is not lost"):
            self.asked("B", "C", ask=[f"http://127.0.0.1:{server.server_address[1]}"])

    def test_words_and_files(self):
        for words, reason in ((["--lost", "B", "C"], "needs both"), (["--print", self.printed], "needs both")):
            self.assertIn(reason, run(self, "succeed", self.at("next"), "--folder", self.at("data"), *words, status=1))
        way = self.asked("B", "C")
        command_succeed.keep_way(self.at("next"), way.text().encode())
        self.assertEqual([Before.read(self.at(*names)) for names in (["next"], ["next", "D"])], [way, way])
        self.assertEqual(self.asked("B", "C"), way)
        with self.assertRaisesRegex(Failed, "another plan needs another folder"):
            self.asked("B", "D")
        os.remove(self.at("next", "succeeds"))
        with self.assertRaisesRegex(Failed, "no such file"):
            command_succeed.without_majority(self.words("B", "C"), None)
        self.assertEqual(notes_in(publications_file([(5, "12" * 32), (6, "34" * 32)], {6: "a note"})), {6: "a note"})
