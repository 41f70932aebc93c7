"""Gateways in a plan and in the file of machines, their requests to sign, and what spare aggregators cost."""
import asyncio
import os
import shutil
import tempfile
import time
import tracemalloc
import unittest

from carried import Wire
from hosted import Hosted
from ksi_service import certificates, files, gateways, machines
from ksi_service.command import main
from ksi_service.gateways import NotAdded
from ksi_service.host import Host
from ksi_service.hours import Broken
from ksi_service.places import Places, is_gateway, text_for
from ksi_service.plan import Odd, Plan
from ksi_service.plans import Content, content_in, name_of

THREE = ("A=10.0.0.1:7443:c0,a0", "B=10.0.0.2:7443:c1,a1", "C=10.0.0.3:7443:c2,a2")
NODES = {"A": ("c0", "a0"), "B": ("c1", "a1"), "C": ("c2", "a2")}
PLAN = Plan(3, 7, ("c0", "c1", "c2"))


class PlanTest(unittest.TestCase):
    def setUp(self):
        self.room = tempfile.TemporaryDirectory()
        self.addCleanup(self.room.cleanup)
        self.made = self.at("made")

    def at(self, *names):
        return os.path.join(self.room.name, *names)

    def rows(self):
        return gateways.Rows(os.path.join(self.made, "machines"))

    def command(self, *words, status=0):
        self.assertEqual(main(list(words)), status)

    def plan(self, *words):
        self.command("plan", self.made, *THREE, *words)

    def gateway(self, *words, status=0):
        self.command("gateway", *words, "--machines", os.path.join(self.made, "machines"), status=status)

    def test_where_gateways_are(self):
        """Below an aggregator of each core's machine; a core without aggregators has none."""
        laid = gateways.lay_out(PLAN, NODES, ["riga", "oslo"], 2)
        self.assertEqual(laid.plan.parents, ("c0", "c1", "c2") + ("a0", "a1", "a2") * 4)
        self.assertEqual(laid.nodes, {"riga": ("a3", "a4", "a5"), "oslo": ("a6", "a7", "a8")})
        self.assertEqual(gateways.seats_of({"A": ("c0", "a1"), "B": ("c1",), "C": ("c2", "a0", "a2")}, Plan(3, 7, ("c0", "c0", "c2"))), ["a1", "a2"])
        with self.assertRaisesRegex(NotAdded, "there are none"):
            gateways.lay_out(PLAN, {"A": ("c0",), "D": ("a0", "a1", "a2")}, ["riga"], 0)

    def test_names_of_gateways(self):
        """They are in the plan's file, which is then of version 2, and in plans that follow."""
        self.plan("--gateway", "riga=10.0.0.9:7443", "--spares", "1", "--named")
        plan = Plan.read(os.path.join(self.made, "plan"))
        self.assertEqual(plan.labels, ("", "", "", "riga", "riga", "riga", "", "", ""))
        self.assertEqual(plan.text().splitlines()[0], "ksi-schedule 2")
        self.assertEqual(plan.text().splitlines()[6], "aggregator 3 parent a0 name riga")
        self.assertEqual((Content.of(plan.text(), "".join(f"machine {it} {it}:1 {' '.join(its)}\n" for it, its in NODES.items())).plan), plan)
        self.assertEqual(gateways.lay_out(PLAN, NODES, ["riga"], 1).plan.text().splitlines()[0], "ksi-schedule 1")
        for end in (" name", " name a b", " name a/b", f" name {'a' * 65}", " nam a"):
            with self.assertRaises(Broken):
                Plan.parsed(plan.text().replace(" name riga", end, 1), "the plan")

    def test_the_most_gateways(self):
        """4,096 aggregators, three of them on the cores' machines: 1,364 gateways."""
        self.assertEqual(len(gateways.lay_out(PLAN, NODES, [], 1364).plan.parents), 4095)
        with self.assertRaises(Odd):
            gateways.lay_out(PLAN, NODES, [], 1365)

    def test_a_plan_with_gateways_and_spares(self):
        self.plan("--gateway", "riga=10.0.0.9:7443", "--spares", "1")
        self.assertEqual(files.content_of(os.path.join(self.made, "machines")).splitlines()[-1], b"machine riga 10.0.0.9:7443 a3 a4 a5")
        self.gateway("add", "oslo=10.0.0.10:7443")
        self.assertEqual(self.rows().gateways(), {"riga": ("a3", "a4", "a5"), "oslo": ("a6", "a7", "a8")})
        for word in ("rome=10.0.0.11:7443", "OSLO=10.0.0.12:7443", "bonn=10.0.0.10:7443", "bonn=10.0.0.12", "1=10.0.0.12:7443", "bonn=10.0.0.12:0"):
            self.gateway("add", word, status=1)
        for words in (["remove", "A"], ["remove", "rome"], ["add"], ["list", "x"]):
            self.gateway(*words, status=1)

    def test_aggregators_of_a_removed_gateway_are_not_given_again(self):
        """Another machine's log of the same aggregator would not be one history with the first one's."""
        self.plan("--gateway", "riga=10.0.0.9:7443", "--spares", "1")
        self.gateway("remove", "riga")
        self.gateway("add", "riga=10.0.0.9:7443")
        self.assertEqual(self.rows().gateways(), {"riga": ("a6", "a7", "a8")})
        self.assertIn(b"removed riga a3 a4 a5\n", files.content_of(os.path.join(self.made, "machines")))
        self.gateway("add", "oslo=10.0.0.10:7443", status=1)
        self.assertEqual(content_in(self.made).nodes["riga"], ("a6", "a7", "a8"))

    def test_gateways_are_no_part_of_a_plans_name(self):
        """They are added while it runs, and not on all machines at once."""
        plan = gateways.lay_out(PLAN, NODES, ["riga"], 0).plan
        names = {name_of(plan, nodes, "") for nodes in (NODES, {**NODES, "riga": ("a3", "a4", "a5")})}
        self.assertEqual(len(names), 1)
        self.assertNotEqual(names, {name_of(plan, {**NODES, "D": ()}, "")})

    def test_files_of_machines(self):
        plan = gateways.lay_out(PLAN, NODES, ["riga", "oslo"], 1).plan
        rows = [f"machine {name} {name}:1 {' '.join(its)}\n" for name, its in NODES.items()]
        content = Content.of(plan.text(), "".join([*rows, "machine riga r:1 a3 a4 a5\n", "removed oslo a6 a7 a8\n"]))
        self.assertEqual([it for it, its in content.nodes.items() if is_gateway(its)], ["riga"])
        for more in ("machine riga r:1 a3\nmachine oslo o:1 a3\n", "machine riga r:1 a99\n", "removed oslo c0\n"):
            with self.assertRaises(Exception):
                Content.of(plan.text(), "".join(rows) + more)
        with self.assertRaises(Exception):
            Content.of(plan.text(), "".join(rows[1:]))

    def test_a_gateways_file_has_no_other_gateways(self):
        self.plan("--gateway", "riga=10.0.0.9:7443", "--gateway", "oslo=10.0.0.10:7443")
        path = os.path.join(self.made, "machines")
        self.assertEqual([row.split()[1] for row in text_for(path, "riga").decode().splitlines()], ["A", "B", "C", "riga"])
        self.assertEqual(text_for(path, "A"), files.content_of(path))
        with self.assertRaises(Broken):
            Places.read(path, "rome", Plan.read(os.path.join(self.made, "plan")))
        places = Places.read(path, "riga", Plan.read(os.path.join(self.made, "plan")))
        self.assertEqual((places.is_gateway, places.neighbours(Plan.read(os.path.join(self.made, "plan")))), (True, ["A", "B", "C"]))

    @unittest.skipUnless(shutil.which("openssl"), "openssl is not here, so no machine has a certificate")
    def test_a_certificate_by_a_request(self):
        self.plan("--gateway", "riga=10.0.0.9:7443")
        self.command("certificates", self.made)
        self.assertEqual(sorted(it for it in os.listdir(self.made) if os.path.isdir(os.path.join(self.made, it))), ["A", "B", "C"])
        there = self.at("there")
        self.command("certificates", there, "riga", "--request")
        self.assertEqual((sorted(os.listdir(there)), os.stat(os.path.join(there, "riga.key")).st_mode & 0o077), (["riga.csr", "riga.key"], 0))
        self.command("certificates", there, "riga", "--request", status=1)
        # a request that asks for more than its name
        wider = self.at("wider.csr")
        certificates.openssl("req", "-new", "-key", os.path.join(there, "riga.key"), "-subj", "/CN=riga", "-addext", "subjectAltName=DNS:A", "-addext", "basicConstraints=CA:TRUE", "-out", wider)
        other = certificates.make_request(self.at("other"), "A")
        for words in (["riga", "--sign", other], ["A", "--sign", other], ["riga", "--sign", self.at("none")], ["riga", "oslo", "--sign", wider], ["riga", "--sign", wider, "--request"]):
            self.command("certificates", self.made, *words, status=1)
        self.command("certificates", self.made, "riga", "--sign", wider)
        self.assertEqual(sorted(os.listdir(os.path.join(self.made, "riga"))), ["authority.crt", "machines", "plan", "riga.crt"])
        path = os.path.join(self.made, "riga", "riga.crt")
        text = certificates.openssl("x509", "-in", path, "-noout", "-text")
        self.assertIn("DNS:riga", text)
        self.assertNotIn("DNS:A", text)
        self.assertNotIn("CA:TRUE", text)
        certificates.openssl("verify", "-CAfile", os.path.join(self.made, "authority.crt"), path)


class SparesTest(Hosted):
    def test_what_a_spare_aggregator_costs(self):
        """Less than 1 KB of memory, no line, and no time in the turns of the desk."""
        def made(spares):
            plan = gateways.lay_out(Plan(3, int(time.time()), PLAN.parents), NODES, ["riga"], spares).plan
            folder = os.path.join(self.folder, f"with-{spares}")
            os.makedirs(folder)
            files.write(os.path.join(folder, "plan"), plan.text().encode())
            nodes = {**NODES, "riga": ("a3", "a4", "a5")}
            tracemalloc.start()
            host = Host(folder, plan, Places("A", {it: f"{it}:1" for it in nodes}, nodes), Wire().carrier("A"))
            size = tracemalloc.get_traced_memory()[0]
            tracemalloc.stop()
            began = time.process_time()
            for _ in range(20):
                host.desk.look()
            took = time.process_time() - began
            for peer in host.peers.values():
                peer.is_there = True
            return size, took, {name: len(str(host.heartbeat.message(peer))) for name, peer in host.peers.items()}

        async def work():
            return made(0), made(1363)
        (few, few_took, few_messages), (many, many_took, many_messages) = asyncio.run(work())
        self.assertLess((many - few) / (3 * 1363), 1000)
        for name, size in few_messages.items():
            # numbers have more or fewer digits
            self.assertAlmostEqual(size, many_messages[name], delta=40)
        self.assertLess(many_took, few_took + 0.1)


if __name__ == "__main__":
    unittest.main()
