"""A gateway over HTTPS, set up as docs/SERVICE.md says: a key that never leaves, a request that the operator signs, its own clients and
rates, its record checked and saved alone, and all folders as one history."""
import os
import shutil
import unittest
import urllib.error
import urllib.request

import stands
from machined import NODES, OverHttps, free_ports
from ksi_service import certificates, check, clients, files, machines
from ksi_service.command import main
from ksi_service.folders import Folders, NotOneRun

ALL = [*NODES, "riga"]


class GatewayTest(OverHttps):
    def setUp(self):
        super().setUp()
        shutil.rmtree(self.at("etc"))
        ports = free_ports(5)
        made = [machines.Machine(name, f"127.0.0.1:{port}", nodes) for (name, nodes), port in zip(NODES.items(), ports)]
        plan = machines.with_gateways(made, machines.plan_of(made), [], 2)
        machines.write(self.at("etc"), made, plan)
        certificates.make_all(self.at("etc"), list(NODES))
        self.address, self.doors["riga"] = f"127.0.0.1:{ports[3]}", f"127.0.0.1:{ports[4]}"

    def command(self, *words):
        self.assertEqual(main(list(words)), 0)

    def add(self):
        """What the operator and the gateway's own operator type."""
        self.command("certificates", self.at("riga-etc"), "riga", "--request")
        for folder in ("etc", *(os.path.join("etc", name) for name in NODES)):
            self.command("gateway", "add", f"riga={self.address}", "--machines", self.at(folder, "machines"))
        self.command("certificates", self.at("etc"), "riga", "--sign", self.at("riga-etc", "riga.csr"))
        self.assertFalse(os.path.exists(self.at("etc", "riga", "riga.key")))
        for name in os.listdir(self.at("etc", "riga")):
            shutil.copy(self.at("etc", "riga", name), self.at("riga-etc"))

    def options(self, name):
        return ["--machines", self.at("riga-etc", "machines") if name == "riga" else self.at("etc", name, "machines")]

    def ask(self, number, key):
        """The status of a request at the gateway's door, by a client's key."""
        request = urllib.request.Request(f"http://{self.doors['riga']}/sign", f"{number:064x}".encode(), {"Authorization": f"Bearer {key}"})
        try:
            with urllib.request.urlopen(request, timeout=70) as answer:
                return answer.status, answer.read()[:2] != b""
        except urllib.error.HTTPError as error:
            return error.code, False

    def test_a_gateway_is_added_and_signs(self):
        for name in NODES:
            self.start(name)
        self.wait(lambda: all(self.is_complete(name) for name in NODES))
        self.add()
        # without its rows no machine takes its connection: they read them within seconds
        files.make_folder(self.at("riga"))
        self.command("client", "add", "archive", "--folder", self.at("riga"), "--rate", "2")
        content = files.content_of(self.at("riga", "clients")).decode().split()
        self.assertEqual(content[0], "archive")
        self.start("riga")
        self.wait(lambda: self.status("riga")["ready"])
        self.assertEqual(self.ask(1, "no key"), (401, False))
        key = clients.add(self.at("riga", "clients"), "other", None)
        self.wait(lambda: self.ask(2, key) == (200, True))
        status = self.status("riga")
        self.assertEqual((status["machine"], set(status["machines"])), ("riga", {"A", "B"}))
        self.assertEqual(self.status("A")["gateways_dropped"], {"riga": 0})
        with urllib.request.urlopen(f"http://{self.doors['A']}/metrics", timeout=10) as answer:
            self.assertIn(b'ksi_gateway_dropped{gateway="riga"} 0', answer.read())
        self.command("backup", self.at("riga"), self.at("saved"))
        self.assertEqual(self.stop_all(), {name: 0 for name in ALL})
        self.assertTrue(os.path.exists(self.at("saved", "plan")))
        self.see_folders()

    def see_folders(self):
        """Each folder alone and all together, as far as stand-ins show it."""
        os.environ["KSI_BIN"] = stands.make_counting(self.at("bin"))
        self.addCleanup(os.environ.pop, "KSI_BIN")
        said = []
        paths = [self.at(name) for name in ALL]
        folders = Folders(paths)
        folders.see_all()
        self.assertEqual(folders.missing, ["a4", "a5"])
        with self.assertRaisesRegex(NotOneRun, "no folder has the facts of a"):
            Folders(paths[:3]).see_all()
        check.check(paths[3], say=said.append, by_node=True)
        self.assertIn("from other machines", " ".join(said))


if __name__ == "__main__":
    unittest.main()
