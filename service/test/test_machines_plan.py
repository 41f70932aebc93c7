"""The plan of several machines, by words."""
import os
import shutil
import tempfile
import time
import unittest

from ksi_service import certificates, files, machines
from ksi_service.command import main
from ksi_service.plan import Odd, Plan
from ksi_service.plans import Before, NotNext, content_in, name_of


class MachinesPlanTest(unittest.TestCase):
    def planned(self, *words, parents=None):
        made = [machines.machine_of(word) for word in words]
        return machines.plan_of(made, parents, 7)

    def test_an_aggregator_submits_to_a_core_of_its_machine(self):
        plan = self.planned("A=10.0.0.1:7443:c0,a1", "B=b.example:7443:c1,c2,a0,a2", "C=[fd00::1]:7443:a3", "D=10.0.0.4:7443")
        self.assertEqual(plan, Plan(3, 7, ("c1", "c0", "c1", "c0")))

    def test_parents_that_are_asked_for(self):
        self.assertEqual(self.planned("A=h:1:c0,a0", "B=h:2:a1", parents="c0,a0"), Plan(1, 7, ("c0", "a0")))

    def test_words_that_make_no_plan(self):
        for words, reason in ((["A"], "NAME=HOST:PORT:NODES"), (["A=h:0:c0,a0"], "NAME=HOST"), (["A=h:70000:c0,a0"], "NAME=HOST"), (["1=h:1:c0,a0"], "machine's name"), (["A B=h:1:c0"], "machine's name"),
                              (["A=h:1:c0,x"], "'x' is not a node"), (["A=h:1:c0,c00,a0"], "'c00' is not a node"), (["A=h:1:c0,a0", "a=h:2:c1"], "name and an address"),
                              (["A=h:1:c0,a0", "B=h:1:c1"], "name and an address"), (["A=h:1:c0,a0", "B=h:2:c0"], "without a gap"), (["A=h:1:c1,a0"], "without a gap"),
                              (["A=h:1:c0,a1"], "without a gap"), (["A=h:1:c0"], "an aggregator at least"), (["A=h:1:a0"], "1 to 9 cores"),
                              ([f"A=h:1:a0,{','.join(f'c{it}' for it in range(10))}"], "1 to 9 cores")):
            with self.assertRaisesRegex(machines.NotPlanned, reason):
                self.planned(*words)
        with self.assertRaisesRegex(machines.NotPlanned, "2 parents are given"):
            self.planned("A=h:1:c0,a0", parents="c0,c0")
        with self.assertRaisesRegex(Odd, "submits to"):
            self.planned("A=h:1:c0,a0", parents="c1")

    def test_files_are_written_once(self):
        with tempfile.TemporaryDirectory() as room:
            out = os.path.join(room, "out")
            words = ["plan", out, "B=10.0.0.2:7443:c1,a1", "A=10.0.0.1:7443:c0,a0", "C=10.0.0.3:7443:c2"]
            self.assertEqual((main(words), main(words)), (0, 1))
            plan = Plan.read(os.path.join(out, "plan"))
            self.assertEqual((plan.cores, plan.parents), (3, ("c0", "c1")))
            with open(os.path.join(out, "machines"), encoding="ascii") as file:
                self.assertEqual(file.read(), "machine A 10.0.0.1:7443 c0 a0\nmachine B 10.0.0.2:7443 c1 a1\nmachine C 10.0.0.3:7443 c2\n")
            self.assertEqual(machines.names_in(os.path.join(out, "machines")), ["A", "B", "C"])

    def test_a_plan_that_begins_later_and_succeeds_another(self):
        with tempfile.TemporaryDirectory() as room:
            first, second, third = (os.path.join(room, name) for name in "123")
            now = int(time.time())
            self.assertEqual(main(["plan", first, "--cores", "1", "--parents", "1"]), 0)
            self.assertEqual(main(["plan", second, "--in", "600", "--of", first]), 0)
            self.assertEqual(main(["plan", third, "--in", "900", "--of", second]), 0)
            self.assertEqual(main(["plan", third, "--in", "900", "--of", second]), 1)
            self.assertEqual((Plan.read(os.path.join(first, "plan")).parents, Plan.read(os.path.join(second, "plan")).cores), (("c0",), 3))
            self.assertAlmostEqual(Plan.read(os.path.join(second, "plan")).start, now + 600, delta=60)
            self.assertEqual(Before.read(third).before, Before.read(second).name)
            self.assertIsNone(Before.read(first))
            files.write(os.path.join(second, "succeeds"), b"{}")
            with self.assertRaisesRegex(NotNext, "is damaged"):
                Before.read(second)

    @unittest.skipUnless(shutil.which("openssl"), "openssl is not here, so no machine has a certificate")
    def test_a_machine_takes_the_place_of_another(self):
        with tempfile.TemporaryDirectory() as room:
            made, out = os.path.join(room, "made"), os.path.join(room, "next")
            for words in (["plan", made, "A=h:1:c0,a1", "B=h:2:c1,a0,a2", "C=h:3:c2", "--parents", "c1,c0,a0"], ["certificates", made]):
                self.assertEqual(main(words), 0)
            for name, by in (("X", "D=h:4"), ("B", "A=h:4"), ("B", "B=h:4"), ("B", "D=h:4:c1"), ("B", "D=h:3")):
                self.assertEqual(main(["replace", name, out, "--by", by, "--of", made]), 1)
                self.assertFalse(os.path.exists(out))
            self.assertEqual(main(["replace", "B", out, "--by", "D=h:4", "--of", made, "--in", "50"]), 0)
            found, old = content_in(out), content_in(made)
            self.assertEqual(found.nodes, {"A": ("c0", "a1"), "C": ("c2",), "D": ("c1", "a0", "a2")})
            self.assertEqual((found.plan.parents, Before.read(out).name), (old.plan.parents, name_of(old.plan, old.nodes, "")))
            self.assertEqual(sorted(os.listdir(os.path.join(out, "D"))), ["D.crt", "D.key", "authority.crt", "machines", "plan", "succeeds"])
            certificates.openssl("verify", "-CAfile", os.path.join(made, "authority.crt"), os.path.join(out, "D", "D.crt"))

    @unittest.skipUnless(shutil.which("openssl"), "openssl is not here, so no machine has a certificate")
    def test_each_machine_has_a_folder_with_all_that_it_needs(self):
        with tempfile.TemporaryDirectory() as room:
            self.assertEqual(main(["certificates", room]), 1)
            for words in (["plan", room, "A=h:1:c0,a0", "B=h:2:c1"], ["certificates", room]):
                self.assertEqual(main(words), 0)
            for name in "AB":
                self.assertEqual(sorted(os.listdir(os.path.join(room, name))), [f"{name}.crt", f"{name}.key", "authority.crt", "machines", "plan"])


if __name__ == "__main__":
    unittest.main()
