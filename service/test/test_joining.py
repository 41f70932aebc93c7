"""A machine that is one of several: the files that it needs."""
import os
import shutil
import subprocess
import sys
import tempfile
import unittest
from unittest import mock

import stands
from ksi_service import certificates, joining, machines
from ksi_service.certificates import NotCertified
from ksi_service.joining import NotJoined, OtherPlan, Words
from ksi_service.plan import Plan


@unittest.skipUnless(shutil.which("openssl"), "openssl is not here, so no machine has a certificate")
class JoiningTest(unittest.TestCase):
    def setUp(self):
        room = tempfile.TemporaryDirectory()
        self.addCleanup(room.cleanup)
        self.at = lambda *names: os.path.join(room.name, *names)
        made = [machines.machine_of(word) for word in ("A=10.0.0.1:7443:c0,a0", "B=10.0.0.2:7443:c1", "C=10.0.0.3:7443:c2")]
        machines.write(self.at("etc"), made, machines.plan_of(made))
        certificates.make_all(self.at("made"), ["A", "B"])
        self.bring("A/A.crt", "A/A.key", "authority.crt")
        self.words = Words(self.at("etc", "machines"))

    def bring(self, *names):
        for name in names:
            shutil.copy(self.at("made", name), self.at("etc", os.path.basename(name)))

    def test_a_machine_is_known_by_its_only_certificate(self):
        self.assertEqual(joining.credentials_of(self.words), tuple(self.at("etc", it) for it in ("A.crt", "A.key", "authority.crt")))
        self.bring("B/B.crt")
        self.assertEqual(joining.certificate_of(self.words), self.at("etc", "A.crt"))
        self.bring("B/B.key")
        with self.assertRaisesRegex(NotJoined, "2 certificates with a key"):
            joining.certificate_of(self.words)
        named = self.words._replace(certificate=self.at("made", "B", "B.crt"))
        self.assertEqual(joining.credentials_of(named), (self.at("made", "B", "B.crt"), self.at("made", "B", "B.key"), self.at("etc", "authority.crt")))
        with self.assertRaisesRegex(NotCertified, "no such file"):
            joining.maker(self.words._replace(certificate=self.at("none.crt")))

    def test_a_missing_package_is_one_sentence_with_its_name(self):
        """As a Python of one's own may lack what Debian's has."""
        for package, words in (("aiohttp", []), ("redis", ["--machine", "A", "--over", "redis://127.0.0.1:1"])):
            program = f"import sys; sys.modules['{package}'] = None; from ksi_service.command import main; sys.exit(main(sys.argv[1:]))"
            run = [sys.executable, "-c", program, "run", self.at("data"), "--machines", self.at("etc", "machines"), *words]
            environment = {**os.environ, "KSI_BIN": stands.make(self.at("bin")), "PYTHONPATH": os.path.dirname(stands.HERE), "XDG_STATE_HOME": self.at("state")}
            told = subprocess.run(run, capture_output=True, text=True, env=environment, timeout=60, check=False)
            self.assertEqual((told.returncode, told.stderr), (1, f"ksi-service: {sys.executable} has no python3-{package}: apt-get install python3-{package} adds it to /usr/bin/python3\n"))

    def test_debians_python_is_used_if_this_one_lacks_a_package(self):
        """As somebody's own Python that comes first on the PATH."""
        for own, here, argument, has, is_used in ((True, True, __file__, 0, True), (False, True, __file__, 0, False), (True, False, __file__, 0, False), (True, True, "-c", 0, False),
                                                  (True, True, __file__, 1, False)):
            with mock.patch.object(joining.importlib.util, "find_spec", lambda _: None if here else "it"), mock.patch.object(joining.os, "execv") as used, \
                    mock.patch.object(joining.sys, "executable", "/opt/own/python3" if own else joining.DEBIANS), mock.patch.object(joining.sys, "argv", [argument, "run"]), \
                    mock.patch.object(joining.subprocess, "run", lambda *_, **__: mock.Mock(returncode=has)), mock.patch.object(joining.os.path, "exists", lambda _: True):
                joining.use_python_with("aiohttp")
            self.assertEqual([it.args for it in used.call_args_list], [(joining.DEBIANS, [joining.DEBIANS, argument, "run"])] if is_used else [])

    def test_the_plan_is_taken_once(self):
        folder = self.at("data")
        joining.take_plan(self.words, folder)
        joining.take_plan(self.words, folder)
        plan = Plan.read(os.path.join(folder, "plan"))
        self.assertEqual((plan.cores, plan.parents), (3, ("c0",)))
        os.remove(self.at("etc", "plan"))
        joining.take_plan(self.words, folder)
        with self.assertRaisesRegex(NotJoined, "no such file"):
            joining.take_plan(self.words, self.at("other"))
        with open(self.at("etc", "plan"), "w", encoding="ascii") as file:
            file.write(Plan(3, 9, ("c1",)).text())
        with self.assertRaisesRegex(OtherPlan, "another plan"):
            joining.take_plan(self.words, folder)


if __name__ == "__main__":
    unittest.main()
