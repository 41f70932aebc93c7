"""What is in deploy/: each command of a unit or a container is one of ksi-service."""
import os
import re
import shlex
import shutil
import subprocess
import tempfile
import unittest

import stands
from ksi_service import files, machines, metrics, mirror_metrics
from ksi_service.command import parser_of
from ksi_service.fetching import Server
from ksi_service.source import STATES, Source

DEPLOY = os.path.join(os.path.dirname(stands.HERE), "deploy")
UNIT, MIRROR, CHECK = "ksi-service.service", "ksi-mirror.service", "ksi-check.service"


def content_of(name):
    with open(os.path.join(DEPLOY, name), encoding="utf-8") as file:
        return file.read()


class DeployTest(unittest.TestCase):
    def test_the_unit_runs_the_command(self):
        command = re.search(r"(?m)^ExecStart=@PREFIX@/bin/ksi-service (.*)$", content_of(UNIT))[1]
        words = parser_of().parse_args(shlex.split(command))
        self.assertEqual((words.command, words.folder), ("run", "/var/lib/ksi/data"))
        self.assertIn("StateDirectory=ksi-identity ksi\n", content_of(UNIT))
        self.assertTrue(content_of("ksi.sysusers").startswith("u ksi "))

    @unittest.skipUnless(shutil.which("systemd-analyze"), "systemd-analyze is not here, so the unit is not looked at")
    def test_the_unit_is_as_systemd_takes_it_and_closed(self):
        """By its own measure, which calls 3.0 of 10 and less closed: a program that was broken into reaches little else."""
        for unit in (UNIT, MIRROR, CHECK):
            with self.subTest(unit), tempfile.TemporaryDirectory() as room:
                path = os.path.join(room, unit)
                files.write(path, content_of(unit).replace("@PREFIX@/bin/ksi-service", "/bin/true").encode())
                for words in (["verify", "--man=no"], ["security", "--offline=yes", "--threshold=30"]):
                    told = subprocess.run(["systemd-analyze", "--no-pager", *words, path], capture_output=True, text=True, check=False)
                    self.assertEqual((told.returncode, told.stderr), (0, ""), told.stdout[-200:])

    def test_the_unit_of_a_mirror_runs_the_command(self):
        command = re.search(r"(?m)^ExecStart=@PREFIX@/bin/ksi-service (.*)$", content_of(MIRROR))[1]
        given = command.replace("$KSI_MIRROR_OF", "http://a:8080 http://b:8080").replace("$KSI_MIRROR_WORDS", "--also http://c:8081")
        words = parser_of().parse_args(shlex.split(given))
        self.assertEqual((words.command, words.url, words.folder, words.also), ("mirror", ["http://a:8080", "http://b:8080"], "/var/lib/ksi-mirror", ["http://c:8081"]))
        self.assertIn("StateDirectory=ksi-mirror\n", content_of(MIRROR))

    def test_the_unit_of_a_check_runs_the_command_and_has_its_timer(self):
        command = re.search(r"(?m)^ExecStart=@PREFIX@/bin/ksi-service (.*)$", content_of(CHECK))[1]
        words = parser_of().parse_args(shlex.split(command))
        self.assertEqual((words.command, words.folder, words.hour), ("check", ["/var/lib/ksi/data"], "new"))
        self.assertIn("[Timer]\n", content_of(CHECK.replace(".service", ".timer")))

    def test_alerts_are_over_metrics_that_are_there(self):
        try:
            import yaml
        except ImportError:
            self.skipTest("python3-yaml is not here, so the alert rules are not read")
        rules = [rule for group in yaml.safe_load(content_of("ksi-alerts.yaml"))["groups"] for rule in group["rules"]]
        counters = {name: 0 for name in [*metrics.TELLS, *mirror_metrics.TELLS]}
        labelled = {name: {"B": 0} for name in metrics.LABELLED}
        counted = {"requests": {"/sign": {200: 1}}, **{name: metrics.Spans().told() for name in metrics.HISTOGRAMS}}
        text = metrics.prometheus({**counters, **labelled, **counted}) + mirror_metrics.prometheus({**counters, "looked": 0, "sources": [Source(Server("http://a"), True, "").told()]})
        for rule in rules:
            self.assertEqual(set(rule) - {"for"}, {"alert", "expr", "annotations"})
            for name in re.findall(r"ksi_\w+", rule["expr"]):
                self.assertRegex(text, rf"(?m)^{name}[ {{]", rule["alert"])
            for state in re.findall(r'state="(\w+)"', rule["expr"]):
                self.assertIn(state, STATES)
        # Debian's package prometheus, which starts a service, has this program
        if shutil.which("promtool"):
            ran = subprocess.run(["promtool", "check", "rules", os.path.join(DEPLOY, "ksi-alerts.yaml")], capture_output=True, text=True, check=False)
            self.assertEqual(ran.returncode, 0, ran.stdout + ran.stderr)

    def test_the_unit_lets_the_host_read_the_clock_and_not_set_it(self):
        """The C library reads by clock_adjtime. A filter of ProtectClock is one more, and would refuse it."""
        lines = content_of(UNIT).splitlines()
        filters = [line.split("=", 1)[1] for line in lines if line.startswith("SystemCallFilter=")]
        self.assertEqual(filters[-1], "adjtimex clock_adjtime")
        self.assertIn("CapabilityBoundingSet=", lines)
        self.assertNotIn("ProtectClock=yes", lines)

    def test_containers_run_the_command(self):
        try:
            import yaml
        except ImportError:
            self.skipTest("python3-yaml is not here, so the compose file is not read")
        services = yaml.safe_load(content_of("compose.yaml"))["services"]
        self.assertEqual(set(services), {"a", "b", "c"})
        for name, it in services.items():
            words = parser_of().parse_args(shlex.split(it["command"]))
            self.assertEqual((words.command, words.folder), ("run", "/var/lib/ksi/data"), name)
            # whoever reaches a published port may use the door, so the ports are those of this computer alone
            self.assertTrue(words.open_door)
            self.assertTrue(all(port.startswith("127.0.0.1:") for port in it["ports"]))
            self.assertEqual(it["build"], ".")
            self.assertEqual(it["volumes"], [f"{name}:/var/lib/ksi", f"{name}-identity:/var/lib/ksi-identity", f"./made/{name.upper()}:/etc/ksi:ro"])
            self.assertEqual(it["environment"], {"KSI_MACHINES": "/etc/ksi/machines", "STATE_DIRECTORY": "/var/lib/ksi-identity"})

    def test_the_plan_of_the_compose_file_can_be_made(self):
        """By the command of its first lines."""
        words = re.search(r"(?m)^#   ../ksi-service plan made (.*)$", content_of("compose.yaml"))[1].split()
        made = [machines.machine_of(word) for word in words]
        self.assertEqual(([it.name for it in made], machines.plan_of(made).cores), (["A", "B", "C"], 3))


if __name__ == "__main__":
    unittest.main()
