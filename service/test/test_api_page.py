"""docs/API.md: its commands run against a service and give the statuses that it shows, and its table has each code."""
import json
import os
import re
import shutil
import subprocess
import time
import unittest

import stands
from ksi_service.answers import PROBLEMS
from served import Served

PAGE = os.path.join(os.path.dirname(os.path.dirname(stands.HERE)), "docs", "API.md")


def page():
    with open(PAGE, encoding="utf-8") as file:
        return file.read()


def commands():
    """The commands, each with its status and perhaps a code."""
    return re.findall(r"(?m)^    ((?:curl|sha256sum) .*?) +# (\d{3})(?: ([a-z-]+))?$", page())


class PageTest(unittest.TestCase):
    def test_the_table_has_each_code_with_its_status(self):
        stated = {}
        for codes, statuses in re.findall(r"(?m)^\| (`[^|]*`) \| ([0-9, ]+) \|", page()):
            codes, statuses = re.findall("`([a-z-]+)`", codes), [int(it) for it in statuses.split(", ")]
            stated.update(zip(codes, statuses * len(codes) if len(statuses) == 1 else statuses))
        self.assertEqual(stated, {code: it.status.value for code, it in PROBLEMS.items()})

    def test_each_command_of_the_page_is_run(self):
        self.assertEqual(len(commands()), len(re.findall(r"(?m)^    .*\bcurl ", page())))
        self.assertGreater(len(commands()), 12)


@unittest.skipUnless(shutil.which("curl"), "curl is not here")
@unittest.skipUnless(shutil.which("xxd"), "xxd is not here")
class CommandsTest(Served):
    def test_the_commands_give_their_statuses(self):
        self.start()
        for name in ("FILE", "OTHER"):
            self.file(name, f"the content of {name}")
        self.wait_for_publication(int(time.time()))
        for command, status, code in commands():
            if "/v1/extensions" in command:
                self.wait_for_publication(int(time.time()))
            words = command.replace("127.0.0.1:8080", self.door()[0]).replace("curl -s", "curl -s -w '\\n%{http_code}'")
            told = subprocess.run(["bash", "-c", words], cwd=self.room.name, capture_output=True, text=True, check=False, env={**self.outside, "KEY": "any"}, timeout=120)
            content, _, found = told.stdout.rpartition("\n")
            self.assertEqual((told.returncode, found), (0, status), (command, told.stdout, told.stderr))
            if code:
                self.assertEqual(json.loads(content)["code"], code, command)
        self.command("stop")


if __name__ == "__main__":
    unittest.main()
