"""The commands of docs/howto, run as they are: those of users at a door without nodes, those of operators with the service."""
import os
import re
import shutil
import subprocess
import sys
import unittest

import signing
import stands
from ksi_service import files

PAGES = os.path.join(signing.TOP, "docs", "howto")
BLOCK = re.compile(r"(?ms)^```(sh|python)\n(.*?)^```$")
RUN_SECONDS = 300
LOGS = os.path.join(os.path.dirname(stands.COMMAND), "ksi-log")


def blocks(page):
    """The blocks of a page that are run, in order: their language and their text."""
    with open(os.path.join(PAGES, page), encoding="utf-8") as file:
        return BLOCK.findall(file.read())


class HowToTest(signing.Signed):
    """Each test has the files that its page speaks of. A publication follows each block."""

    def setUp(self):
        super().setUp()
        self.bin = self.at("bin")
        os.mkdir(self.bin)
        for name in ("ksi-service", "ksi-log"):
            path = os.path.join(os.path.dirname(stands.COMMAND), name)
            with open(os.path.join(self.bin, name), "w", encoding="utf-8") as file:
                file.write(f'#!/bin/sh\nexec {sys.executable} {path} "$@"\n')
            os.chmod(os.path.join(self.bin, name), 0o755)
        self.outside = {**os.environ, **signing.ENVIRONMENT, "PATH": f"{self.bin}:{os.environ['PATH']}", "KSI_SERVICE": self.at("none")}

    def write(self, name, content):
        os.makedirs(os.path.dirname(self.at(name)), exist_ok=True)
        files.write(self.at(name), content)

    def run_block(self, kind, text):
        text = text.replace("ksi.example.org:8080", self.url)
        words = ["bash", "-e", "-o", "pipefail", "-c", text] if kind == "sh" else [sys.executable, "-c", text]
        ran = subprocess.run(words, cwd=self.room, env=self.outside, capture_output=True, text=True, errors="replace", check=False, timeout=RUN_SECONDS)
        self.assertEqual(ran.returncode, 0, text + ran.stdout + ran.stderr)
        return ran.stdout

    def publish(self):
        second, root = self.house.publish() and self.house.listed[-1]
        self.write("print.txt", f"second {second}, root {root}\n".encode())

    def run_page(self, page):
        """Runs all blocks of a page. Returns what they print."""
        said = []
        for kind, text in blocks(page):
            said.append(self.run_block(kind, text))
            self.publish()
        self.assertTrue(said, page)
        return said

    def stand_ins_for_blocks(self):
        if stands.missing("ksi_blocks", "ksi"):
            for name in ("ksi_blocks", "ksi"):
                stands.make_program(self.bin, name, "stand_in_blocks.py")
            self.outside["KSI_BIN"] = self.bin

    def test_archivist(self):
        self.stand_ins_for_blocks()
        for name in ("archive/1996/deed.txt", "archive/1996/will.txt", "archive/1997/two words"):
            self.write(name, name.encode())
        said = []
        for kind, text in blocks("archivist.md"):
            if "print.txt" in text:
                # the publication of the list is that of the print
                second, root = self.house.listed[0]
                self.write("print.txt", f"{second} {root}".encode())
            said.append(self.run_block(kind, text))
            if len(self.house.listed) < 1 or "seal" in text:
                self.house.publish()
        self.assertIn("3 signed", said[0])
        self.assertIn("the print has the same publication", said[3])
        self.assertIn("as 1996/deed.txt of a sealed tree", said[-1])

    def test_registrar(self):
        said = self.run_page("registrar.md")
        self.assertEqual((said[0], self.house.requests), ("", [1000, 200]))
        self.assertIn("accepted", said[-1])

    def test_auditor(self):
        for name in ("deed.txt", "folder/deed.txt"):
            self.write(name, name.encode())
        self.run_block("sh", "ksi-service sign -r deed.txt folder --door ksi.example.org:8080")
        self.publish()
        self.run_block("sh", "ksi-service extend -r deed.txt folder --door ksi.example.org:8080; ksi-service publications --door ksi.example.org:8080; cp publications mirror-list")
        said = [self.run_block(kind, text) for kind, text in blocks("auditor.md")]
        self.assertIn("the print has the same publication", said[0])
        self.assertIn("mirror-list has the same publication", said[1])
        self.assertIn("1 accepted", said[2])

    @unittest.skipUnless(shutil.which("openssl"), "not tried: several machines, without openssl")
    def test_operator(self):
        if stands.missing("ksi", "ksi_serve"):
            stands.make(self.bin)
            self.outside["KSI_BIN"] = self.bin
        self.write("deed.txt", b"I owe you one.")
        self.outside["XDG_STATE_HOME"] = self.at("state")
        free = {port: str(number) for port, number in zip(re.findall(r"127\.0\.0\.1:(\d+)", "".join(text for _, text in blocks("operator.md"))), signing.free_ports(32))}
        self.addCleanup(self.stop_all)
        for kind, text in blocks("operator.md"):
            self.run_block(kind, re.sub(r"(?<=127\.0\.0\.1:)\d+", lambda it: free[it[0]], text))
        self.assertTrue(all(os.path.exists(self.at(f"deed.{it}.ksig")) for it in ("second", "third")))

    def stop_all(self):
        for name in ("data", "A", "B", "C"):
            subprocess.run([sys.executable, stands.COMMAND, "stop", self.at(name)], env=self.outside, capture_output=True, check=False)

    @unittest.skipUnless(os.path.exists(os.path.join(PAGES, "log-operator.md")), "there is no page for log operators")
    @unittest.skipUnless(os.path.exists(LOGS), "there is no ksi-log")
    def test_log_operator(self):
        self.stand_ins_for_blocks()
        self.write("app.log", b"".join(b"line %d\n" % number for number in range(5000)))
        self.run_page("log-operator.md")

    def test_each_page_is_short(self):
        for name in os.listdir(PAGES):
            with open(os.path.join(PAGES, name), encoding="utf-8") as file:
                self.assertLess(len(file.read().split()), 600, name)


if __name__ == "__main__":
    unittest.main()
