"""`ksi-log prove`, `verify`, `audit`, `extend` and `status`."""
import gzip
import json
import os
import re
import shutil
import sqlite3
import unittest
from unittest import mock

import stands
from ksi_log import lines, programs
from ksi_log.store import Store
from ksi_service.elements import publications_file
from logged import LONG, Logged

TEXT = b"".join(b"line %d of the log\n" % it for it in range(1, 101))


class ProvingTest(Logged):
    def setUp(self):
        super().setUp()
        self.enter(mock.patch.object(lines, "MOST_LINES", 16))
        self.write(TEXT)
        self.run_log("sign", self.log)
        self.folder = self.path("F")

    def prove(self, *words):
        return self.run_log("prove", self.log, *words, "-o", self.folder)

    def change(self, name, content):
        with open(os.path.join(self.folder, name), "wb") as file:
            file.write(content)

    def content(self, name):
        with open(os.path.join(self.folder, name), "rb") as file:
            return file.read()

    def test_the_folder_of_a_line(self):
        self.assertIn("no publication covers second 1700000000", self.refused("prove", self.log, "-n", "43", "-o", self.folder))
        self.assertFalse(os.path.exists(self.folder))
        self.calendar.publish()
        self.assertIn("proved line 43 of", self.prove("-n", "43"))
        self.assertEqual(sorted(os.listdir(self.folder)), ["README.txt", "about.json", "line", "proof", "publications", "signature"])
        self.assertEqual(self.content("line"), b"line 43 of the log")
        root = self.calendar.published[0][1]
        out = self.run_log("verify", self.folder)
        for text in ("existed in second 1700000000 (2023-11-14 22:13:20 UTC)", "    line 43 of the log\n", f"publication of second 1700000000 (2023-11-14 22:13:20 UTC) with the root\n    {root}",
                     f"line 43 of app.log. Nothing here shows that"):
            self.assertIn(text, out)
        self.assertIn(f"root   {root}", self.content("README.txt").decode())
        self.assertEqual(json.loads(self.content("about.json"))["lines_of_block"], [33, 48])
        self.assertIn("is there already", self.refused("prove", self.log, "-n", "1", "-o", self.folder))

    def test_the_server_is_not_asked_twice(self):
        self.calendar.publish()
        self.run_log("extend", self.log)
        self.calendar.is_away = True
        self.assertIn("proved line 1 ", self.prove("-n", "1"))

    def test_a_line_by_its_text(self):
        self.calendar.publish()
        self.assertIn("proved line 77 ", self.prove("--grep", "line 77 "))
        self.assertIn("11 lines of", self.refused("prove", self.log, "--grep", "line 7", "-o", self.path("G")))
        self.assertIn("7, 70, 71, 72, 73, 74, 75, 76, 77, 78 and 1 more. Choose one with -n", self.refused("prove", self.log, "--grep", "line 7", "-o", self.path("G")))
        self.assertIn("0 lines of", self.refused("prove", self.log, "--grep", "absent", "-o", self.path("G")))
        self.assertIn("which line?", self.refused("prove", self.log, "-o", self.path("G")))

    def test_a_line_whose_log_is_incomplete(self):
        self.calendar.publish()
        self.write(TEXT.partition(b"\n")[2])
        self.assertIn("begins like no part", self.refused("prove", self.log, "-n", "50", "-o", self.folder))
        self.write(b"line 50 of the log\n", "one")
        os.remove(self.log)
        for words in ([], ["-n", "50"], ["--part", "1"]):
            self.assertIn("proved line 50 ", self.prove("--line", self.path("one"), *words))
            shutil.rmtree(self.folder)
        for words in (["-n", "51"], ["--part", "2"]):
            self.assertIn("no line of", self.refused("prove", self.log, "--line", self.path("one"), *words, "-o", self.folder))

    def test_a_line_that_was_changed_or_is_not_signed(self):
        self.calendar.publish()
        self.write(TEXT.replace(b"line 50 ", b"line 5O "))
        self.assertIn("line 50 of", self.refused("prove", self.log, "-n", "50", "-o", self.folder))
        self.assertIn("is signed up to line 100, and not at line 101", self.refused("prove", self.log, "-n", "101", "-o", self.folder))
        self.assertIn("has no part 2", self.refused("prove", self.log, "-n", "1", "--part", "2", "-o", self.folder))
        self.assertIn("proved line 51 ", self.prove("-n", "51"))

    def test_a_compressed_log(self):
        self.calendar.publish()
        self.write(gzip.compress(TEXT), "app.log.1.gz")
        self.assertIn("    line 99 of the log\n", self.proved(99, "app.log.1.gz"))
        self.assertIn("lines 1 to 100 are those that were signed", self.run_log("audit", self.path("app.log.1.gz")))

    def test_a_long_line(self):
        self.append(LONG + b"\n" + b"ksi-log replaced 1 bytes\n")
        self.run_log("sign", self.log)
        self.calendar.publish()
        self.prove("--grep", "xxx")
        self.assertEqual((self.content("line"), self.content("marked-line")[:29]), (LONG, b"ksi-log replaced 8001 bytes S"))
        self.assertIn("It has 8001 bytes. A line with its length and SHA-256 is in its place", self.run_log("verify", self.folder))
        self.change("line", LONG[:-1] + b"y")
        self.assertIn("marked-line has another length or hash", self.refused("verify", self.folder))
        os.remove(os.path.join(self.folder, "marked-line"))
        self.assertIn("not shown: the line and its proof lead to another hash", self.refused("verify", self.folder))
        self.assertIn("    ksi-log replaced 1 bytes\n", self.proved(102))
        # the line that replaces another one is no line of the log
        self.write(lines.recorded(LONG), "one")
        self.assertIn("no line of", self.refused("prove", self.log, "--line", self.path("one"), "-o", self.path("G")))

    def test_a_line_feed_at_the_end_does_no_harm(self):
        self.calendar.publish()
        self.prove("-n", "3")
        self.change("line", b"line 3 of the log\n")
        self.assertIn("It was read without the line feed at the end of the file", self.run_log("verify", self.folder))
        self.change("line", b"line 3 of the log\n\n")
        self.assertIn("not shown", self.refused("verify", self.folder))

    def test_what_verify_refuses(self):
        self.calendar.publish()
        self.prove("-n", "3")
        self.write(publications_file([(5, "ab" * 32)]), "mine")
        self.assertIn("has no publication of the second", self.refused("verify", self.folder, "--publications", self.path("mine")))
        self.write(publications_file([(self.calendar.last, "ab" * 32)]), "mine")
        self.assertIn("has another root", self.refused("verify", self.folder, "--publications", self.path("mine")))
        self.write(publications_file(self.calendar.published), "mine")
        self.assertIn(f"It is in {self.path('mine')}.", self.run_log("verify", self.folder, "--publications", self.path("mine")))
        for content in (b"[]", b"[" * 100_000, b"\xff", b"{}"):
            self.change("about.json", content)
            self.assertNotIn("Its keeper says", self.run_log("verify", self.folder))
        self.change("about.json", b'{"log": "\\u001b[31m\\ud800", "line": [7]}')
        self.assertIn("line [7] of \\x1b[31m?. Nothing", self.run_log("verify", self.folder))
        self.change("line", b"\x1b[31mred\xff")
        self.assertIn("not shown", self.refused("verify", self.folder))
        os.remove(os.path.join(self.folder, "proof"))
        self.assertIn("proof: No such file", self.refused("verify", self.folder))
        os.mkfifo(os.path.join(self.folder, "proof"))
        self.assertIn("proof is not a regular file", self.refused("verify", self.folder))

    def test_bytes_that_a_terminal_would_obey_are_escaped(self):
        self.append(b"\x1b[31mred\xff\x00\n")
        self.run_log("sign", self.log)
        self.calendar.publish()
        self.assertIn("    \\x1b[31mred\\xff\\x00\n", self.proved(101))

    def test_a_proof_that_is_not_accepted_is_not_given_out(self):
        self.calendar.publish()
        with mock.patch.object(programs, "checked_line", return_value=programs.Ran("refused V1 a b", 1)):
            self.assertIn("does not accept the proof", self.refused("prove", self.log, "-n", "1", "-o", self.folder))
        self.assertFalse(os.path.exists(self.folder))


class PageTest(Logged):
    def test_the_commands_of_the_page(self):
        """Those before the first section of docs/LOGS.md, in their order."""
        with open(os.path.join(os.path.dirname(os.path.dirname(stands.HERE)), "docs", "LOGS.md"), encoding="utf-8") as file:
            page = file.read()
        self.write(b"".join(b"request %d\n" % it for it in range(1, 5001)))
        commands = re.findall(r"(?m)^    ksi-log ([^#\n]*)", page.partition("\n## ")[0])
        self.assertEqual([it.split()[0] for it in commands], ["sign", "extend", "prove", "verify", "audit"])
        for it in commands:
            words = it.replace("/var/log/app.log", self.log).replace("court", self.path("court")).split()
            out = self.run_log(*words)
            self.calendar.publish()
            if words[0] == "verify":
                self.assertIn("    request 4321\n", out)


class KeepingTest(Logged):
    def test_audit_says_all_that_differs(self):
        with mock.patch.object(lines, "MOST_LINES", 16):
            self.write(TEXT)
            self.run_log("sign", self.log)
            self.assertIn("7 signatures not extended to a publication yet", self.run_log("audit", self.log))
            self.calendar.publish()
            self.run_log("extend", self.log)
            self.append(b"more\n")
            out = self.run_log("audit", self.log)
            for text in ("lines 1 to 100 are those that were signed (part 1", "signed in second 1700000000", "7 signatures verified by publications", "1 line after line 100 not signed yet"):
                self.assertIn(text, out)
            self.write(TEXT.replace(b"line 20 ", b"line 2O ").replace(b"line 77 ", b"line 7 "))
            reason = self.refused("audit", self.log)
            self.assertIn("line 20 differs from the one that was signed (part 1", reason)
            self.assertIn("line 77 differs from the one that was signed", reason)
            self.assertEqual(reason.count("differs"), 2)
            self.write(b"")
            self.assertIn("is empty: --part names the part", self.refused("audit", self.log))
            self.assertIn("the log ends after line 0, and lines up to 16 were signed", self.refused("audit", self.log, "--part", "1"))
            self.write(TEXT.replace(b"line 20 of the log\n", b""))
            self.assertIn("line 20 differs from the one that was signed, and 12 more lines of lines 17 to 32", self.refused("audit", self.log))

    def test_audit_finds_a_signature_that_is_not_accepted(self):
        self.write(TEXT)
        self.run_log("sign", self.log)
        self.calendar.publish()
        self.run_log("extend", self.log)
        with Store(self.path("app.log.ksilog")) as store:
            store.keep_publications(publications_file([(self.calendar.last, "ab" * 32)]))
        self.assertIn("the signature of lines 1 to 100 is not accepted: refused V14", self.refused("audit", self.log))

    def test_leaves_that_are_damaged(self):
        self.write(TEXT)
        self.run_log("sign", self.log)
        self.calendar.publish()
        with sqlite3.connect(self.path("app.log.ksilog")) as base:
            base.execute("UPDATE leaves SET content = CAST(zeroblob(32) || substr(content, 33) AS BLOB)")
        self.assertIn("the leaves of lines 1 to 100 in the store are damaged", self.refused("audit", self.log, "--part", "1"))
        self.assertIn("are damaged: only a copy of the store", self.refused("prove", self.log, "-n", "2", "--part", "1", "-o", self.path("F")))

    def test_audit_says_of_which_line_a_folder_is(self):
        self.write(TEXT)
        self.run_log("sign", self.log)
        self.calendar.publish()
        self.run_log("prove", self.log, "-n", "42", "-o", self.path("F"))
        self.assertIn("F is of line 42 of", self.run_log("audit", self.log, "--proof", self.path("F")))
        self.write(b"other\n", "b.log")
        self.run_log("sign", self.path("b.log"))
        self.assertIn("is of no block of", self.refused("audit", self.path("b.log"), "--proof", self.path("F")))

    def test_extend_and_status(self):
        for name in ("a.log", "b.log"):
            self.write(TEXT, name)
            self.run_log("sign", self.path(name))
        self.assertIn("0 signatures extended, 1 that no publication covers yet", self.run_log("extend", self.path("a.log")))
        self.assertIn("1 block signed, not extended to a publication yet", self.run_log("status", self.path("a.log")))
        self.calendar.publish()
        self.append(b"new\nhalf", "b.log")
        self.run_log("sign", self.path("b.log"))
        out = self.run_log("extend", "--all", "--store", self.room)
        self.assertIn("a.log.ksilog: 1 signature extended\n", out)
        self.assertIn("b.log.ksilog: 1 signature extended, 1 that no publication covers yet\n", out)
        self.append(b"line\nmore\n", "b.log")
        out = self.run_log("status", self.path("b.log"))
        self.assertIn("1 part, 2 blocks, 101 lines", out)
        out = self.run_log("status", self.path("b.log"), "--blocks")
        self.assertRegex(out, r"  lines 1 to 100: cut at .*, signed in second 1700000001 .*, extended to 1700000001 ")
        self.assertRegex(out, r"  lines 101 to 101: cut at .*, signed in second 1700000002 [^,]*\n")
        self.assertIn("open: 2 lines after line 101, open to change for up to", out)
        self.assertIn("which logs?", self.refused("extend"))
        os.mkdir(self.path("none"))
        self.assertIn("has no store", self.refused("extend", "--all", "--store", self.path("none")))
        self.assertIn("is missing", self.refused("status", self.path("absent")))

    def test_an_extension_that_is_not_accepted_is_not_kept(self):
        self.write(TEXT)
        self.run_log("sign", self.log)
        self.calendar.publish()
        with mock.patch.object(programs, "verified", return_value=programs.Ran("refused V14", 1)):
            self.assertIn("is not accepted: refused V14", self.refused("extend", self.log))
        with Store(self.path("app.log.ksilog")) as store:
            self.assertEqual([it.publication for it in store.blocks()], [None])

    def test_stores_of_other_programs_and_versions(self):
        self.write(TEXT)
        self.run_log("sign", self.log)
        with sqlite3.connect(self.path("app.log.ksilog")) as base:
            base.execute("PRAGMA user_version = 9")
        self.assertIn("is of version 9, which a later ksi-log made", self.refused("status", self.log))
        with sqlite3.connect(self.path("app.log.ksilog")) as base:
            base.execute("PRAGMA application_id = 7")
        self.assertIn("is no store of ksi-log", self.refused("status", self.log))


if __name__ == "__main__":
    unittest.main()
