"""`ksi-log sign`: logs that grow, that are rotated and that are changed, and processes that are killed."""
import gzip
import os
import random
import signal
import sqlite3
import time
import unittest
from unittest import mock

from ksi_log import lines, programs, signing
from ksi_log.store import Store, name_of
from logged import LONG, Logged


class SigningTest(Logged):
    def seconds(self, name="app.log.ksilog"):
        with Store(self.path(name)) as store:
            return [(it.part, it.first_line, it.lines, it.second) for it in store.blocks()]

    def sign(self, *words):
        return self.run_log("sign", self.log, *words)

    def test_a_log_that_grows(self):
        self.write(b"one\ntwo\n")
        self.assertIn("app.log: lines 1 to 2\nsigned 1 block, second 1700000000 (2023-11-14 22:13:20 UTC)", self.sign())
        self.assertEqual(self.sign().partition(": ")[2], "nothing new after line 2\n")
        self.append(b"three\n\nfi")
        self.assertIn("lines 3 to 4; its last line has no line feed yet", self.sign())
        self.append(b"ve\n" + LONG + b"\nksi-log replaced nothing\n")
        self.assertIn("lines 5 to 7\n", self.sign())
        self.assertEqual([it[1:3] for it in self.seconds()], [(0, 2), (2, 2), (4, 3)])
        self.assertEqual(self.calendar.requests, 3)
        self.assertEqual(os.stat(self.path("app.log.ksilog")).st_mode & 0o777, 0o600)

    def test_a_last_line_without_a_line_feed(self):
        self.write(b"one\ntwo")
        self.assertIn("lines 1 to 1; its last line has no line feed yet", self.sign())
        self.assertIn("lines 2 to 2\n", self.sign("--closed"))
        self.assertIn("nothing new after line 2\n", self.sign())
        # the line feed that it lacked changes no line
        self.append(b"\n")
        self.assertIn("nothing new after line 2\n", self.sign())
        self.append(b"three\n")
        self.assertIn("lines 3 to 3\n", self.sign())
        self.write(b"one\ntwo and more\nthree\n")
        self.assertIn("line 2 differs from the one that was signed", self.refused("sign", self.log))

    def test_empty_logs_and_logs_that_are_none(self):
        self.write(b"")
        self.assertEqual(self.sign(), f"{self.log}: no line yet\n")
        self.assertEqual(self.calendar.requests, 0)
        self.write(b"unfinished")
        self.assertIn("no line yet; its last line has no line feed yet", self.sign())
        self.assertIn("No such file", self.refused("sign", self.path("absent")))
        self.assertIn("is not a regular file", self.refused("sign", self.room))
        self.assertFalse(os.path.exists(self.path("absent.ksilog")))
        self.write(b"no store", "other.log.ksilog")
        self.write(b"a\n", "other.log")
        self.assertIn("file is not a database", self.refused("sign", self.path("other.log")))

    def test_several_blocks_in_one_request(self):
        with mock.patch.object(lines, "MOST_LINES", 7), mock.patch.object(signing, "LONG_BLOCK", 7):
            self.write(b"".join(b"%d\n" % it for it in range(100)))
            self.assertIn("signed 15 blocks", self.sign())
        self.assertEqual(self.calendar.requests, 1)
        self.assertEqual({it[3] for it in self.seconds()}, {1_700_000_000})
        self.calendar.publish()
        for number in (1, 7, 8, 100):
            self.assertIn(f"    {number - 1}\n", self.proved(number))

    def test_a_changed_line_is_loud(self):
        with mock.patch.object(lines, "MOST_LINES", 3):
            self.write(b"".join(b"%d\n" % it for it in range(10)))
            self.sign()
            for content, reason in ((b"0\n1\n2\n3\n4\nx\n6\n7\n8\n9\nmore\n", "line 6 differs from the one that was signed (part 1"),
                                    (b"0\n1\n2\nx\n4\nx\n6\n7\n8\n9\n", "line 4 differs from the one that was signed, and 1 more line of lines 4 to 6"),
                                    (b"x\n1\n2\n3\n4\n5\n6\n7\n8\n9\n", "line 1 differs from the one that was signed"),
                                    (b"0\n1\n2\n3\n", "the log ends after line 4, and lines up to 6 were signed")):
                self.write(content)
                self.assertIn(reason, self.refused("sign", self.log))
                self.assertIn(reason.partition(" (")[0], self.refused("audit", self.log))
        self.assertEqual(len(self.seconds()), 4)
        self.assertIn("lines 1 to 4\n", self.sign("--new"))
        self.assertEqual(self.seconds()[-1][:3], (2, 0, 4))

    def test_a_long_line_is_not_replaced_by_its_mark(self):
        self.write(b"one\n" + LONG + b"\n")
        self.sign()
        self.assertIn("nothing new after line 2\n", self.sign())
        self.write(b"one\n" + lines.recorded(LONG) + b"\n")
        self.assertIn("line 2 differs", self.refused("sign", self.log))

    def test_rotated_logs_by_other_names(self):
        for day in range(4):
            self.write(b"header\nday %d\n" % day)
            self.sign()
            self.append(b"written late on day %d\n" % day)
            for number in range(day, 0, -1):
                os.rename(f"{self.log}.{number}", f"{self.log}.{number + 1}")
            os.rename(self.log, f"{self.log}.1")
            self.write(b"")
            self.assertEqual(self.sign("--rotated").count("lines 3 to 3"), 1)
        self.assertEqual([it[:3] for it in self.seconds()], [(part, first, count) for part in range(1, 5) for first, count in ((0, 2), (2, 1))])
        self.calendar.publish()
        for number in range(1, 5):
            self.assertIn(f"written late on day {4 - number}", self.proved(3, f"app.log.{number}"))
            self.assertIn(f"lines 1 to 3 are those that were signed (part {5 - number} ", self.run_log("audit", f"{self.log}.{number}"))

    def test_a_new_log_that_begins_like_one_that_was_compressed(self):
        self.write(b"header\none\n")
        self.sign()
        os.remove(self.log)
        self.write(gzip.compress(b"header\none\n"), "app.log.1.gz")
        self.write(b"header\ntwo\n")
        self.assertIn("app.log: lines 1 to 2\n", self.sign("--rotated"))
        self.assertEqual([it[:3] for it in self.seconds()], [(1, 0, 2), (2, 0, 2)])
        # moved away, it looks like a changed one
        os.remove(self.path("app.log.1.gz"))
        os.remove(self.log)
        self.write(b"header\nthree\n")
        self.assertIn("line 2 differs", self.refused("sign", self.log))
        self.assertIn("lines 1 to 2\n", self.sign("--new"))

    def test_a_log_that_is_copied_and_emptied(self):
        self.write(b"one\ntwo\n")
        self.sign()
        self.append(b"three\n")
        with open(self.log, "rb") as file:
            self.write(file.read(), "app.log-20261201")
        self.write(b"new\n")
        self.assertIn("app.log-20261201: lines 3 to 3", self.sign("--rotated"))
        self.assertEqual([it[:3] for it in self.seconds()], [(1, 0, 2), (1, 2, 1), (2, 0, 1)])

    def test_rotated_files_that_are_known_are_not_read_again(self):
        self.write(b"old\n", "app.log.3.zst")
        self.write(gzip.compress(b"older\n"), "app.log.2.gz")
        self.write(b"one\ntwo", "app.log.1")
        self.write(b"three\n")
        out = self.sign("--rotated")
        self.assertIn("app.log.2.gz: lines 1 to 1\n", out)
        self.assertIn("app.log.1: lines 1 to 1; its last line", out)
        os.utime(self.path("app.log.1"), (1, 1))
        self.assertIn("app.log.1: lines 2 to 2\n", self.sign("--rotated"))
        with mock.patch.object(signing, "cut_log", side_effect=signing.cut_log) as cut:
            self.sign("--rotated")
        self.assertEqual([call.args[1] for call in cut.call_args_list], [self.log])

    def test_the_words_of_logrotate(self):
        self.write(b"a\n", "a b.log")
        self.write(b"b\n", "c.log.1")
        self.write(b"none\n", "c.log.old")
        patterns = f'"{self.room}/*.log" '
        self.assertEqual(signing.logs_of([patterns]), [self.path("a b.log"), self.path("c.log")])
        self.assertEqual(signing.logs_of([self.path("a b.log")]), [self.path("a b.log")])
        self.assertEqual(signing.logs_of(["it's"]), ["it's"])
        self.assertEqual(signing.logs_of([f"{self.room}/d.log {self.room}/e.log "]), [self.path("d.log"), self.path("e.log")])
        out = self.run_log("sign", "--rotated", patterns)
        self.assertIn("a b.log: lines 1 to 1\n", out)
        self.assertIn("c.log.1: lines 1 to 1\n", out)

    def test_logs_of_one_name(self):
        stores = ["--store", self.path("stores")]
        for name in ("nginx", "apache"):
            os.mkdir(self.path(name))
            self.write(b"header\n" + name.encode() + b"\n", f"{name}/access.log")
            self.assertIn("lines 1 to 2\n", self.run_log("sign", self.path(f"{name}/access.log"), *stores))
        self.calendar.publish()
        self.assertEqual(self.run_log("extend", "--all", *stores).count("1 signature extended"), 2)
        os.rename(self.path("nginx/access.log"), self.path("copy"))
        self.assertIn("is missing", self.refused("audit", self.path("copy"), *stores))
        self.assertIn("lines 1 to 2 are those", self.run_log("audit", self.path("copy"), *stores, "--name", f"{self.room[1:]}/nginx/access.log"))

    def test_names_of_logs(self):
        for name, log in (("app.log", "app.log"), ("app.log.1", "app.log"), ("app.log.12.gz", "app.log"), ("app.log-20261201", "app.log"), ("app.log-20261201-1764579600.xz", "app.log"),
                          ("app.2.log", "app.2.log"), ("app.log.old", "app.log.old"), ("syslog", "syslog"), (".1", ".1")):
            self.assertEqual(name_of(f"/var/log/{name}"), log, name)

    def test_no_server_answers(self):
        self.write(b"one\n")
        self.calendar.is_away = True
        with mock.patch("ksi_log.doors.ALONE_SECONDS", 0.1):
            self.assertIn("1 block of", self.refused("sign", self.log))
        self.assertEqual(self.seconds(), [(1, 0, 1, None)])
        self.assertIn("1 block not signed yet", self.run_log("status", self.log))
        self.assertIn("not signed yet: ksi-log sign", self.refused("prove", self.log, "-n", "1", "-o", self.path("F")))
        self.calendar.is_away = False
        self.append(b"two\n")
        self.assertIn("signed 2 blocks, second 1700000000", self.sign())
        self.assertEqual([it[3] for it in self.seconds()], [1_700_000_000] * 2)

    def test_the_next_server_is_asked(self):
        self.write(b"one\n")
        status, out, _ = self.ended("sign", self.log, "--door", f"127.0.0.1:1,{self.url}")
        self.assertEqual(status, 0, out)
        self.assertIn("ftp://x is not http", self.refused_by("--door", "ftp://x"))

    def refused_by(self, *words):
        """The reason of a `sign` with other words for the server."""
        self.url = words[1]
        return self.refused("sign", self.log)

    def test_a_signature_of_another_hash_is_not_kept(self):
        self.write(b"one\n")
        sign = self.calendar.sign
        with mock.patch.object(self.calendar, "sign", lambda hashes: sign(["ab" * 32 for _ in hashes])):
            self.assertIn("a signature of another hash", self.refused("sign", self.log))
        self.assertEqual(self.seconds(), [(1, 0, 1, None)])

    def test_a_root_on_which_the_programs_differ(self):
        self.write(b"one\n")
        with mock.patch.object(programs, "root_of", return_value=bytes(32)):
            self.assertIn("another root of a block", self.refused("sign", self.log))
        self.assertEqual(self.seconds(), [])

    def test_seeds_in_another_file(self):
        seeds = self.path("seeds")
        self.write(b"one\n")
        self.sign()
        self.append(b"two\n")
        self.run_log("sign", self.log, "--seeds", seeds)
        self.assertIn("moved 1 seeds", self.run_log("seeds", self.log, "--to", seeds))
        self.assertEqual(os.stat(seeds).st_mode & 0o777, 0o600)
        with open(seeds, encoding="ascii") as file:
            rows = [it.split() for it in file.read().splitlines()]
        with sqlite3.connect(self.path("app.log.ksilog")) as base:
            roots = {row[0].hex() for row in base.execute("SELECT root FROM blocks WHERE seed IS NULL")}
        self.assertEqual({it[0] for it in rows}, roots)
        with open(self.path("app.log.ksilog"), "rb") as file:
            content = file.read()
        self.assertFalse(any(bytes.fromhex(seed) in content for _, seed in rows))
        self.calendar.publish()
        self.assertIn("--seeds names their file", self.refused("sign", self.log))
        self.assertIn("--seeds names their file", self.refused("prove", self.log, "-n", "1", "-o", self.path("F"), "--part", "1"))
        self.assertIn("    two\n", self.proved(2, "app.log", "--seeds", seeds))
        self.append(b"three\n")
        self.assertIn("lines 3 to 3\n", self.sign("--seeds", seeds))
        # destroyed seeds: nothing more is proved, and another log is signed as before
        os.remove(seeds)
        self.assertIn("with a seed in another file, or with none", self.run_log("status", self.log))
        os.rename(self.log, f"{self.log}.1")
        self.write(b"new\n")
        self.assertIn("lines 1 to 1\n", self.sign())

    def test_two_processes_take_turns(self):
        self.write(b"".join(b"%d\n" % it for it in range(1000)))
        running = [self.process("sign", self.log) for _ in range(3)]
        out = "".join(it.communicate()[0] for it in running)
        self.assertEqual([it.returncode for it in running], [0] * 3, out)
        self.assertEqual([it[:3] for it in self.seconds()], [(1, 0, 1000)])


class KilledTest(Logged):
    def test_killed_at_any_moment_nothing_is_lost(self):
        random.seed(79)
        moments = [0.02, *(random.uniform(0.1, 0.7) for _ in range(9))]
        content = b""
        for turn, moment in enumerate(moments):
            content += b"".join(b"line %d of turn %d\n" % (it, turn) for it in range(2000))
            self.write(content)
            process = self.process("sign", self.log)
            time.sleep(moment)
            process.send_signal(signal.SIGKILL)
            process.communicate()
        self.run_log("sign", self.log)
        with Store(self.path("app.log.ksilog")) as store:
            blocks = store.blocks()
        self.assertEqual([it.first_line for it in blocks], [0, *(it.end_line for it in blocks[:-1])])
        self.assertEqual((blocks[-1].end_line, blocks[-1].end_byte), (2000 * len(moments), len(content)))
        self.assertTrue(all(it.second for it in blocks))
        self.calendar.publish()
        self.assertIn("lines 1 to 20000 are those that were signed", self.run_log("audit", self.log))
        for it in blocks:
            self.assertIn("This line existed in second", self.proved(it.first_line + 1))


if __name__ == "__main__":
    unittest.main()
