"""ksi-log with logrotate, rsyslog and nginx of Debian, by the lines of service/deploy/ksi-log.logrotate, and with a stored journal."""
import concurrent.futures
import json
import lzma
import os
import re
import shutil
import socket
import subprocess
import sys
import time
import unittest

import stands
from logged import COMMAND, Logged
from ksi_log.lines import Log
from ksi_log.store import Store

DEPLOY = os.path.join(os.path.dirname(stands.HERE), "deploy")
LOGROTATE, RSYSLOG, NGINX = (shutil.which(it, path=os.environ.get("PATH", "") + ":/usr/sbin:/sbin") for it in ("logrotate", "rsyslogd", "nginx"))
JOURNAL = os.path.join(stands.HERE, "data", "entries.journal.xz")
ENTRIES = 12


@unittest.skipUnless(LOGROTATE, "logrotate is not here")
class Rotated(Logged):
    def setUp(self):
        super().setUp()
        os.mkdir(self.path("stores"))
        self.program("bin/ksi-log", f'exec {sys.executable} {COMMAND} "$@"\n')
        with open(os.path.join(DEPLOY, "ksi-log.logrotate"), encoding="utf-8") as file:
            lines = file.read().replace("@PREFIX@", self.room).replace("/var/lib/ksi-log", self.path("stores"))
        self.lines = "".join(it for it in lines.splitlines(True) if not it.startswith("#"))

    def program(self, name, script):
        os.makedirs(os.path.dirname(self.path(name)), exist_ok=True)
        with open(self.path(name), "w", encoding="utf-8") as file:
            file.write(f"#!/bin/sh\n{script}")
        os.chmod(self.path(name), 0o755)

    def rotate(self, pattern, words):
        """Rotates logs now. Returns what logrotate and the scripts print."""
        with open(self.path("conf"), "w", encoding="utf-8") as file:
            file.write(f'"{pattern}" {{\nrotate 9\n{words}\n{self.lines}}}\n')
        os.chmod(self.path("conf"), 0o644)
        ran = subprocess.run([LOGROTATE, "-f", "-s", self.path("state"), self.path("conf")], env=self.environment, capture_output=True, text=True, check=False)
        self.assertEqual(ran.returncode, 0, ran.stdout + ran.stderr)
        return ran.stdout

    def stored(self):
        return ["--store", self.path("stores")]

    def audited(self, name):
        return self.run_log("audit", self.path(name), *self.stored())


class RotationTest(Rotated):
    def test_numbers_and_compression_a_day_later(self):
        for day in range(3):
            self.append(b"day %d\nevening\n" % day)
            out = self.rotate(self.log, "compress\ndelaycompress\ncreate")
            self.assertIn("app.log.1: lines 1 to 2\n", out)
            self.append(b"late\n", "app.log.1")
        self.assertEqual(sorted(it for it in os.listdir(self.room) if it.startswith("app.log")), ["app.log", "app.log.1", "app.log.2.gz", "app.log.3.gz"])
        # each rotation signed the line that was late for the one before
        self.assertIn("lines 1 to 3 are those that were signed (part 1 ", self.audited("app.log.3.gz"))
        self.assertIn("lines 1 to 3 are those that were signed (part 2 ", self.audited("app.log.2.gz"))
        self.assertIn("1 line after line 2 not signed yet", self.audited("app.log.1"))
        self.calendar.publish()
        self.assertIn("    day 0\n", self.proved(1, "app.log.3.gz", *self.stored()))
        self.assertIn("    late\n", self.proved(3, "app.log.2.gz", *self.stored()))

    def test_dates_and_one_script_for_all_logs(self):
        for name in ("one two.log", "app.log"):
            self.append(b"%s\n" % name.encode(), name)
        self.rotate(f"{self.room}/*.log", "compress\nsharedscripts\nnocreate\ndateext\ndateformat -%Y%m%d")
        names = [it for it in os.listdir(self.room) if it.endswith(".gz")]
        self.assertEqual(len(names), 2)
        for name in names:
            self.assertIn("lines 1 to 1 are those that were signed (part 1 ", self.audited(name))
        found = [os.path.join(at, it) for at, _, names in os.walk(self.path("stores")) for it in names if it.endswith(".ksilog")]
        self.assertEqual(sorted(found), [f"{self.path('stores')}{self.room}/{it}.ksilog" for it in ("app.log", "one two.log")])

    def test_a_log_that_is_copied_and_emptied(self):
        self.append(b"one\n")
        self.run_log("sign", self.log, *self.stored())
        self.append(b"two\n")
        self.assertIn("app.log.1: lines 2 to 2\n", self.rotate(self.log, "copytruncate"))
        self.append(b"three\n")
        self.assertIn("app.log: lines 1 to 1\n", self.run_log("sign", self.log, *self.stored()))
        self.assertIn("(part 1 ", self.audited("app.log.1"))

    def test_the_server_is_away(self):
        self.append(b"one\n")
        self.environment["KSI_LOG_DOOR"] = "127.0.0.1:1"
        with self.assertRaisesRegex(AssertionError, "1 block of .* without a signature: no-answer"):
            self.rotate(self.log, "create")
        self.environment["KSI_LOG_DOOR"] = self.url
        self.append(b"two\n")
        self.assertIn("signed 2 blocks", self.rotate(self.log, "create"))


class WritersTest(Rotated):
    """Programs that go on writing while their logs are rotated."""

    def begin(self, *words):
        """A process that ends with the test."""
        process = subprocess.Popen(words, stdout=subprocess.DEVNULL, stderr=subprocess.PIPE)
        self.addCleanup(process.stderr.close)
        self.addCleanup(process.wait)
        self.addCleanup(process.terminate)
        return process

    def wait_for(self, holds):
        end = time.monotonic() + 20
        while not holds():
            self.assertLess(time.monotonic(), end)
            time.sleep(0.02)

    def connected(self, kind):
        client = socket.socket(socket.AF_UNIX, kind)
        self.addCleanup(client.close)
        self.wait_for(lambda: client.connect_ex(self.path("socket")) == 0)
        return client

    def write_while_rotated(self, send, script, name):
        """Sends numbers until three rotations are over, then signs the rest. Each number is in one line of one file, and all files are as signed."""
        self.lines = self.lines.replace("postrotate\n", f"postrotate\n{script}\n")
        sent = 0
        for _ in range(3):
            self.wait_for(lambda: os.path.exists(self.path(name)))
            sent = self.send_until(send, sent, lambda: self.numbers(name))
            with concurrent.futures.ThreadPoolExecutor(1) as pool:
                rotating = pool.submit(self.rotate, self.path(name), "compress\ndelaycompress\nmissingok\nnocreate")
                sent = self.send_until(send, sent, rotating.done)
                rotating.result()
        files = [f"{name}.3.gz", f"{name}.2.gz", f"{name}.1", name]
        self.wait_for(lambda: sum(len(self.numbers(it)) for it in files) == sent)
        self.assertEqual([number for it in files for number in self.numbers(it)], list(range(sent)))
        self.run_log("sign", "--rotated", self.path(name), *self.stored())
        for it in files:
            out = self.audited(it)
            self.assertIn("are those that were signed", out)
            self.assertNotIn("not signed yet", out)

    def send_until(self, send, sent, holds):
        """Sends numbers from one on, at least ten, until something holds. Returns the next one."""
        least = sent + 10
        while sent < least or not holds():
            send(sent)
            sent += 1
            time.sleep(0.02)
        return sent

    def numbers(self, name):
        """The numbers in a log, by their mark."""
        with Log(self.path(name)) as log:
            return [int(it) for cut in log.cuts(0) for it in re.findall(rb"number-([0-9]+)", cut.text)]

    @unittest.skipUnless(RSYSLOG, "rsyslogd is not here")
    def test_rsyslog(self):
        with open(self.path("rsyslog.conf"), "w", encoding="utf-8") as file:
            file.write(f'''module(load="imuxsock" SysSock.Use="off")
input(type="imuxsock" Socket="{self.path("socket")}" RateLimit.Interval="0")
action(type="omfile" file="{self.path("syslog")}")
''')
        self.begin(RSYSLOG, "-n", "-f", self.path("rsyslog.conf"), "-i", self.path("pid"))
        client = self.connected(socket.SOCK_DGRAM)
        client.send(b"<13>app: the first one")
        self.write_while_rotated(lambda number: client.send(b"<13>app: number-%d" % number), f"kill -HUP $(cat {self.path('pid')})", "syslog")

    @unittest.skipUnless(NGINX, "nginx is not here")
    def test_nginx(self):
        with open(self.path("nginx.conf"), "w", encoding="utf-8") as file:
            file.write(f'''daemon off; pid {self.path("pid")}; error_log {self.path("error.log")};
{"user root;" if os.geteuid() == 0 else ""}
events {{ }}
http {{ keepalive_requests 1000000; keepalive_timeout 3600; access_log {self.path("access.log")}; server {{ listen unix:{self.path("socket")}; location / {{ return 204; }} }} }}
''')
        self.begin(NGINX, "-p", self.room, "-c", self.path("nginx.conf"))
        client = self.connected(socket.SOCK_STREAM)

        def send(number):
            client.send(b"GET /number-%d HTTP/1.1\r\nHost: x\r\n\r\n" % number)
            client.recv(4096)
        self.write_while_rotated(send, f"kill -USR1 $(cat {self.path('pid')})", "access.log")


@unittest.skipUnless(shutil.which("journalctl"), "journalctl is not here")
class JournalTest(Logged):
    def setUp(self):
        super().setUp()
        self.journal = self.path("made.journal")
        with lzma.open(JOURNAL) as file:
            self.write(file.read(), "made.journal")

    def read(self, *words):
        return self.run_log("journal", self.log, "--file", self.journal, *words)

    def lines(self):
        with open(self.log, "rb") as file:
            return file.read().splitlines(True)

    def test_entries_are_read_once(self):
        out = self.read()
        self.assertIn("app.log: 12 new entries of the journal\n", out)
        self.assertIn("app.log: lines 1 to 12\n", out)
        entries = [json.loads(it) for it in self.lines()]
        self.assertEqual([it["MESSAGE"][:20] for it in entries][:4], ["Started ssh.service.", "Accepted publickey f", "pam_unix(sshd:sessio", "two\nlines"])
        self.assertIn(": 0 new entries", self.read())
        # after a rotation the store knows the last entry
        os.rename(self.log, f"{self.log}.1")
        self.assertIn(": 0 new entries", self.read())
        self.calendar.publish()
        self.assertIn("Accepted publickey for archivar", self.proved(2, "app.log.1"))
        self.assertIn("A line with its length and SHA-256 is in its place", self.proved(7, "app.log.1"))

    def test_a_crash_loses_and_doubles_no_entry(self):
        self.read()
        whole = self.lines()
        self.assertEqual(len(whole), ENTRIES)
        os.remove(f"{self.log}.ksilog")
        for count in (0, 5, 11):
            self.write(b"".join(whole[:count]) + whole[count][:70])
            self.assertIn(f": {ENTRIES - count} new entries", self.read())
            self.assertEqual(self.lines(), whole)
        with Store(f"{self.log}.ksilog") as store:
            self.assertEqual(sum(it.lines for it in store.blocks()), ENTRIES)

    def test_some_entries(self):
        self.assertIn(": 0 new entries", self.read("--unit", "cron.service"))
        self.assertIn(": 12 new entries", self.read("--unit", "ssh.service", "--since", "2000-01-01"))

    def test_files_that_are_none(self):
        self.write(b"a line of another program\n")
        self.assertIn("is not written by `ksi-log journal`", self.refused("journal", self.log, "--file", self.journal))
        os.remove(self.log)
        self.assertIn("journalctl exited with status 1", self.refused("journal", self.log, "--file", self.path("absent")))


if __name__ == "__main__":
    unittest.main()
