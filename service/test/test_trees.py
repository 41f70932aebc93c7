"""Trees of files that are signed, extended and verified, at a door without nodes."""
import contextlib
import csv
import hashlib
import io
import json
import os
import random
import subprocess
import sys
import time
import unittest
from unittest import mock

import signing
import stands
from ksi_service import batches, command, elements, resting_door, tree_work, trees

COUNT = 2000 if os.path.exists(signing.ARCHIVE) else 300
"""How many files a tree has: the stand-in for libksi is slow."""

ODD = [b"two words", b"quote's \"name\"", b"tab\there", b"line\nfeed", b"latin \xe9\xff", "\u043f\u0440\u043e\u0442\u043e\u043a\u043e\u043b".encode(), "\u5408\u540c".encode(), b"-n5", b"--help6", b"*", b"$(x)", b"\\", b" ", b"a" * 240]


class TreeTest(signing.Signed):
    maxDiff = 1000

    def odd_tree(self, count):
        """Files with odd names in folders with odd names."""
        for number in range(count):
            name = ODD[number % len(ODD)] + b"%d" % number if len(ODD[number % len(ODD)]) < 200 else ODD[number % len(ODD)][:-5] + b"%05d" % number
            folder = ODD[number // 100 % len(ODD)] if number % 3 else b"plain"
            self.file(os.path.join(folder[:100], name), b"document %d" % (number // 2))

    def documents(self):
        return [it for it in self.all_files() if not it.endswith(b".ksig")]

    def all_files(self):
        return [os.path.join(folder, name) for folder, _, names in os.walk(os.fsencode(self.tree)) for name in names]

    def see_all_signed(self):
        """Each document has one signature, of its bytes, and nothing else is there."""
        names = set(self.all_files())
        documents = {it for it in names if not it.endswith(b".ksig")}
        self.assertEqual(names - documents, {it + b".ksig" for it in documents})
        for path in documents:
            with open(path, "rb") as file, open(path + b".ksig", "rb") as signature:
                self.assertEqual(elements.head_of(signature.read()).imprint, hashlib.sha256(file.read()).hexdigest())

    def sign(self, *words, status=0):
        return self.in_process("sign", "-r", self.tree, "--door", self.url, *words, status=status)

    def publish(self):
        with open(self.at("publications"), "wb") as file:
            file.write(self.house.publish())

    def rows_in(self, name):
        with open(self.at(name), encoding="utf-8", newline="") as file:
            return {it["path_hex"] and bytes.fromhex(it["path_hex"]) or it["path"].encode(): it for it in csv.DictReader(file)}

    def test_a_tree_of_odd_names(self):
        self.odd_tree(COUNT)
        many = f"{COUNT:,}"
        self.assertIn(f"{many} signed", self.sign("--report", self.at("signed.csv")))
        self.see_all_signed()
        self.assertLess(len(self.house.requests), 60)
        self.assertIn(f"{many} already signed", self.sign())
        self.publish()
        self.assertIn(f"{many} pending", self.in_process("verify", "-r", self.tree, status=1))
        self.assertIn(f"{many} extended", self.in_process("extend", "-r", self.tree, "--door", self.url))
        self.assertIn(f"{many} already extended", self.in_process("extend", "-r", self.tree, "--door", self.url))
        said = self.in_process("verify", "-r", self.tree, "--report", self.at("verified.json"))
        self.assertIn(f"{many} accepted", said)
        self.assertIn("publication not compared with any outside copy", said)
        with open(self.at("verified.json"), encoding="utf-8") as file:
            report = json.load(file)
        self.assertEqual([bytes.fromhex(it["path_hex"]) if it["path_hex"] else it["path"].encode() for it in report["files"]], self.in_order())
        row = report["files"][7]
        self.assertEqual((row["verdict"], row["publication"], row["root"]), ("accepted", *self.house.listed[0]))
        rows = list(self.rows_in("signed.csv").values())
        self.assertEqual((len(rows), {it["verdict"] for it in rows}, rows[0]["date"][:11]), (COUNT, {"signed"}, "2023-11-14 "))

    def in_order(self):
        return [it.path for it in trees.entries_of(trees.trees_of([os.fsencode(self.tree)], None, True))]

    def test_what_is_wrong_is_told_apart(self):
        for number in range(12):
            self.file(f"{number:02}", b"document %d" % number)
        self.sign()
        self.publish()
        self.in_process("extend", "-r", self.tree, "--door", self.url)
        at = lambda name: os.path.join(os.fsencode(self.tree), name)
        self.file("01", b"another text")
        os.rename(at(b"02.ksig"), at(b"x"))
        os.rename(at(b"03.ksig"), at(b"02.ksig"))
        os.rename(at(b"x"), at(b"03.ksig"))
        os.remove(at(b"04.ksig"))
        self.file("05.ksig", b"")
        os.remove(at(b"06"))
        os.remove(at(b"07"))
        os.mkfifo(at(b"07"))
        os.symlink("08", at(b"link"))
        os.symlink("loop", at(b"loop"))
        self.file("09.ksig", b"x" * 70_000)
        for does in ("verify", "sign"):
            with self.subTest(does):
                said = self.in_process(does, "-r", self.tree, "--report", self.at("wrong.csv"), *(["--door", self.url] if does == "sign" else []), status=1)
                rows = {os.path.basename(path): it for path, it in self.rows_in("wrong.csv").items()}
                well = "accepted" if does == "verify" else "already signed"
                wanted = {b"00": well, b"01": "changed", b"02": "signature of another file", b"03": "signature of another file", b"05": "signature damaged", b"07": "passed over",
                          b"08": well, b"09": "not read", b"link": "passed over", b"loop": "passed over", b"04": "no signature" if does == "verify" else "signed"}
                if does == "verify":
                    wanted[b"06"] = "no file"
                self.assertEqual({name: it["verdict"] for name, it in rows.items() if name in {*wanted, b"06"}}, wanted)
                self.assertIn(f"is of {self.tree}/03", rows[b"02"]["remark"])
                self.assertIn("the file has changed since", rows[b"01"]["remark"])
                self.assertIn("(1 a FIFO, 2 a symbolic link)", said)
                self.assertEqual(rows[b"01"]["sha256"], hashlib.sha256(b"another text").hexdigest())
        with open(at(b"05.ksig"), "rb") as file:
            self.assertEqual(file.read(), b"")

    def test_it_is_killed_and_started_again(self):
        """At ten random moments. Then each file has one signature, of its bytes, and nothing is left over."""
        chance = random.Random(7)
        for number in range(300):
            self.file(f"{number % 7}/{number}", b"document %d" % number)
        words = [sys.executable, stands.COMMAND, "sign", "-r", self.tree, "--door", self.url, "--at-once", "40", "--jobs", "2"]
        self.house.pause = 0.02
        for _ in range(10):
            with subprocess.Popen(words, stdout=subprocess.DEVNULL, stderr=subprocess.DEVNULL, env={**os.environ, **signing.ENVIRONMENT}, start_new_session=True) as ran:
                signed = len(self.all_files())
                end = time.monotonic() + 20
                # after some signatures more, so that a slow machine kills in the middle too
                while ran.poll() is None and len(self.all_files()) <= signed + chance.randrange(2, 40) and time.monotonic() < end:
                    time.sleep(chance.random() / 40)
                ran.kill()
            for path in self.all_files():
                if path.endswith(b".ksig"):
                    with open(path, "rb") as file:
                        elements.parts_of(file.read())
            while is_there(ran.pid):
                time.sleep(0.02)
        self.sign()
        self.see_all_signed()

    def test_signatures_in_another_folder(self):
        self.file("a/1"), self.file("b")
        self.sign("--into", self.at("signatures"))
        self.assertEqual(sorted(os.path.relpath(os.path.join(folder, name), self.at("signatures")) for folder, _, names in os.walk(self.at("signatures")) for name in names), ["a/1.ksig", "b.ksig"])
        self.assertIn("2 already signed", self.sign("--into", self.at("signatures")))
        self.publish()
        self.in_process("extend", "-r", self.tree, "--into", self.at("signatures"), "--door", self.url)
        os.remove(self.file("b"))
        self.assertIn("b: no file", self.in_process("verify", "-r", self.tree, "--into", self.at("signatures"), status=1))
        self.assertEqual(self.house.requests, [1])

    @unittest.skipIf(os.geteuid() != 0, "not tried: another user's folder, without root")
    def test_what_another_user_may_not(self):
        """A folder that is read-only is noticed before anything is signed, and unreadable files are named."""
        for name in ("open/1", "shut/2", "hidden/3", "open/4"):
            self.file(name, name.encode())
        for name in (self.room, self.tree):
            os.chmod(name, 0o755)
        os.chown(self.at("tree", "open"), 65534, 65534)
        os.chmod(self.at("tree", "hidden"), 0o700)
        os.chmod(self.at("tree", "open", "4"), 0o600)
        words = [sys.executable, stands.COMMAND, "sign", "-r", self.tree, "--door", self.url]
        ran = subprocess.run(words, capture_output=True, text=True, check=False, user=65534, group=65534, extra_groups=[], env={**os.environ, **signing.ENVIRONMENT, "HOME": "/"})
        for line in ("open/4: not read: Permission denied", "hidden: not read: Permission denied", "shut/2: not signed:", "is read-only for this user: --into FOLDER"):
            self.assertIn(line, ran.stderr)
        self.assertEqual((ran.returncode, self.house.requests), (1, [1]))

    def test_a_door_that_refuses_lies_or_is_away(self):
        for number in range(4):
            self.file(f"{number}", b"document %d" % number)
        digest = [hashlib.sha256(b"document %d" % number).hexdigest() for number in range(4)]
        self.house.refuses = {digest[1]}
        self.house.lies = {digest[2]: b"no signature"}
        with mock.patch.object(tree_work.Batches, "send_all", autospec=True, side_effect=once):
            said = self.in_process("sign", "-r", self.tree, "--door", self.url, status=1)
        self.assertIn("1: not signed: not-signed: no second took the request", said)
        self.assertIn("2: not signed: the door returned no signature of this hash", said)
        self.assertIn("2 signed, 2 not signed", said.replace("2 not signed, 2 signed", "2 signed, 2 not signed"))
        self.house.refuses, self.house.lies = set(), {}
        self.assertIn("2 signed", self.in_process("sign", "-r", self.tree, "--door", f"127.0.0.1:1,{self.url}"))
        self.publish()
        self.house.lies = {digest[0]: b"no signature"}
        self.assertIn("0: not extended: the door returned no signature", self.in_process("extend", "-r", self.tree, "--door", self.url, status=1))
        os.remove(os.path.join(self.tree, "3.ksig"))
        with mock.patch.object(batches, "PATIENCE", 0.1):
            said = self.in_process("sign", "-r", self.tree, "--door", "127.0.0.1:1", status=1)
        self.assertIn("no door answers", said)
        self.assertIn("starting again goes on", said)

    def in_process(self, *words, status=0):
        """Runs the command in this process, in the room."""
        told, before = io.StringIO(), os.getcwd()
        os.chdir(self.room)
        try:
            with contextlib.redirect_stdout(told), contextlib.redirect_stderr(told):
                self.assertEqual(command.main([*words[:1], "--folder", self.at("none"), *words[1:], "--jobs", "2"]), status, told.getvalue()[:5000])
        finally:
            os.chdir(before)
        return told.getvalue()

    def test_paths_that_name_a_file_twice(self):
        self.file("a/1"), self.file("a/2", b"two")
        with open(os.path.join(self.tree, "a", "3.ksig"), "wb"):
            os.symlink("nowhere", os.path.join(self.tree, "a", "1.ksig"))
        said = self.in_process("sign", "-r", self.tree, f"{self.tree}/a", f"{self.tree}/a/2", f"{self.tree}/a/../a", "--door", self.url, status=1)
        self.assertIn("1: not read: its signature: it is a symbolic link to a file that is not there", said)
        self.assertIn("1 not read, 1 signed", said)
        self.assertIn("already signed", self.in_process("sign", f"{self.tree}/a/2.ksig", f"{self.tree}/a/2", "--door", self.url))

    def test_a_stopped_service_extends_a_tree(self):
        """By a core's file: here a core that answers from the calendar."""
        self.file("1"), self.file("2", b"two")
        self.sign()
        content, data = self.house.publish(), self.at("data")
        os.mkdir(data)
        for name, held in (("plan", b"ksi-schedule 1\ncores 1\nstart 5\naggregator 0 parent c0\n"), ("publications", content), ("c0.facts", b"")):
            with open(os.path.join(data, name), "wb") as file:
                file.write(held)
        with mock.patch.object(resting_door, "Stopped", lambda *_: Core(self.house)):
            self.assertIn("2 extended", self.in_process("extend", "-r", self.tree, "--folder", data))
            self.assertIn("2 already extended", self.in_process("extend", "-r", self.tree, "--folder", data))
            self.assertIn("--to needs a service that runs", self.in_process("extend", "-r", self.tree, "--folder", data, "--to", "7", status=1))

    def test_words_that_do_not_fit(self):
        self.file("1")
        os.makedirs(self.at("other", "tree"))
        for words, reason in ((["sign", self.tree, "--door", self.url, "--report", "x.csv"], "is a folder: -r takes all files in it"), (["sign", "-r", self.tree, "-o", "x"], "-o names the result for one file"),
                              (["sign", "-r", self.tree], "no service runs over"), (["sign", "-r", self.tree, "--door", self.url, "--report", "x.doc"], "does not end with .csv, .json or .txt"),
                              (["sign", "-r", self.tree, "other/tree", "--into", "x", "--door", self.url], "two of the paths have the name tree"), (["sign", "-r", "absent", "--door", self.url], "absent: No such file"),
                              (["verify", "-r", self.tree], "there is no file `publications` here"), (["verify", "a", "b", "c", "d"], "-r verifies several files")):
            with self.subTest(words=words):
                self.assertIn(reason, self.in_process(*words, status=1))

    def test_two_runs_over_one_tree(self):
        self.file("1")
        with tree_work.held(trees.trees_of([os.fsencode(self.tree)], None, True)):
            self.assertIn("another ksi-service works on", self.in_process("sign", "-r", self.tree, "--door", self.url, status=1))
        self.assertIn("1 signed", self.in_process("sign", "-r", self.tree, "--door", self.url))


class Core:
    """A core of a stopped service, as `proved.Stopped` is one."""

    name = "c0"

    def __init__(self, house):
        self.house = house

    def __enter__(self):
        return self

    def __exit__(self, *_):
        pass

    def ask(self, line):
        word, *numbers = line.split(" ")
        second, last = map(int, numbers)
        if word == "held":
            return [f"root {second} {self.house.roots[second - signing.START][1:].hex()}"]
        tree = self.house.tree_to(last)
        return [f"published {tree.root(last)[1:].hex()}", *(f"{side} {other[1:].hex()}" for side, other in tree.chain(second, last))]


def is_there(group):
    """Whether a process of a group is left: those that a killed command began end too."""
    try:
        os.killpg(group, 0)
        return True
    except ProcessLookupError:
        return False


def once(batches_of, doors, items):
    """Sends items once, whatever is refused."""
    found = doors.send(batches_of.send, [it.entry for it in items])
    batches_of.done(list(zip(items, found)))
    with batches_of.lock:
        batches_of.left -= len(items)


if __name__ == "__main__":
    unittest.main()
