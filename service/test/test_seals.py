"""Seals of trees, proofs of single files, and what verifies them."""
import contextlib
import hashlib
import io
import json
import os
import stat
import subprocess
import unittest
from unittest import mock

import signing
import stands
from ksi_service import command, seals


class SealTest(signing.Signed):
    def setUp(self):
        super().setUp()
        if stands.missing("ksi_blocks", "ksi"):
            self.programs = self.at("bin")
            stands.make_program(self.programs, "ksi_blocks", "stand_in_blocks.py")
            stands.make_program(self.programs, "ksi", "stand_in_blocks.py")
        else:
            self.programs = os.environ.get("KSI_BIN", "")
        for number in range(9):
            self.file(f"{'ab' if number % 2 else 'a'}/{number}", b"document %d" % number)
        self.file("line\nfeed \\", b"odd")
        self.file("empty", b"")

    def command(self, *words, status=0):
        told, before = io.StringIO(), os.getcwd()
        os.chdir(self.room)
        try:
            with contextlib.redirect_stdout(told), contextlib.redirect_stderr(told), mock.patch.dict(os.environ, KSI_BIN=self.programs):
                self.assertEqual(command.main([*words, "--folder", self.at("none")]), status, told.getvalue())
        finally:
            os.chdir(before)
        return told.getvalue()

    def sealed(self, *words, publish=True):
        self.command("seal", "tree", "--door", self.url, *words)
        if publish:
            with open(self.at("publications"), "wb") as file:
                file.write(self.house.publish())
            self.command("extend", "-r", "tree.seal", "--door", self.url)

    def test_one_signature_for_a_tree(self):
        self.sealed()
        self.assertEqual(self.house.requests, [1])
        self.assertEqual(sorted(os.listdir(self.at("tree.seal"))), ["0000.ksig", "0000.manifest", "0000.seed"])
        self.assertEqual(stat.S_IMODE(os.stat(self.at("tree.seal", "0000.seed")).st_mode), 0o600)
        said = self.command("verify", "tree", "--seal", "tree.seal", "--report", "report.json")
        self.assertIn("11 accepted", said)
        self.assertIn("publication not compared with any outside copy", said)
        ran = subprocess.run(["sha256sum", "--quiet", "-c", "../tree.seal/0000.manifest"], cwd=self.tree, capture_output=True, text=True, check=False)
        self.assertEqual((ran.returncode, ran.stderr), (0, ""))
        self.assertIn("is there already, and is not replaced", self.command("seal", "tree", "--door", self.url, status=1))

    def test_a_proof_of_one_file(self):
        self.sealed()
        self.assertIn("recorded in second 1700000000", self.command("prove", "tree", "tree/a/4"))
        self.assertEqual(sorted(os.listdir(self.at("tree", "a", "4.proof"))), ["line", "proof", "publications", "signature"])
        os.rename(self.at("tree", "a", "4.proof"), self.at("proof"))
        os.remove(self.at("publications"))
        said = self.command("verify", "tree/a/4", "--proof", "proof")
        second, root = self.house.listed[0]
        for line in ("accepted 1700000000", "as a/4 of a sealed tree", f"existed before 2023-11-14 22:13:21 UTC, by the publication of root {root}", "publication not compared with any outside copy"):
            self.assertIn(line, said)
        self.assertIn("the print has the same publication", self.command("verify", "tree/a/4", "--proof", "proof", "--print", f"{second} {root}"))
        self.assertIn("is not the file of this proof", self.command("verify", "tree/a/2", "--proof", "proof", status=1))
        with open(self.at("proof", "line"), "wb") as file:
            file.write(seals.line_of(b"a/2", hashlib.sha256(b"document 4").digest()))
        self.assertIn("proof: refused V1", self.command("verify", "tree/a/4", "--proof", "proof", status=1))
        self.assertIn("proof is there already", self.command("prove", "tree", "tree/a/4", "-o", "proof", status=1))
        self.assertIn("is not in tree.seal", self.command("prove", "tree", "publications", status=1))
        self.command("prove", "tree", "tree/line\nfeed \\", "-o", "odd", "--publications", "proof/publications")
        self.assertIn("accepted", self.command("verify", "tree/line\nfeed \\", "--proof", "odd"))

    def test_what_is_wrong_with_a_sealed_tree(self):
        self.sealed()
        self.file("a/0", b"another text")
        os.remove(self.at("tree", "ab", "1"))
        os.remove(self.at("tree", "ab", "7"))
        self.file("ab/new", b"new")
        self.file("z", b"new")
        self.command("verify", "tree", "--seal", "tree.seal", "--report", "report.json", status=1)
        with open(self.at("report.json"), encoding="utf-8") as file:
            rows = {os.path.relpath(it["path"], "tree"): it["verdict"] for it in json.load(file)["files"]}
        wrong = {name: verdict for name, verdict in rows.items() if verdict != "accepted"}
        self.assertEqual(wrong, {"a/0": "changed", "ab/1": "no file", "ab/7": "no file", "ab/new": "no signature", "z": "no signature"})
        self.assertIn("has changed since the tree was sealed", self.command("prove", "tree", "tree/a/0", status=1))

    def test_several_blocks(self):
        with mock.patch.object(seals, "MOST_LINES", 4):
            self.sealed(publish=False)
            self.assertEqual((self.house.requests, seals.blocks_of(self.at("tree.seal"))), ([3], 3))
            self.command("publications", "-o", "publications", status=1)
            with open(self.at("publications"), "wb") as file:
                file.write(self.house.publish())
            self.assertIn("11 pending", self.command("verify", "tree", "--seal", "tree.seal", status=1))
            self.assertIn("pending: of second 1700000000", self.command("prove", "tree", "tree/ab/5"))
            self.assertIn("pending: of second 1700000000", self.command("verify", "tree/ab/5", "--proof", "tree/ab/5.proof", status=1))
            self.assertIn("3 extended", self.command("extend", "-r", "tree.seal", "--door", self.url))
            self.assertIn("not in the seal", self.command("verify", "tree", "--seal", "tree.seal", status=1))

    def test_nothing_is_sealed_in_part(self):
        """Neither if a file is not read, nor if the door refuses, nor if it is killed: an older try is replaced."""
        os.makedirs(self.at("tree.seal.new", "x"))
        os.symlink("nowhere", self.at("tree", "link"))
        with mock.patch.object(seals, "root_of", side_effect=seals.BadSeal("refused B3")):
            self.assertIn("refused B3", self.command("seal", "tree", "--door", self.url, status=1))
        self.file("0" * 200 + "/" + "\\" * 200 + "/" + "\\" * 250 + "/" + "\\" * 250 + "/x")
        with mock.patch.object(seals, "MOST_LINE", 500):
            self.assertIn("its path is too long", self.command("seal", "tree", "--door", self.url, status=1))
        self.assertEqual([it for it in os.listdir(self.room) if it.startswith("tree.")], [])
        os.mkdir(self.at("bare"))
        self.assertIn("has no files to seal", self.command("seal", "bare", "--door", self.url, status=1))
        self.assertIn("is no folder", self.command("seal", "tree/empty", "--door", self.url, status=1))

    def test_names_and_order(self):
        for path in (b"a", b"a b", b"x\ny", b"back\\slash", b"\\n", b"both\\\n\\n", b"\xff\xfe", b"\\\\\n"):
            self.assertEqual(seals.parsed(seals.line_of(path, bytes(range(32)))), (path, bytes(range(32))))
        self.assertRaises(seals.BadSeal, seals.parsed, b"no line")
        paths = [it.path for it in seals.sealed_in(self.sealed() or self.at("tree.seal"))]
        self.assertEqual(paths, sorted(paths, key=seals.order_of))


if __name__ == "__main__":
    unittest.main()
