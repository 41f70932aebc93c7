"""The proved `ksi_blocks`: its lines and the proofs that it saves are those of an independent writer, and each file that is no seed is
refused. If `ksi` is built too, it prints and saves the same."""
import hashlib
import os
import random
import subprocess
import tempfile
import unittest

import stand_in_lines
import stands
from ksi_service import files, programs

SEED = hashlib.sha256(b"the seed of a block").digest()
BLOCKS = 12


@unittest.skipIf(stands.missing("ksi_blocks"), stands.missing("ksi_blocks"))
class Blocks(unittest.TestCase):
    def setUp(self):
        room = tempfile.TemporaryDirectory(prefix="ksi-test-")
        self.addCleanup(room.cleanup)
        self.room = room.name
        self.write("seed", SEED.hex().encode() + b"\n")
        self.write("log", b"one\n\nthree")

    def at(self, name):
        return os.path.join(self.room, name)

    def write(self, name, content):
        files.write(self.at(name), content)

    def told(self, *words, program="ksi_blocks"):
        run = subprocess.run([programs.program(program), *words], capture_output=True, text=True, check=False, timeout=60, cwd=self.room)
        self.assertEqual(run.stderr, "")
        return run.returncode, run.stdout

    def saved(self):
        """The content of the file `out`, which is removed, or None."""
        content = files.content_of(self.at("out")) if os.path.exists(self.at("out")) else None
        if content is not None:
            os.remove(self.at("out"))
        return content

    def agrees(self, command, *words):
        """The program prints and saves what the writer does."""
        told, saved = self.told(command, *words), self.saved()
        line, status = stand_in_lines.run("ksi_blocks", command, *(self.at(it) if not it.isdigit() else it for it in words))
        self.assertEqual((told, saved), ((status, f"{line}\n"), self.saved()), (command, *words))
        return told

    def test_roots_and_proofs_of_random_blocks(self):
        draw = random.Random(79)
        for number in range(BLOCKS):
            lines = [draw.randbytes(draw.randrange(40)).replace(b"\n", b"") for _ in range(1 + draw.randrange(20))]
            k = draw.randrange(len(lines))
            self.write("log", b"".join(line + b"\n" for line in lines))
            self.write("seed", draw.randbytes(32).hex().encode() + b"\n" * (number % 2))
            self.agrees("block", "log", "seed")
            self.agrees("line", "log", "seed", str(k), "out")
            self.told("line", "log", "seed", str(k), "proof")
            self.write("line", lines[k])
            self.assertEqual(self.agrees("locate", "log", "seed", "line", "proof"), (0, f"in {k}\n"))
            self.write("line", lines[k] + b".")
            self.assertEqual(self.agrees("locate", "log", "seed", "line", "proof")[0], 1)

    @unittest.skipIf(stands.missing("ksi"), stands.missing("ksi"))
    def test_ksi_prints_and_saves_the_same(self):
        self.write("none", b"")
        self.write("long", b"one\n" + b"x" * 8001)
        self.told("line", "log", "seed", "1", "proof")
        for command, log, *words in (("block", "log"), ("block", "none"), ("block", "long"), ("block", "missing"), ("line", "log", "2", "out"), ("line", "log", "3", "out"), ("line", "log", "x", "out"),
                                     ("locate", "log", "none", "proof"), ("locate", "log", "log", "proof"), ("locate", "log", "long", "proof"), ("locate", "log", "log", "log")):
            found = [(self.told(command, log, seed, *words, program=program), self.saved()) for program, seed in (("ksi_blocks", "seed"), ("ksi", SEED.hex()))]
            self.assertEqual(found[0], found[1], (command, log, *words))

    def test_files_that_are_no_seeds(self):
        digits = SEED.hex().encode()
        for text in (b"", digits[:-1], digits[:-1] + b"\n", digits.upper(), digits[:-1] + b"g", b" " + digits[1:], digits + b" ", digits[:-2] + "é".encode(), b"\xff" * 64):
            self.write("seed", text)
            for command, *words in (("block",), ("line", "0", "out"), ("locate", "log", "log")):
                self.assertEqual(self.told(command, "log", "seed", *words), (3, "bad seed 2\n"), text)
        self.assertIsNone(self.saved(), "a refused seed saves nothing")
        for text in (digits + b"\n\n", digits + b"\r\n", digits * 2):
            self.write("seed", text)
            self.assertEqual(self.told("block", "log", "seed"), (7, "too long 2\n"), text)

    def test_other_refusals(self):
        self.write("none", b"")
        self.write("long", b"one\n" + b"x" * 8001)
        for words in (["block", "none", "seed"], ["block", "long", "seed"], ["line", "log", "seed", "3", "out"]):
            self.assertEqual(self.agrees(*words)[0], 1)
        for words, answer in (
                (["line", "log", "seed", "-1", "out"], (2, "bad word 3\n")),
                (["locate", "log", "seed", "log", "log"], (3, "malformed 4 G1\n")),
                (["locate", "log", "seed", "long", "log"], (7, "too long 3\n")),
                (["block", "log", "missing"], (4, "")),
                (["block", "missing", "seed"], (4, "")),
                (["line", "log", "seed", "0", "."], (4, "")),
                (["block", "log"], (2, "words refused\n")),
                (["blocks", "log", "seed"], (2, "words refused\n")),
                ([], (2, "words refused\n"))):
            self.assertEqual(self.told(*words), answer, words)


if __name__ == "__main__":
    unittest.main()
