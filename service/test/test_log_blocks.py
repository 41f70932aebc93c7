"""Blocks of ksi-log: how a log is cut, and its leaves and proofs compared with an independent writer and with the proved `ksi_blocks`."""
import bz2
import gzip
import hashlib
import lzma
import os
import tempfile
import unittest
from unittest import mock

import logged
import stand_in_lines
from ksi_log import hashing, leaves, lines, programs
from ksi_log.errors import LogError
from ksi_log.lines import LONGEST, Log, mark, recorded

SEED = bytes(range(32))


class LinesTest(unittest.TestCase):
    def setUp(self):
        folder = tempfile.TemporaryDirectory()
        self.addCleanup(folder.cleanup)
        self.path = os.path.join(folder.name, "log")

    def cuts(self, content):
        with open(self.path, "wb") as file:
            file.write(content)
        with Log(self.path) as log:
            return list(log.cuts(0))

    def test_each_line_is_in_one_block(self):
        with mock.patch.object(lines, "MOST_LINES", 2):
            found = self.cuts(b"a\n\nb\r\nc\n\n")
            self.assertEqual([it.lines for it in found], [[b"a", b""], [b"b\r", b"c"], [b""]])
            self.assertEqual([(it.first_byte, it.size, it.is_ended) for it in found], [(0, 3, True), (3, 5, True), (8, 1, True)])
            self.assertEqual([it.text for it in found], [b"a\n\n", b"b\r\nc\n", b"\n"])
        self.assertEqual(self.cuts(b""), [])
        last, = self.cuts(b"\n\0a\xff")
        self.assertEqual((last.lines, last.size, last.is_ended, last.text), ([b"", b"\0a\xff"], 4, False, b"\n\0a\xff\n"))

    def test_a_block_has_a_limit_of_bytes(self):
        with mock.patch.object(lines, "MOST_BYTES", 10):
            self.assertEqual([it.size for it in self.cuts(b"12345\n12345\n12345\n")], [12, 6])

    def test_long_lines_and_lines_like_their_replacements(self):
        whole, long, huge = b"w" * LONGEST, b"l" * (LONGEST + 1), b"h" * 3_000_000
        self.assertEqual(recorded(long), b"ksi-log replaced 8001 bytes SHA-256 " + hashlib.sha256(long).hexdigest().encode())
        self.assertEqual((recorded(whole), recorded(b"")), (whole, b""))
        marked = mark(1, "00" * 32)
        self.assertEqual(recorded(marked), mark(len(marked), hashlib.sha256(marked).hexdigest()))
        for end in (b"\n", b""):
            found, = self.cuts(b"\n".join([whole, long, huge, marked, b"", long]) + end)
            self.assertEqual(found.lines, [whole, recorded(long), recorded(huge), recorded(marked), b"", recorded(long)])
            self.assertEqual((found.size, found.is_ended), (os.path.getsize(self.path), bool(end)))
        with Log(self.path) as log:
            before = log.take(0, 2)
            self.assertEqual(log.line(before.size), huge)

    def test_compressed_logs_and_files_that_are_none(self):
        content = b"one\ntwo\n" * 100
        for compress in (gzip.compress, bz2.compress, lzma.compress):
            found, = self.cuts(compress(content))
            self.assertEqual(found.text, content)
            with self.assertRaisesRegex(LogError, "is damaged"):
                self.cuts(compress(content)[:-9])
        os.mkfifo(f"{self.path}.fifo")
        with self.assertRaisesRegex(LogError, "not a regular file"):
            Log(f"{self.path}.fifo")


class LeavesTest(unittest.TestCase):
    def test_trees_and_proofs_are_those_of_the_formats(self):
        for count in [*range(1, 20), 33, 100]:
            block = [b"line %d" % it for it in range(count)]
            masks, found = stand_in_lines.masks_and_leaves(block, SEED)
            content = leaves.leaves_of(block, SEED)
            self.assertEqual([b"\1" + leaves.leaf_at(content, it) for it in range(count)], found)
            self.assertEqual(b"\1" + leaves.root_of(content), stand_in_lines.node(found)[0])
            for place in range(count):
                proof = leaves.proof_of(content, SEED, place)
                self.assertEqual(proof, stand_in_lines.proof_file(masks[place], stand_in_lines.links(found, place)[0]))
                self.assertEqual(stand_in_lines.root_by(block[place], proof)[1:], leaves.root_of(content))

    def test_lines_that_differ_are_found_one_by_one(self):
        block = [b"line %d" % it for it in range(9)]
        content = leaves.leaves_of(block, SEED)
        self.assertEqual(leaves.differing(content, SEED, block), [])
        self.assertEqual(leaves.differing(content, SEED, [*block[:3], b"other", *block[4:8], b""]), [3, 8])
        self.assertEqual(leaves.differing(content, SEED, block[:4]), [])
        self.assertTrue(all(leaves.is_line(content, SEED, place, block[place]) for place in range(9)))

    def test_blocks_are_hashed_by_processes(self):
        block = [b"line %d" % it for it in range(100)]
        text, content = b"\n".join(block) + b"\n", leaves.leaves_of(block, SEED)
        with hashing.Hashers() as hashers:
            self.assertEqual([hashers.hash(text, SEED) for _ in range(3)], [[leaves.root_of(content), content]] * 3)
        hasher = hashing.Hasher()
        self.addCleanup(hasher.close)
        hasher._process.kill()
        with self.assertRaisesRegex(LogError, "a process that hashes ended"):
            hasher.hash(text * 10_000, SEED)

    def test_the_proved_program_agrees(self):
        why = logged.missing()
        if why:
            self.skipTest(why)
        for count in (1, 2, 3, 7, 64, 1000):
            block = [b"l" * it for it in range(count)]
            content, text = leaves.leaves_of(block, SEED), b"\n".join(block) + b"\n"
            self.assertEqual(programs.root_of(text, SEED), leaves.root_of(content))
            for place in {0, count // 2, count - 1}:
                self.assertEqual(programs.located(text, SEED, block[place], leaves.proof_of(content, SEED, place)), (f"in {place}", 0))
        with self.assertRaisesRegex(LogError, "refused B3"):
            programs.root_of(b"", SEED)


if __name__ == "__main__":
    unittest.main()
