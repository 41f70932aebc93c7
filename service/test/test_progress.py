"""Progress of a long command: a bar on a terminal, otherwise lines."""
import contextlib
import importlib.util
import io
import unittest
from unittest import mock

from ksi_service import progress


class Terminal(io.StringIO):
    def isatty(self):
        return True


class ProgressTest(unittest.TestCase):
    def shown(self, out):
        with contextlib.redirect_stderr(out), mock.patch.multiple(progress, LINE_SECONDS=0.0, TERMINAL_SECONDS=0.0):
            it = progress.Progress("sign")
            it.read(1_500_000)
            it.done(7)
            it.say("one is not well")
            it.close()
        return out.getvalue()

    def test_lines_without_a_terminal(self):
        self.assertEqual(self.shown(io.StringIO()), "sign: 0 files, 1.5 MB read, 0 s\nsign: 7 files, 1.5 MB read, 0 s\none is not well\n")

    @unittest.skipUnless(importlib.util.find_spec("tqdm"), "not tried: a bar, without python3-tqdm")
    def test_a_bar_on_a_terminal(self):
        shown = self.shown(Terminal())
        self.assertIn("7 files", shown)
        self.assertIn("1.5 MB read", shown)
        self.assertIn("one is not well\n", shown)

    def test_sizes(self):
        self.assertEqual([progress.size_of(it) for it in (0, 999, 1500, 2_000_000, 3e9, 4e12)], ["0 bytes", "999 bytes", "1.5 kB", "2.0 MB", "3.0 GB", "4.0 TB"])


if __name__ == "__main__":
    unittest.main()
