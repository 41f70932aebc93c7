"""Signatures that `ksi_roots` extends over calendar files: one, and all of a list. If the proved programs are built, the bytes are those of
`ksi extend` over a journal of the same roots."""
import os
import subprocess
import unittest
from unittest import mock

import stands
from calendared import LAST, SECOND, START, Calendared, root_of, round_of, sample
from ksi_service import programs, roots


class ExtendAll(Calendared):
    def setUp(self):
        super().setUp()
        for folder in ("out", "one"):
            os.mkdir(self.at(folder))
        self.write("one/another", self.signature)
        self.write("cut", self.signature[:-1])

    def stand_in(self):
        """The stand-in for `ksi_roots`."""
        stands.make_program(self.at("bin"), "ksi_roots", "stand_in_roots.py")
        named = mock.patch.dict(os.environ, KSI_BIN=self.at("bin"))
        named.start()
        self.addCleanup(named.stop)

    def check_all(self):
        """Extends a list with an entry that is malformed. Returns what the extension of the signature is."""
        one = roots.extended(self.at("calendar"), self.signature, LAST)
        names = [self.at(it) for it in ("signature", "cut", "one/another")]
        lines = roots.extend_all(self.at("calendar"), names, LAST, self.at("out"))
        self.assertEqual(lines[::2], [f"extended {SECOND} {LAST}"] * 2)
        self.assertRegex(lines[1], "^malformed 2")
        self.assertEqual(sorted(os.listdir(self.at("out"))), ["another", "signature"])
        self.assertEqual({self.content("out/signature"), self.content("out/another")}, {one})
        self.assertEqual(roots.extend_all(self.at("calendar"), names[:1], LAST, self.at("out")), lines[:1])
        self.assertEqual(roots.extend_all(self.at("calendar"), [], LAST, self.at("out")), [])
        return one

    def check_refused(self):
        """Refusals that end a run before its list."""
        for folder, second in (("calendar", LAST + 1), ("out", LAST)):
            with self.assertRaises(roots.NotComputed):
                roots.extend_all(self.at(folder), [self.at("signature")], second, self.at("out"))

    def test_stand_in(self):
        self.stand_in()
        self.check_all()
        self.check_refused()

    @unittest.skipIf(stands.missing("ksi", "ksi_roots"), stands.missing("ksi", "ksi_roots"))
    def test_programs(self):
        one = self.check_all()
        self.check_refused()
        ran = subprocess.run([programs.program("ksi"), "extend", *map(self.at, ("journal", "signature")), str(LAST), self.at("by_ksi")], capture_output=True, text=True, check=False)
        self.assertEqual((ran.returncode, ran.stdout), (0, f"extended {SECOND} {LAST}\n"))
        self.assertEqual(self.content("by_ksi"), one)
        self.assertEqual(roots.root(self.at("calendar"), LAST), sample.calendar(self.leaf, START, 0, LAST + 1)[1:].hex())

    def leaf(self, second):
        """The root of a second, and the zero imprint before the plan."""
        return sample.ZERO if second < START else root_of(round_of(second, sample.make.core))

    @unittest.skipIf(stands.missing("ksi_roots"), stands.missing("ksi_roots"))
    def test_names(self):
        """A line that is no name of a file is reported, and a file that is missing ends the run."""
        with open(self.at("list"), "wb") as file:
            file.write(b"\n\xff\n..\n%s" % os.fsencode(self.at("signature")))
        ran = roots.ran("extend-all", self.at("calendar"), self.at("list"), str(LAST), self.at("out"))
        bad = [f"{it} bad name" for it in (1, 2, 3)]
        self.assertEqual((ran.returncode, ran.stdout.splitlines()), (1, [*bad, f"4 extended {SECOND} {LAST}", "extended 1 of 4"]))
        with self.assertRaisesRegex(roots.NotRun, "status 4"):
            roots.extend_all(self.at("calendar"), [self.at("none"), self.at("signature")], LAST, self.at("out"))


if __name__ == "__main__":
    unittest.main()
