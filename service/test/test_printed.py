"""Publications as text for a newspaper: every changed character and every two exchanged ones are noticed; the proved `ksi_print` agrees with
plain Python; and the command that prints the last publication."""
import contextlib
import hashlib
import io
import os
import random
import re
import subprocess
import sys
import tempfile
import unittest
import xml.etree.ElementTree
from unittest import mock

import printed
import qrcode
import stands
from ksi_service import command, command_asking, files, programs
from ksi_service.elements import publications_file

DOCUMENT = os.path.join(os.path.dirname(os.path.dirname(stands.HERE)), "docs", "FORMATS.md")
EXAMPLE = (1700003599, "a191ba83d4ae26514882d6471e0a7d7a90e7dd9a6e3752c2e4e70c85c0ffbc8d")
ALL = "0123456789ABCDEFGHIJKLMNOPQRSTUVWXYZ"
PRINTED = 100
"""The publications whose texts are changed in every way."""
COMPARED = 400
"""The changed texts that the proved program reads too."""


def publication(number):
    """A publication by its number. The first ones have the least and the greatest second, and roots of one digit."""
    if number < 4:
        return ((0, "0" * 64), (10 ** 12 - 1, "f" * 64), (253402300799, "0" * 63 + "1"), (253402300800, "1" + "0" * 63))[number]
    return 1700000000 + 86399 * number, hashlib.sha256(str(number).encode()).hexdigest()


def changed(bare):
    """Every text with one other character, and every text with two different characters exchanged."""
    for place, old in enumerate(bare):
        for new in ALL:
            if new != old:
                yield bare[:place] + new + bare[place + 1:]
        for other in range(place + 1, len(bare)):
            if bare[other] != old:
                yield bare[:place] + bare[other] + bare[place + 1:other] + old + bare[other + 1:]


class PrintedTest(unittest.TestCase):
    def test_every_change_is_noticed(self):
        for number in range(PRINTED):
            bare = printed.bare_of(printed.printed(*publication(number)))
            self.assertEqual(printed.read_bare(bare), publication(number))
            read = [it for it in changed(bare) if not isinstance(printed.read_bare(it), str)]
            self.assertEqual(read, [], f"texts of publication {number} that are read")

    def test_the_document_has_the_example(self):
        with open(DOCUMENT, encoding="utf-8") as page:
            shown = "".join(f"    {line}\n" for line in printed.printed(*EXAMPLE).splitlines())
            self.assertIn(shown, page.read())


class ProgramTest(unittest.TestCase):
    """The proved program. It has to be there in CI."""

    def setUp(self):
        if stands.missing("ksi_print"):
            self.skipTest(stands.missing("ksi_print"))
        self.room = tempfile.TemporaryDirectory(prefix="ksi-test-")
        self.addCleanup(self.room.cleanup)

    def at(self, name):
        return os.path.join(self.room.name, name)

    def run_program(self, *words):
        told = subprocess.run([programs.program("ksi_print"), *words], capture_output=True, text=True, check=False, timeout=60)
        return told.returncode, told.stdout

    def read(self, text):
        files.write(self.at("text"), text.encode())
        return self.run_program("read", self.at("text"), self.at("out"))

    def test_texts_are_printed_and_read_again(self):
        for number in range(PRINTED):
            second, root = publication(number)
            files.write(self.at("publications"), publications_file([(second, root)]))
            status, text = self.run_program("text", self.at("publications"), str(second)) if second < 10 ** 12 else (2, "")
            self.assertEqual((status, text), (0, printed.printed(second, root)))
            self.assertEqual(self.read(text.lower().replace(" ", " \r\n\t")), (0, f"read {second} {root}\n"))
            self.assertEqual(files.content_of(self.at("out")), publications_file([(second, root)]))

    def test_changed_texts_are_refused_for_the_same_reason(self):
        draw = random.Random(75)
        for _ in range(COMPARED):
            bare = printed.bare_of(printed.printed(*publication(draw.randrange(PRINTED))))
            text = draw.choice(list(changed(bare)))
            self.assertEqual(self.read(text), (3, f"{printed.read(text)}\n"))

    def test_groups_and_sums_that_are_exchanged(self):
        bare = printed.bare_of(printed.printed(*EXAMPLE))
        first, second, others = bare[45:50], bare[50:55], bare[55:]
        for text, line in ((bare[:45] + second + first + others, "check sum differs"), (bare[:-10] + bare[-5:] + bare[-10:-5], "check sum differs"),
                           (bare.replace("2023", "2024", 1), "date differs"), (bare[1:], "not 135 characters 134"), ("", "not 135 characters 0"),
                           (bare.replace("B", "8"), "group 5 is wrong")):
            self.assertEqual(printed.read(text), line)
            self.assertEqual(self.read(text), (3, f"{line}\n"))
        self.assertFalse(os.path.exists(self.at("out")), "a refused text saves nothing")

    def test_a_second_without_a_publication(self):
        files.write(self.at("publications"), publications_file([EXAMPLE]))
        self.assertEqual(self.run_program("text", self.at("publications"), "5"), (1, "no publication 5\n"))
        self.assertEqual(self.run_program("text", self.at("publications"), str(10 ** 12)), (2, "bad word 2\n"))
        self.assertEqual(self.run_program("text", self.at("nothing"), "5"), (4, ""))
        self.assertEqual(self.run_program("text"), (2, "words refused\n"))


class CommandTest(unittest.TestCase):
    """`ksi-service publications --print`, by a program that prints as plain Python does."""

    def setUp(self):
        self.room = tempfile.TemporaryDirectory(prefix="ksi-test-")
        self.addCleanup(self.room.cleanup)
        self.out = os.path.join(self.room.name, "publications")

    def command(self, *words, status=0):
        """What the command prints."""
        ask = mock.patch.object(command_asking, "ask", lambda *_: publications_file([(5, "1" * 64), EXAMPLE]))
        by_python = mock.patch.object(command_asking.printing, "text", lambda path, second: printed.printed(*EXAMPLE) if (path, second) == (self.out, EXAMPLE[0]) else "")
        said = io.StringIO()
        with ask, by_python, contextlib.redirect_stdout(said), contextlib.redirect_stderr(said):
            self.assertEqual(command.main(["publications", "-o", self.out, *words]), status, said.getvalue())
        return said.getvalue()

    def test_the_text_of_the_last_publication(self):
        self.assertTrue(self.command("--print").endswith(printed.printed(*EXAMPLE)))

    def test_a_missing_package_is_named(self):
        with mock.patch.dict(sys.modules, {"qrcode": None, "qrcode.image.svg": None}):
            self.assertIn("has no python3-qrcode: apt-get install python3-qrcode", self.command("--print", "--qr", self.out + ".svg", status=1))
        self.assertFalse(os.path.exists(self.out + ".svg"))

    def test_a_picture_needs_a_text(self):
        self.assertIn("--qr needs --print", self.command("--qr", self.out + ".svg", status=1))

    def test_the_picture_has_the_text(self):
        self.command("--print", "--qr", self.out + ".svg")
        picture = xml.etree.ElementTree.parse(self.out + ".svg").getroot()
        code = qrcode.QRCode(error_correction=qrcode.constants.ERROR_CORRECT_M)
        code.add_data(" ".join(printed.printed(*EXAMPLE).split()))
        code.make()
        drawn = {(int(x), int(y)) for x, y in re.findall(r"M(\d+),(\d+)H", picture[0].get("d"))}
        self.assertEqual(drawn, {(x, y) for y, row in enumerate(code.get_matrix()) for x, dark in enumerate(row) if dark})


if __name__ == "__main__":
    unittest.main()
