"""Audits by `ksi_roots` over calendar files and the items of one second. Its lines are those of `ksi audit` over a journal of the whole
plan. The items are saved as `ksi-service items --save` saves them."""
import hashlib
import os
import subprocess
import unittest

import stands
from calendared import DOCUMENT, LAST, PUBLICATION, SECOND, START, Calendared, root_of, round_of, sample
from ksi_service import elements, programs

HASH = hashlib.sha256(DOCUMENT).hexdigest()


def rows_of(items):
    return [(imprint[1:].hex(), level, name) for imprint, level, name in items]


def items_file(second, items):
    return elements.items_file(second, root_of(items)[1:].hex(), rows_of(items))


@unittest.skipIf(stands.missing("ksi", "ksi_roots"), stands.missing("ksi", "ksi_roots"))
class AuditTest(Calendared):
    def setUp(self):
        super().setUp()
        self.items = sample.make.core
        self.write("items", items_file(SECOND, self.items))
        published = sample.calendar(lambda it: sample.ZERO if it < START else root_of(round_of(it, self.items)), START, 0, PUBLICATION + 1)
        self.write("publications", elements.publications_file([(PUBLICATION, published[1:].hex())]))

    def ran(self, program, *words):
        told = subprocess.run([programs.program(program), *words], cwd=self.room, capture_output=True, text=True, check=False)
        return told.returncode, told.stdout.strip()

    def audit(self, signature="signature", digest=HASH, second=SECOND, items="items", folder="calendar"):
        return self.ran("ksi_roots", "audit", folder, signature, digest, str(second), items)

    def both(self, signature, digest):
        """The answer, which is that of `ksi audit` too."""
        told = self.audit(signature, digest)
        self.assertEqual(self.ran("ksi", "audit", "journal", signature, digest, "publications"), told)
        return told

    def parts(self, *kinds):
        """The elements of these kinds of the signature."""
        return [it.spelled for it in elements.read(next(elements.read(self.signature)).body) if it.kind in kinds]

    def short(self):
        """A signature of the second's first item itself, and the hash of that item."""
        links = sample.path(self.items, 0)
        imprint = self.items[0][0]
        chain = sample.chain(SECOND, [sample.shape_of(links)], imprint, 0, links)
        return sample.tlv(0x800, b"".join([chain, *self.parts(0x802, 0x803)])), imprint[1:].hex()

    def test_answers(self):
        links = len(sample.path([(sample.sha(b"request"), 0, None)] * 2 + [(b"", 0, "bob")] + [(b"", 0, None)] * 3, 2))
        status, line = self.both("signature", HASH)
        self.assertEqual((status, line.rsplit(" ", 1)[0]), (0, f"beneath {SECOND} 0"))
        self.assertGreater(int(line.rsplit(" ", 1)[1]), links)
        short, digest = self.short()
        self.write("short", short)
        self.assertEqual(self.both("short", digest), (0, f"inside {SECOND} L"))
        self.assertEqual(self.both("signature", "0" * 64), (1, f"refused V1 {HASH} {'0' * 64}"))
        self.write("unfinished", sample.tlv(0x800, b"".join(self.parts(0x801))))
        self.assertEqual(self.both("unfinished", HASH), (1, "refused V7"))

    def test_items(self):
        """A journal of more seconds will do. Items of another second or with another root will not."""
        self.assertEqual(self.audit(items="journal"), self.audit())
        other = [*self.items, (sample.sha(b"one more"), 0, None)]
        self.write("other", items_file(SECOND, other))
        self.assertEqual(self.audit(items="other"), (1, f"other items {SECOND} {root_of(self.items)[1:].hex()} {root_of(other)[1:].hex()}"))
        self.write("next", items_file(SECOND + 1, round_of(SECOND + 1, None)))
        self.assertEqual(self.audit(items="next"), (1, f"no items {SECOND}"))
        self.assertEqual(self.audit(items="next", second=SECOND + 1), (1, f"other second {SECOND}"))
        self.write("cut", self.content("items")[:-1])
        self.assertRegex(self.audit(items="cut")[1], "^malformed 5 J")
        self.write("wrong", self.content("items").replace(b"west", b"east"))
        self.assertRegex(self.audit(items="wrong")[1], f"^malformed 5 J4 {SECOND} ")

    def test_files_and_words(self):
        for told, wanted in ((self.audit(digest="x"), (2, "bad word 3")), (self.audit(second="x"), (2, "bad word 4")), (self.audit(folder="none"), (1, "missing file 2")),
                             (self.audit(signature="items"), (3, "malformed 2 S3 11")), (self.audit(items="none"), (4, "")), (self.audit(signature="none"), (4, ""))):
            with self.subTest(wanted):
                self.assertEqual((told[0], told[1][:len(wanted[1])]), wanted)
        os.remove(self.at("calendar/1"))
        self.assertEqual(self.audit(), (1, "missing file 1"))

    def test_an_extension_is_audited(self):
        self.assertEqual(self.ran("ksi_roots", "extend", "calendar", "signature", str(LAST), "extended")[0], 0)
        self.assertEqual(self.audit("extended"), self.audit())


class ItemsFileTest(unittest.TestCase):
    def test_bytes(self):
        """By docs/FORMATS.md, "Journals". The version is the one that `ksi` writes."""
        digest = bytes(range(32))
        for name, magic, kind in ((None, b"KSIJRNL1", 3), ("bob", b"KSIJRNL2", 7)):
            item = sample.tlv(kind, b"\1" + digest + b"\2" + (name or "").encode())
            second = sample.tlv(2, sample.tlv(1, b"\1\0") + sample.tlv(2, b"\1" + digest) + sample.tlv(3, b"\1"))
            wanted = magic + sample.tlv(1, b"\1\0") + second + item + sample.tlv(6, b"")
            self.assertEqual(elements.items_file(256, digest.hex(), [(digest.hex(), 2, name)]), wanted)
        none = b"KSIJRNL1" + sample.tlv(1, b"\1\0") + sample.tlv(2, sample.tlv(1, b"\1\0") + sample.tlv(2, sample.ZERO) + sample.tlv(3, b"")) + sample.tlv(6, b"")
        self.assertEqual(elements.items_file(256, "0" * 64, []), none)


if __name__ == "__main__":
    unittest.main()
