"""The files that the host makes: publications, mirrors, extensions; and what is whole or not there."""
import fcntl
import os
import tempfile
import threading
import types
import unittest
from unittest import mock

import stands
from ksi_service import backup, check, elements, extension, files, replay
from ksi_service.folders import Folders
from ksi_service.hours import Broken
from ksi_service.plan import Plan
from ksi_service.proved import Refused, ksi
from ksi_service.publications import Publications
from ksi_service.record import Signed
from ksi_service.retrace import Differs

DATA = os.path.join(os.path.dirname(os.path.dirname(stands.HERE)), "crates", "ksi", "data")
ONES, TWOS = "1" * 64, "2" * 64


def data(name):
    with open(os.path.join(DATA, name), "rb") as file:
        return file.read()


class ElementsTest(unittest.TestCase):
    def test_a_publications_file_is_as_ksi_writes_it(self):
        self.assertEqual(elements.publications_file(elements.published_in(data("publications"))), data("publications"))
        told = elements.published_in(data("linked_publications"))
        self.assertEqual(elements.published_in(elements.publications_file(told)), told)

    def test_what_a_signature_has(self):
        parts = elements.parts_of(data("linked_signature"))
        self.assertEqual((parts.second, parts.imprint[:8]), (5, "e3b0c442"))
        self.assertEqual(sum(len(it) for it in parts.kept) < len(data("linked_signature")), True)

    def test_cut_or_changed_bytes_are_no_signature(self):
        whole = data("linked_signature")
        for content in [whole[:at] for at in range(len(whole))] + [b"KSIPUBLF", whole + whole]:
            self.assertRaises(elements.Malformed, elements.parts_of, content)

    def test_forms_of_an_element(self):
        self.assertEqual(elements.element(0x03, b"ab"), b"\x03\x02ab")
        self.assertEqual(elements.element(0x703, b"ab"), b"\x87\x03\x00\x02ab")
        self.assertEqual(elements.element(0x03, b"a" * 256)[:4], b"\x80\x03\x01\x00")
        self.assertEqual(elements.number(0x02, 0) + elements.number(0x02, 256), b"\x02\x00\x02\x02\x01\x00")
        self.assertRaises(elements.Malformed, elements.element, 0x03, b"a" * 65536)

    @unittest.skipIf(stands.missing("ksi"), stands.missing("ksi"))
    def test_mirrors_are_merged_by_ksi(self):
        with tempfile.TemporaryDirectory() as room:
            for core, rows in ((0, [["root", "5", ONES], ["item", "5", ONES, "0"]]), (1, [["root", "6", "0" * 64]])):
                files.write(os.path.join(room, f"m{core}"), elements.mirror_file(5, core, rows))
            self.assertEqual(ksi("merge", "m0", "m1", "m", cwd=room), "merged 2")
            self.assertEqual(ksi("whole", "m", "journal", cwd=room), "whole 2")

    @unittest.skipIf(stands.missing("ksi"), stands.missing("ksi"))
    def test_an_extension_is_that_of_ksi(self):
        with tempfile.TemporaryDirectory() as room:
            ksi("make", "7", "schedule", cwd=room)
            ksi("replay", "schedule", "journal", cwd=room)
            ksi("sign", "journal", "5", "signature", cwd=room)
            last = 1700000255
            ksi("extend", "journal", "signature", str(last), "extended", cwd=room)
            with open(os.path.join(room, "signature"), "rb") as one, open(os.path.join(room, "extended"), "rb") as other:
                signature, wanted = one.read(), other.read()
            top = next(it for it in elements.read(wanted))
            calendar = next(it for it in elements.read(top.body) if it.kind == 0x802)
            record = next(it for it in elements.read(top.body) if it.kind == 0x803)
            root = next(elements.read(next(elements.read(record.body)).body, 6)).body[1:].hex()
            links = [("left" if it.kind == 7 else "right", it.body[1:].hex()) for it in elements.read(calendar.body) if it.kind in (7, 8)]
            parts = elements.parts_of(signature)
            self.assertEqual(elements.extended(parts, last, parts.root, root, links), wanted)

    @unittest.skipIf(stands.missing("ksi"), stands.missing("ksi"))
    def test_publications_of_a_journal_are_those_of_ksi(self):
        with tempfile.TemporaryDirectory() as room:
            ksi("make", "7", "schedule", cwd=room)
            ksi("replay", "schedule", "journal", cwd=room)
            journal = os.path.join(room, "journal")
            published = replay.published_by(files.content_of(journal))
            self.assertTrue(published)
            self.assertEqual(published, replay.published_by_ksi(journal, os.path.join(room, "publications")))


class BackupTest(unittest.TestCase):
    def test_a_part_of_another_backup_is_none_of_this_one(self):
        """As one of a longer run, in a folder that is used again."""
        asked = []
        with tempfile.TemporaryDirectory() as room:
            for name, content in (("plan", Plan(1, 5, ("c0",)).text().encode()), ("c0.facts", b""), ("mirror.1", b"another")):
                files.write(os.path.join(room, name), content)
            with mock.patch.object(backup, "Stopped"), mock.patch.object(backup, "mirrors", lambda *_: [b"this"]), mock.patch.object(backup, "ksi", lambda *words: asked.append(os.path.basename(words[1]))):
                backup.make(room, room, 7, say=lambda text: None)
            self.assertEqual(files.content_of(os.path.join(room, "mirror.1")), b"another")
        self.assertEqual(asked, ["mirror.0"])


class CheckTest(unittest.TestCase):
    def test_what_was_handed_out_and_is_no_signature_differs(self):
        """`check --by-node` compares no signatures with the world's, so that here it is found first."""
        with tempfile.TemporaryDirectory() as room:
            for name, content in (("plan", Plan(1, 5, ("c0",)).text().encode()), ("c0.facts", b"")):
                files.write(os.path.join(room, name), content)
            publications = Publications(room)
            publications.add(9, ONES)
            for content in (b"", b"junk"):
                with mock.patch.object(check, "Stopped"), self.assertRaisesRegex(Differs, "no signature"):
                    check.use(Folders(room), [content], publications, 9, 0)
            with mock.patch.object(check, "told", lambda _: [Signed(0, "no hex")]), self.assertRaisesRegex(Differs, "no signature"):
                check.look(["record"], 5)


class Teller:
    """A core that tells roots, and a chain or none."""

    def __init__(self, roots, chain):
        self.roots, self.chain, self.asked, self.name = roots, chain, [], "c0"

    def ask(self, line):
        self.asked.append(line)
        word, first, count = line.split(" ")
        if word == "chain":
            return self.chain
        return [f"root {it} {self.roots[it]}" for it in range(int(first), int(first) + int(count)) if it in self.roots]


class ExtensionTest(unittest.TestCase):
    """Without `ksi`: what is asked of a core, and when nothing is extended."""

    def setUp(self):
        self.signature = data("linked_signature")
        self.parts = extension.wanted(self.signature, 9)
        self.room = tempfile.TemporaryDirectory()
        self.addCleanup(self.room.cleanup)
        self.publications = Publications(self.room.name)
        self.publications.add(9, ONES)

    def extend(self, roots, chain, says="accepted 5"):
        self.core = Teller(roots, chain)
        with mock.patch.object(extension, "ksi", side_effect=says if isinstance(says, Exception) else [says]):
            return extension.extend_by(self.core, self.signature, self.publications)[1]

    def test_a_chain_that_a_core_tells(self):
        content = self.extend({5: self.parts.root}, [f"published {TWOS}", f"left {ONES}", f"right {TWOS}"])
        self.assertEqual(elements.parts_of(content), self.parts)
        self.assertEqual(self.core.asked, ["held 5 1", "chain 5 9"])

    def test_a_second_of_sixty_thousand_bytes_is_told_as_what_it_is(self):
        for size in (9, 60_000):
            chain = elements.element(0x801, elements.element(0x02, b"\xff" * size), elements.element(0x05, bytes(33)))
            with self.assertRaisesRegex(extension.NotExtended, "a number has more than 8 bytes"):
                extension.wanted(elements.element(0x800, chain), 9)

    def test_what_is_not_extended(self):
        held, chain = {5: self.parts.root}, [f"published {TWOS}"]
        for roots, chain, says, reason in (
                ({}, [], "", "lacks a second"), ({5: ONES}, chain, "", "another root"), ({5: self.parts.root}, ["not held"], "", "lacks a second"),
                (held, chain, Refused(1, "refused V14 9"), "V14"), (held, chain, "accepted 6", "accepted 6")):
            with self.assertRaisesRegex(extension.NotExtended, reason):
                self.extend(roots, chain, says)
        with self.assertRaisesRegex(extension.NotExtended, "after the last publication"):
            extension.wanted(self.signature, 4)
        with self.assertRaisesRegex(extension.NotExtended, "cut off"):
            extension.wanted(b"\x88\x00\x00\x00\x00", 9)


class FilesTest(unittest.TestCase):
    def setUp(self):
        self.room = tempfile.TemporaryDirectory()
        self.addCleanup(self.room.cleanup)
        self.path = os.path.join(self.room.name, "file")

    def test_a_file_that_cannot_be_written_leaves_the_one_before(self):
        files.write(self.path, b"one")
        with mock.patch("os.fsync", side_effect=OSError(28, "No space left on device")), self.assertRaises(OSError) as full:
            files.write(self.path, b"two")
        self.assertEqual((full.exception.errno, full.exception.filename), (28, self.path))
        self.assertEqual((files.content_of(self.path), os.listdir(self.room.name)), (b"one", ["file"]))

    def test_a_file_that_is_replaced_keeps_its_mode(self):
        """As a signature that others may not read, when it is extended."""
        files.write(self.path, b"one")
        os.chmod(self.path, 0o600)
        files.write(self.path, b"two")
        self.assertEqual((files.content_of(self.path), os.stat(self.path).st_mode & 0o777), (b"two", 0o600))

    def test_the_names_of_new_folders_are_on_the_disk(self):
        synced, room = [], os.path.realpath(self.room.name)
        with mock.patch("os.fsync", lambda number: synced.append(os.readlink(f"/proc/self/fd/{number}"))):
            files.make_folder(os.path.join(room, "new", "data"))
            files.make_folder(os.path.join(room, "new", "data"))
        self.assertEqual(synced, [room, os.path.join(room, "new")])
        self.assertRaises(FileExistsError, files.make_folder, files.__file__)

    def test_a_folder_is_locked_once(self):
        held = files.lock(self.room.name)
        self.assertRaises(files.Held, files.lock, self.room.name)
        self.assertTrue(files.is_held(self.room.name))
        held.close()
        self.assertFalse(files.is_held(self.room.name))
        files.lock(self.room.name).close()

    def test_root_runs_nothing_over_a_folder_of_another_user(self):
        """That user could not open what root leaves, as the file of an aggregator that forgot. The owner is made up, so that no test has
        to be root."""
        files.write(os.path.join(self.room.name, "lock"), b"")

        def owned(user):
            return mock.patch.object(os, "fstat", lambda number: types.SimpleNamespace(st_uid=user))
        with mock.patch.object(os, "geteuid", lambda: 0):
            with owned(65534):
                self.assertFalse(files.is_held(self.room.name))
                with self.assertRaisesRegex(files.Foreign, "lock is of the user nobody"):
                    files.lock(self.room.name)
            with owned(54321), self.assertRaisesRegex(files.Foreign, "lock is of the user 54321"):
                files.lock(self.room.name)
            with owned(0):
                files.lock(self.room.name).close()
        with mock.patch.object(os, "geteuid", lambda: 54321), owned(65534):
            files.lock(self.room.name).close()

    def test_a_file_system_without_locks_is_no_other_service(self):
        with mock.patch("fcntl.flock", side_effect=OSError(37, "No locks available")):
            with self.assertRaisesRegex(OSError, "No locks available: .*/lock"):
                files.lock(self.room.name)

    def test_who_looks_whether_a_folder_is_held_keeps_nobody_out(self):
        looking = files.lock_of(os.path.join(self.room.name, "lock"), "", fcntl.LOCK_SH)
        self.assertFalse(files.is_held(self.room.name))
        threading.Timer(0.05, looking.close).start()
        files.lock(self.room.name).close()

    def test_publications_rise_and_are_found_again(self):
        publications = Publications(self.room.name)
        self.assertIsNone(publications.last())
        told = [publications.add(second, root) for second, root in ((5, ONES), (9, TWOS), (7, ONES))]
        self.assertEqual(told, [True, True, False])
        self.assertEqual(Publications(self.room.name).published, [(5, ONES), (9, TWOS)])

    def test_a_file_that_is_no_publications_file_is_left_and_named(self):
        whole = elements.publications_file([(5, ONES), (9, TWOS)])
        path, magic = os.path.join(self.room.name, "publications"), elements.MAGIC_PUBLICATIONS
        for content in (b"", b"junk", whole[:-3], magic + elements.element(0x703), magic + elements.element(0x703, elements.element(0x10))):
            files.write(path, content)
            with self.assertRaisesRegex(Broken, "publications is damaged"):
                Publications(self.room.name)
            self.assertEqual(files.content_of(path), content)


if __name__ == "__main__":
    unittest.main()
