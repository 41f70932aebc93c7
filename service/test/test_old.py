"""Files and folders of earlier versions, in old/VERSION, made by old/make: this version opens, checks, extends and verifies them.

Files of `ksi` are in `files`: a schedule, and what was made from it. A folder of a service that was stopped is in `data`, and signatures
that it gave are in `signed`, each beside its document."""
import asyncio
import os
import tempfile
import time
import unittest

import stands
from ksi_service import check, elements, files
from ksi_service.host import Host
from ksi_service.plan import Plan
from ksi_service.proved import ksi
from ksi_service.publications import Publications
from ksi_service.record import told

OLD = os.path.join(stands.HERE, "old")
VERSIONS = sorted(it for it in os.listdir(OLD) if os.path.isdir(os.path.join(OLD, it)))
EMPTY = "e3b0c44298fc1c149afbf4c8996fb92427ae41e4649b934ca495991b7852b855"
WHY = stands.missing("ksi", "ksi_retrace", stands.NODE)


@unittest.skipIf(WHY, WHY)
class OldTest(unittest.TestCase):
    def each(self, part):
        """A copy of a part of each version."""
        self.assertIn("0.1.0", VERSIONS)
        for version in VERSIONS:
            with tempfile.TemporaryDirectory(prefix="ksi-test-") as room:
                yield stands.copied(os.path.join(OLD, version, part), os.path.join(room, part.strip(".") or "all"))

    def command(self, *words):
        return stands.run_script(self, "ksi-service", *words)

    def test_files_are_verified_and_audited(self):
        for room in self.each("files"):
            self.assertEqual(ksi("verify", "extended", EMPTY, "publications", cwd=room), "accepted 1700000000")
            self.assertEqual(ksi("audit", "journal", "extended", EMPTY, "publications", cwd=room), files.content_of(os.path.join(room, "audit.line")).decode().strip())

    def test_the_same_files_are_made_again(self):
        for room in self.each("files"):
            for saved, words in (("journal", ("replay", "schedule")), ("signature", ("sign", "journal", "0")), ("publications", ("publish", "journal")),
                                 ("extended", ("extend", "journal", "signature", "1700000000")), ("mirror_0", ("mirror", "schedule", "0")),
                                 ("node_0", ("node", "schedule", "0")), ("front", ("front", "journal", "1700000000", "1700000000"))):
                ksi(*words, "again", cwd=room)
                self.assertEqual(files.content_of(os.path.join(room, "again")), files.content_of(os.path.join(room, saved)), saved)

    def test_mirrors_and_node_files_are_read(self):
        for room in self.each("files"):
            self.assertEqual(ksi("whole", "mirror_0", "kept", cwd=room), "whole 1")
            self.assertTrue(ksi("inspect", "node_0", cwd=room))

    def test_a_record_is_checked_and_a_backup_made(self):
        for folder in self.each("data"):
            found = check.check(folder, 100, say=lambda text: None, audits=100)
            self.assertGreaterEqual(found.signatures, 2)
            self.assertIn("part 0: whole ", self.command("backup", folder, f"{folder}.backup"))

    def test_signatures_are_extended_by_the_folder_and_verified(self):
        for room in self.each("."):
            data, signed = os.path.join(room, "data"), os.path.join(room, "signed")
            documents = [it for it in os.listdir(signed) if not it.endswith(".ksig")]
            self.assertTrue(documents)
            for name in documents:
                path = os.path.join(signed, name)
                self.command("extend", f"{path}.ksig", "--folder", data)
                line = self.command("verify", path, f"{path}.ksig", os.path.join(data, "publications"))
                self.assertTrue(line.startswith("accepted "), line)

    def test_a_service_goes_on_with_the_folder(self):
        """With a clock that is set to a time after the last second."""
        for folder in self.each("data"):
            before = list(told(os.path.join(folder, "record")))
            published = Publications(folder).published
            plan = Plan.read(os.path.join(folder, "plan"))
            text = asyncio.run(self.signed_by(folder, plan))
            self.assertGreater(elements.parts_of(bytes.fromhex(text)).second, max(second for second, _ in published))
            self.assertEqual(list(told(os.path.join(folder, "record")))[:len(before)], before)

    async def signed_by(self, folder, plan):
        last = max(second for second, _ in Publications(folder).published)
        shift = last + 10 - time.time()
        host = Host(folder, plan, now=lambda: time.time() + shift)
        try:
            await host.begin()
            text, _ = await asyncio.wait_for(host.desk.sign(EMPTY), 300)
            return text
        finally:
            await host.stop()


if __name__ == "__main__":
    unittest.main()
