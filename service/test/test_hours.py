"""The files of a record: compressed, damaged, or not there."""
import asyncio
import gzip
import hashlib
import os
import tempfile
import time
import unittest
from unittest import mock

from ksi_service import files, hours
from ksi_service import record as records
from ksi_service.hours import Broken
from ksi_service.record import State, names, told
from recorded import SEALED, Recorded


class HoursTest(Recorded):
    def test_a_file_that_is_not_there_is_named(self):
        """As one that was moved to another disk, and not brought back for a check."""
        async def work(record):
            for second in (5, 6, 7):
                for entry in (["given", "c0", f"tell {second}", None], ["said", "c0", ["answer done"]]):
                    record.add(entry)
                await record.cut()
        self.opened(work)
        self.assertEqual(len(list(told(self.folder))), 3)
        for number in (1, 2, 3):
            path = os.path.join(self.folder, f"{number:08}.gz")
            os.rename(path, f"{path}.away")
            with self.assertRaisesRegex(Broken, f"{number:08}.* is not there"):
                list(told(self.folder))
            os.rename(f"{path}.away", path)
        self.assertEqual(len(list(told(self.folder))), 3)

    def test_what_a_damaged_line_hides_is_kept(self):
        """A line in the middle that a disk damaged looks as the end that a crash left, and what is behind it had effects."""
        self.write(*SEALED, ["given", "c0", "tell 5", None], ["said", "c0", ["answer done"]], ["signed", 1, "abcd"])
        path = names(self.folder)[0]
        whole = files.content_of(path)
        at = whole.index(b'["given", "c0", "tell 5"')
        files.write(path, whole[:at] + b"\0" + whole[at + 1:])
        self.assertEqual(self.opened().state.steps, 1)
        self.assertEqual(files.content_of(path) + files.content_of(f"{path}.torn"), whole[:at] + b"\0" + whole[at + 1:])
        self.assertEqual(self.opened().state.steps, 1)
        self.assertEqual((names(self.folder), len(list(told(self.folder)))), ([path], 1))

    def test_what_there_was_no_room_for_is_compressed_at_the_next_cut(self):
        async def work(record):
            with mock.patch.object(hours.packed, "member_of", side_effect=OSError(28, "No space left on device")):
                await record.cut()
                record.packing[-1].result()
            self.assertEqual([os.path.basename(it) for it in names(self.folder)], ["00000001", "00000002"])
            await record.cut()
        self.opened(work)
        self.assertEqual([os.path.basename(it) for it in names(self.folder)], ["00000001.gz", "00000002.gz", "00000003"])

    def test_what_takes_too_long_to_compress_is_left_whole(self):
        async def work(record):
            def until_it_closes():
                while not record.closing:
                    time.sleep(0.01)
            record.add(["given", "c0", "x" * (3 << 20), None])
            record.add(["said", "c0", ["answer done"]])
            record.packer.submit(until_it_closes)
            await record.cut()
        with mock.patch.object(records, "LAST_SECONDS", 0.1):
            self.opened(work)
        self.assertEqual(sorted(os.listdir(self.folder)), ["00000001", "00000002"])
        self.assertEqual((hours.pack_all(self.folder), hours.pack_all(self.folder)), (1, 0))
        self.assertEqual(sorted(os.listdir(self.folder)), ["00000001.gz", "00000002"])
        self.assertEqual([it.block for it in told(self.folder)], [["answer done"]])

    def test_a_full_disk_leaves_no_half_of_a_compressed_file(self):
        self.write(*SEALED)
        path = names(self.folder)[0]
        with mock.patch.object(files, "keep", side_effect=OSError(28, "No space left on device")):
            self.assertFalse(hours.pack(path))
        self.assertEqual(os.listdir(self.folder), ["00000001"])

    def test_a_file_that_was_not_compressed_is_read_once(self):
        self.write(*SEALED)
        with open(os.path.join(self.folder, "00000001.gz"), "wb") as file:
            file.write(b"half of it")
        self.assertEqual(len(list(told(self.folder))), 1)


class DigestTest(Recorded):
    """Each closed file ends with the digest of its lines, and the next one begins with it."""

    def grown(self, cuts=3):
        async def work(record):
            for second in range(5, 5 + cuts):
                for entry in (["given", "c0", f"tell {second}", None], ["said", "c0", ["answer done"]]):
                    record.add(entry)
                await record.cut()
            record.add(["given", "c0", "tell 99", None])
        return self.opened(work)

    def last_hour(self):
        async def work(record):
            await record.see_last_hour()
        self.opened(work)

    def test_closed_files_are_those_that_were_closed(self):
        self.grown()
        self.assertEqual(hours.see_digests(self.folder), 3)
        self.last_hour()
        self.assertEqual(len(list(told(self.folder))), 3)
        self.grown()
        self.assertEqual(hours.see_digests(self.folder), 6)

    def test_a_change_in_a_closed_file_is_found(self):
        self.grown()
        for number in (1, 2, 3):
            path = os.path.join(self.folder, f"{number:08}.gz")
            whole = files.content_of(path)
            lines = gzip.decompress(whole)
            for changed in (lines.replace(b"answer done", b"answer none"), lines + lines.splitlines(keepends=True)[1], b"".join(lines.splitlines(keepends=True)[:-1])):
                self.assertNotEqual(changed, lines)
                files.write(path, gzip.compress(changed))
                self.assertRaises(Broken, hours.see_digests, self.folder)
                if number == 3:
                    self.assertRaises(Broken, self.last_hour)
            files.write(path, whole)
        self.assertEqual(hours.see_digests(self.folder), 3)

    def test_a_file_of_another_run_in_its_place_is_found(self):
        self.grown()
        path = os.path.join(self.folder, "00000002.gz")
        lines = gzip.decompress(files.content_of(path)).splitlines(keepends=True)
        other = [lines[0], *lines[1:-1] * 2]
        ends = f'["ends","{hashlib.sha256(b"".join(other)).hexdigest()}"]\n'.encode()
        files.write(path, gzip.compress(b"".join([*other, ends])))
        self.assertRaisesRegex(Broken, "00000002.gz is not the file that was closed", hours.see_digests, self.folder)

    def test_files_of_before_have_no_digest(self):
        self.write(*SEALED)
        word, state = State().begins()
        del state["digest"]
        self.write([word, state], number=2)
        self.assertEqual(hours.see_digests(self.folder), 0)
        self.last_hour()
        self.grown(1)
        self.assertEqual(hours.see_digests(self.folder), 1)

    def test_a_crash_after_the_last_line_of_a_file_begins_the_next_one(self):
        async def work(record):
            record.add(["ready", "c0", 0, 0])
            with mock.patch.object(files, "write", side_effect=OSError(28, "No space left on device")), self.assertRaises(OSError):
                await record.cut()
        self.opened(work)
        self.assertEqual(len(names(self.folder)), 1)
        self.assertEqual(self.opened().number, 2)
        self.assertEqual(hours.see_digests(self.folder), 1)


class DiscardTest(Recorded):
    def test_all_closed_files_but_some_are_removed(self):
        async def work(record):
            record.discard = 2
            for second in range(5, 10):
                for entry in (["given", "c0", f"seal {second}", None], ["said", "c0", ["answer done"]]):
                    record.add(entry)
                await record.cut()
                await asyncio.wrap_future(record.packing[-1])
            return record.lost()
        lost = []
        self.opened(lambda record: self.noted(work, record, lost))
        self.assertEqual([hours.number_of(it) for it in names(self.folder)], [4, 5, 6])
        self.assertEqual((lost, hours.discarded(self.folder)), ([{"files_discarded": 3, "no_items_before": 7}], 3))
        for work in (lambda: list(told(self.folder)), lambda: hours.see_digests(self.folder)):
            with self.assertRaisesRegex(Broken, "--discard"):
                work()
        self.assertEqual(self.opened().state.steps, 5)

    async def noted(self, work, record, lost):
        lost.append(await work(record))

    def test_nothing_is_removed_unless_it_is_asked_for(self):
        async def work(record):
            for _ in range(4):
                await record.cut()
            self.assertEqual(record.lost(), {})
        self.opened(work)
        self.assertEqual(len(names(self.folder)), 5)


class TornTest(unittest.TestCase):
    def test_what_was_cut_off_before_is_kept_too(self):
        """It may be all that there is of what a disk damaged, and the power may fail again in that hour."""
        with tempfile.TemporaryDirectory() as room:
            path = os.path.join(room, "00000001")
            for rest in (b"one", b"two", b"three", b""):
                files.write(path, b"whole" + rest)
                hours.cut_off(path, 5)
            kept = {name: files.content_of(os.path.join(room, name)) for name in sorted(os.listdir(room))}
        self.assertEqual(kept, {"00000001": b"whole", "00000001.torn": b"one", "00000001.torn.1": b"two", "00000001.torn.2": b"three"})


if __name__ == "__main__":
    unittest.main()
