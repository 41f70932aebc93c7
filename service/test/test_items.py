"""The items of a second, from the record of a run."""
import hashlib
import os
import subprocess
import sys
import time
import unittest
from unittest import mock

import stands
from ksi_service import backup, files
from ksi_service.elements import items_file, mirror_file
from ksi_service.hours import Broken
from ksi_service.items import Item, NoItems, items_of, root_of
from ksi_service.plan import Plan
from ksi_service.proved import Refused
from recorded import Recorded
from served import Served, imprint

A, B, C = (digit * 64 for digit in "abc")


def joined(left, right, level):
    return hashlib.sha256(b"\1" + bytes.fromhex(left) + b"\1" + bytes.fromhex(right) + bytes([level])).hexdigest()


def given(core, line, block, message=None):
    return [["given", core, line, message], *([["said", core, block]] if block else [])]


def decided(second, root):
    return given("c1", f"synod 0 {second} success {root}", ["answer done", "stored"])


class TreeTest(unittest.TestCase):
    def test_roots_of_lists(self):
        for found, root in (([], "0" * 64), ([Item(A, 3, None)], A), ([Item(A, 3, None), Item(B, 1, None)], joined(A, B, 4)),
                            ([Item(A, 0, None), Item(B, 0, None), Item(C, 7, None)], joined(joined(A, B, 1), C, 8))):
            self.assertEqual(root_of(found), root)

    def test_the_leaf_of_a_named_item(self):
        """By docs/FORMATS.md, "Names"."""
        for name, metadata in (("bob", "7e02010101 04626f6200"), ("al", "7e010101 03616c00")):
            leaf = hashlib.sha256(b"\1" + bytes.fromhex(A) + bytes.fromhex(metadata) + bytes([3])).hexdigest()
            self.assertEqual(root_of([Item(A, 2, name)]), leaf)


class ItemsTest(Recorded):
    def found(self, second=5):
        root, found = items_of(self.room.name, second)
        return [root, *(it.row(second) for it in found)]

    def test_the_list_with_the_root_is_returned(self):
        """Another core sealed another list, and its candidate lost."""
        self.write(["ready", "c0", 0, 0], ["ready", "c1", 0, 0], *given("c0", f"submission 0 5 {A} 3", ["answer done"]), *given("c1", f"submission 1 5 {C} 0 bob", ["answer done"]),
                   *given("c0", f"submission 2 5 {B} 1", ["answer done"]), *given("c0", f"submission 2 5 {C} 1", ["answer known"]),
                   *given("c0", "submission 2 5 x 1", ["refused hash"]), *given("c1", "seal 5", ["answer done", "stored"]), *given("c0", "seal 5", ["answer done", "stored"]),
                   *given("c0", f"submission 3 5 {C} 1", ["answer late"]), *given("c0", "seal 6", ["answer done", "stored"]),
                   *decided(5, joined(A, B, 4)), *decided(6, "0" * 64), *decided(7, C))
        self.assertEqual(self.found(), [joined(A, B, 4), f"item 5 {A} 3", f"item 5 {B} 1"])
        self.assertEqual(self.found(6), ["0" * 64])
        for second, reason in ((7, "another machine's record"), (8, "has no root of second 8")):
            with self.assertRaisesRegex(NoItems, reason):
                items_of(self.room.name, second)

    def test_lost_replies_and_restarts(self):
        """Of lines without a reply those that happened count. A core that starts again has lost its open items."""
        self.write(["ready", "c0", 0, 0], *given("c0", f"submission 0 5 {A} 3", ["answer done"]), *given("c0", f"submission 1 5 {B} 1", None), *given("c0", "seal 5", None),
                   *given("c0", f"submission 2 6 {C} 1", None), ["ready", "c0", 1, 2], *given("c0", f"submission 0 6 {A} 3", ["answer done"]), ["ready", "c0", 1, 0],
                   *given("c0", f"submission 1 6 {B} 1", ["answer done"]), *given("c0", "seal 6", ["answer done", "stored"]), *decided(5, joined(A, B, 4)), *decided(6, B))
        self.assertEqual(self.found(), [joined(A, B, 4), f"item 5 {A} 3", f"item 5 {B} 1"])
        self.assertEqual(self.found(6), [B, f"item 6 {B} 1"])

    def test_only_the_hours_around_a_second_are_read(self):
        async def work(record):
            record.add(["ready", "c0", 0, 0])
            for second in range(5, 12):
                for entry in (*given("c0", f"submission 0 {second} {A} {second}", ["answer done"]), *given("c0", f"seal {second}", ["answer done", "stored"]), *decided(second, A)):
                    record.add(entry)
                await record.cut()
        self.opened(work)
        self.assertEqual([self.found(second) for second in range(5, 12)], [[A, f"item {second} {A} {second}"] for second in range(5, 12)])
        for number in (1, 2, 7):
            os.remove(os.path.join(self.folder, f"{number:08}.gz"))
        self.assertEqual(self.found(8), [A, f"item 8 {A} 8"])
        for second, fault in ((5, NoItems), (6, NoItems), (11, Broken)):
            self.assertRaises(fault, items_of, self.room.name, second)

    def test_a_backup_has_the_lists_of_seconds_that_cores_forgot(self):
        self.write(["ready", "c0", 0, 0], *given("c0", f"submission 0 5 {A} 3", ["answer done"]), *given("c0", "seal 5", ["answer done", "stored"]), *decided(5, A))
        files.write(os.path.join(self.room.name, "plan"), Plan(1, 5, ("c0",)).text().encode())
        out, asked = os.path.join(self.room.name, "out"), []

        def ksi(word, *paths):
            asked.append(word)
            if word == "whole" and asked.count("whole") == 1:
                raise Refused(1, "refused M4 5")
            if word == "merge":
                asked.append(files.content_of(paths[1]))

        def add_folders(saved, _):
            saved.add(0, b"KSIMIRR1", "core 0")
            return False
        with mock.patch.object(backup, "ksi", ksi), mock.patch.object(backup, "add_folders", add_folders):
            backup.make(self.room.name, out, 5, lambda text: None)
        self.assertEqual(asked, ["whole", "merge", mirror_file(5, 0, [["item", "5", A, "3"]]), "whole"])


class CommandTest(Served):
    def test_items_of_a_running_service(self):
        """By the proved programs the tree of the items has the root; the trees of stand-ins are none."""
        self.start()
        self.assertEqual(self.ask("/sign", imprint(1))[0], 200)
        second = self.status()["last_second"]
        while self.status()["last_second"] < second + 3:
            time.sleep(0.1)
        told = subprocess.run([sys.executable, stands.COMMAND, "items", self.folder, str(second + 1000)], env=self.outside, capture_output=True, text=True, check=False)
        self.assertEqual((told.returncode, told.stdout), (1, ""))
        self.assertIn(f"no root of second {second + 1000}", told.stderr)
        found = []
        for it in range(second, second + 3):
            told = subprocess.run([sys.executable, stands.COMMAND, "items", self.folder, str(it), "--save", f"{self.folder}.items"], env=self.outside, capture_output=True, text=True, check=False)
            found += told.stdout.splitlines()
        self.assertTrue(any(row.startswith("root ") for row in found), found)
        last = max(at for at, row in enumerate(found) if row.startswith("root "))
        (_, second, root), *items = (row.split(" ") for row in found[last:])
        self.assertEqual(files.content_of(f"{self.folder}.items"), items_file(int(second), root, [(it[2], int(it[3]), it[4] if it[4:] else None) for it in items]))


if __name__ == "__main__":
    unittest.main()
