"""Calendar files of a small plan, its journal, and a signature of one of its seconds: written by an independent writer (page/sample.py)."""
import os
import struct
import sys
import tempfile
import unittest

from ksi_service import programs

sys.path.insert(0, os.path.join(programs.TOP, "page"))
import sample  # noqa: E402

START, SECOND, PUBLICATION, LAST = 8190, 8195, 8197, 8199
"""The first second of the plan, that of the signature, that of its publication, and the last one: two calendar files."""
DOCUMENT = b"A deed.\n"
PLAN = b"\x01" + bytes(range(32))


def round_of(second, items):
    """The items of a second: one, or those of the signature's."""
    return items if second == SECOND else [(sample.sha(b"second %d" % second), 0, None)]


def root_of(items):
    return sample.tree([sample.leaf(it) for it in items])[0]


def calendar_file(number, decided):
    return b"KSIROOT1" + PLAN + struct.pack(">QQI", START, number, len(decided)) + b"".join(decided)


def journal(rounds):
    """The journal of the same seconds, with their items."""
    parts = [b"KSIJRNL2", sample.tlv(1, sample.numeral(START))]
    for second, items in rounds.items():
        parts.append(sample.tlv(2, sample.tlv(1, sample.numeral(second)) + sample.tlv(2, root_of(items)) + sample.tlv(3, sample.numeral(len(items)))))
        parts += [sample.tlv(7, imprint + bytes([level]) + name.encode()) if name else sample.tlv(3, imprint + bytes([level])) for imprint, level, name in items]
    return b"".join([*parts, sample.tlv(6, b"")])


class Calendared(unittest.TestCase):
    def setUp(self):
        room = tempfile.TemporaryDirectory(prefix="ksi-test-")
        self.addCleanup(room.cleanup)
        self.room = room.name
        self.signature, _ = sample.make(DOCUMENT, SECOND, PUBLICATION, START)
        rounds = {it: round_of(it, sample.make.core) for it in range(START, LAST + 1)}
        decided = [root_of(it) for it in rounds.values()]
        os.mkdir(self.at("calendar"))
        self.write("calendar/1", calendar_file(1, decided[:2]))
        self.write("calendar/2", calendar_file(2, decided[2:]))
        self.write("journal", journal(rounds))
        self.write("signature", self.signature)

    def at(self, name):
        return os.path.join(self.room, name)

    def write(self, name, content):
        with open(self.at(name), "wb") as file:
            file.write(content)

    def content(self, name):
        with open(self.at(name), "rb") as file:
            return file.read()
