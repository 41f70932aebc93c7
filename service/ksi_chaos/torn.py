"""The state of a file after a power cut: bytes that were written and not synced may be there, be missing, or be others."""
import fcntl

from ksi_service.marks import HEADERS

OPEN, CLOSED = b"\x01", b"\x00"
MOST_NOISE = 200
SECTOR = 512


def gate_behind(content, facts):
    """The place of the commit byte after this many facts (docs/FORMATS.md, "Node files" and "Files of aggregators")."""
    at = HEADERS[content[:8]]
    for _ in range(facts):
        at += 5 + int.from_bytes(content[at + 1:at + 5], "big")
    return at


def image_of(content, at, dice):
    """A torn node file whose facts up to this place were acknowledged. The node writes a record after the closed commit byte and syncs it;
    then it opens the commit byte and syncs that."""
    if content[at:at + 1] == OPEN:
        return content[:at] + dice.choice([OPEN, CLOSED, dice.randbytes(1)]) + content[at + 1:]
    return content[:at + 1] + dice.randbytes(dice.randrange(MOST_NOISE))


def tear(path, facts, dice, place=None):
    """Tears a node's file after this number of facts, or after this place if it is known. Returns whether it did: not while a process has the
    file, nor before its first fact."""
    with open(path, "r+b") as file:
        try:
            fcntl.flock(file, fcntl.LOCK_EX | fcntl.LOCK_NB)
        except OSError:
            return False
        content = file.read()
        if place is None and content[:8] not in HEADERS:
            return False
        image = image_of(content, gate_behind(content, facts) if place is None else place, dice)
        file.seek(0)
        file.write(image)
        file.truncate()
    return True


def torn_write(content, at, dice):
    """The remains of bytes that were appended at a place: they are cut off somewhere, and some sectors are holes."""
    left = bytearray(content[:dice.randrange(len(content) + 1)])
    for sector in range(at // SECTOR, (at + len(left)) // SECTOR + 1):
        if dice.random() < 0.3:
            first, end = max(0, sector * SECTOR - at), min(len(left), (sector + 1) * SECTOR - at)
            left[first:end] = bytes(max(0, end - first))
    return bytes(left)
