"""The leaves of a block and the tree over them, by Python's SHA-256 (docs/FORMATS.md, "Masked blocks of lines").

A store has the leaves, so a line is proved without the others. What these functions compute is given out only after the proved programs
accepted it: `ksi_blocks block` has the root, and `ksi checkline` the proof."""
from typing import Iterable, List

try:
    # for a text of 100 bytes that of OpenSSL 3 takes 1.4 times as long
    from _sha256 import sha256
except ImportError:
    from hashlib import sha256

from ksi_service.elements import element, number

SIZE = 32
"""The bytes of a leaf in a store: a digest, without the byte 0x01 of an imprint."""
ZERO = bytes(SIZE)
MAGIC_PROOF = b"KSILINE1"


def digest_of(*parts: bytes) -> bytes:
    return sha256(b"".join(parts)).digest()


def mask_after(before: bytes, seed: bytes) -> bytes:
    """The mask of the line after one with this leaf. Before the first line it is ZERO."""
    return digest_of(b"\1", before, seed)


def leaf_of(mask: bytes, line: bytes) -> bytes:
    """The leaf of a line: its mask and its hash, joined at level 1."""
    return digest_of(b"\1", mask, b"\1", digest_of(line), b"\1")


def leaves_of(lines: Iterable[bytes], seed: bytes) -> bytes:
    """The leaves of a block, one after another."""
    leaf, leaves = ZERO, []
    for line in lines:
        mask = sha256(b"\1" + leaf + seed).digest()
        leaf = sha256(b"\1" + mask + b"\1" + sha256(line).digest() + b"\1").digest()
        leaves.append(leaf)
    return b"".join(leaves)


def leaf_at(leaves: bytes, place: int) -> bytes:
    """A leaf by its place from 0, or ZERO before the first one."""
    return leaves[place * SIZE:(place + 1) * SIZE] if place >= 0 else ZERO


def is_line(leaves: bytes, seed: bytes, place: int, line: bytes) -> bool:
    """Whether the line of this place is this one."""
    return leaf_of(mask_after(leaf_at(leaves, place - 1), seed), line) == leaf_at(leaves, place)


def differing(leaves: bytes, seed: bytes, lines: List[bytes]) -> List[int]:
    """The places at which lines differ from those of a block, as far as both have lines."""
    return [place for place in range(min(len(lines), len(leaves) // SIZE)) if not is_line(leaves, seed, place, lines[place])]


def rows_of(leaves: bytes) -> List[List[bytes]]:
    """The tree's nodes by height, the leaves first. A node that has no neighbour goes up unchanged: this is the split of RFC 9162, 2.1.1."""
    row = [leaves[at:at + SIZE] for at in range(0, len(leaves), SIZE)]
    rows = [row]
    while len(row) > 1:
        level = bytes([len(rows) + 1])
        joined = [sha256(b"\1" + left + b"\1" + right + level).digest() for left, right in zip(row[::2], row[1::2])]
        row = joined + row[len(joined) * 2:]
        rows.append(row)
    return rows


def root_of(leaves: bytes) -> bytes:
    return rows_of(leaves)[-1][0]


def proof_of(leaves: bytes, seed: bytes, place: int) -> bytes:
    """The file of the proof of a line: its mask, and the links from its leaf up."""
    parts = [MAGIC_PROOF, element(0x01, imprint(mask_after(leaf_at(leaves, place - 1), seed)))]
    level = 1
    for height, row in enumerate(rows_of(leaves)[:-1]):
        beside = place ^ 1
        if beside < len(row):
            correction = height + 2 - level - 1
            sibling = element(0x02, imprint(row[beside]))
            parts.append(element(0x08 if place & 1 else 0x07, *([number(0x01, correction)] if correction else []), sibling))
            level = height + 2
        place //= 2
    return b"".join(parts)


def imprint(digest: bytes) -> bytes:
    return b"\1" + digest

