"""Calendar chains from calendar files in milliseconds: a full file has exactly one subtree of the calendar, and the roots of these
subtrees are kept in a file next to the folder. So a chain needs two calendar files, and not all of them.

Nothing here is trusted. If a chain does not lead to the published root, the kept roots are dropped, and the proved `ksi_roots` extends over
all files. An extension is returned only if `ksi verify` accepts it against the publications."""
import hashlib
import logging
import threading
from typing import Callable, Dict, List, NamedTuple, Optional, Tuple

from . import extension, files, roots
from .calendar_files import IMPRINT, SECONDS, SHA256, BadFile, Calendar
from .elements import Parts

MOST_FILES = 256
"""How many files are hashed before one extension. A file takes some 5 milliseconds, once."""
ZERO = SHA256 + bytes(IMPRINT - 1)
log = logging.getLogger(__name__)

Link = Tuple[str, bytes]
"""The side of the chain, and the sibling."""


class Chain(NamedTuple):
    leaf: bytes
    """The second's root."""
    links: List[Link]
    top: bytes
    """The root of the calendar."""


def join(left: bytes, right: bytes) -> bytes:
    return SHA256 + hashlib.sha256(left + right + b"\xff").digest()


def tree(nodes: List[bytes]) -> bytes:
    """The root of nodes, which are cut at the greatest power of two below their number."""
    while len(nodes) > 1:
        pairs = [join(nodes[at], nodes[at + 1]) for at in range(0, len(nodes) - 1, 2)]
        nodes = pairs + nodes[2 * len(pairs):]
    return nodes[0]


def cut(count: int) -> int:
    """The greatest power of two below a number above 1."""
    return 1 << (count - 1).bit_length() - 1


def path(node: Callable[[int, int], bytes], place: int, low: int, count: int) -> List[Link]:
    """The links from a place to the root of the `count` nodes from `low` on, the lowest first. `node` computes the root of a part."""
    if count == 1:
        return []
    middle = low + cut(count)
    if place < middle:
        return [*path(node, place, low, middle - low), ("left", node(middle, low + count - middle))]
    return [*path(node, place, middle, low + count - middle), ("right", node(low, middle - low))]


def climbed(leaf: bytes, links: List[Link]) -> bytes:
    for side, sibling in links:
        leaf = join(leaf, sibling) if side == "left" else join(sibling, leaf)
    return leaf


class Subtrees:
    """The roots of the full files of a calendar."""

    def __init__(self, calendar: Calendar) -> None:
        self.calendar = calendar
        self.path = f"{calendar.folder}.roots"
        self.first = calendar.plan.first_file()
        kept = files.content_of(self.path) or b""
        count = min(len(kept) // IMPRINT, calendar.number - self.first)
        self.roots = [kept[at * IMPRINT:(at + 1) * IMPRINT] for at in range(count)]
        self.above: Dict[Tuple[int, int], bytes] = {}
        """The roots of parts that are full, by their first file and their number of files."""
        self.lock = threading.Lock()

    def leaves(self, number: int) -> List[bytes]:
        """The leaves of a file's seconds: the zero imprint before the plan begins."""
        content = self.calendar.file_roots(number)
        before = self.calendar.plan.first_of(number) - number * SECONDS
        return [ZERO] * before + [content[at:at + IMPRINT] for at in range(0, len(content), IMPRINT)]

    def grow(self, most: int = MOST_FILES) -> bool:
        """Hashes files whose root is not kept yet. Returns whether all roots are there."""
        with self.lock:
            missing = range(self.first + len(self.roots), self.calendar.number)[:most]
            self.roots += [tree(self.leaves(number)) for number in missing]
            if missing:
                files.write(self.path, b"".join(self.roots))
            return self.first + len(self.roots) >= self.calendar.number

    def drop(self) -> None:
        with self.lock:
            self.roots, self.above = [], {}
            files.remove(self.path)

    def part(self, end: int, last: bytes, low: int, count: int) -> bytes:
        """The root of files from `low` on. The file `end` is the last one, and its seconds have the root `last`."""
        if low + count <= self.first:
            zero = ZERO
            for _ in range((count * SECONDS).bit_length() - 1):
                zero = join(zero, zero)
            return zero
        if count == 1:
            return last if low == end else self.roots[low - self.first]
        if (low, count) in self.above:
            return self.above[low, count]
        middle = low + cut(count)
        root = join(self.part(end, last, low, middle - low), self.part(end, last, middle, low + count - middle))
        if low + count <= end:
            self.above[low, count] = root
        return root

    def chain(self, second: int, last: int) -> Chain:
        """The chain of a second in the calendar to a last one, which the files reach."""
        number, end = second // SECONDS, last // SECONDS
        of_end = self.leaves(end)[:last % SECONDS + 1]
        own = of_end if number == end else self.leaves(number)
        inside = path(lambda low, count: tree(own[low:low + count]), second % SECONDS, 0, len(own))
        top = tree(of_end)
        links = inside + path(lambda low, count: self.part(end, top, low, count), number, 0, end + 1)
        leaf = own[second % SECONDS]
        return Chain(leaf, links, climbed(leaf, links))

    def extended(self, parts: Parts, last: int, root: str) -> Optional[bytes]:
        """A signature's extension to a second whose root in hex was published, or None if the kept roots or its second do not give one."""
        if not self.grow() or not self.calendar.plan.start <= parts.second <= last < self.calendar.next:
            return None
        chain = self.chain(parts.second, last)
        if chain.top[1:].hex() != root:
            log.warning("the kept roots of %s do not lead to the root of second %d, and are dropped", self.calendar.folder, last)
            self.drop()
            return None
        if parts.root not in (None, chain.leaf[1:].hex()):
            return None
        return extension.put_together(parts, last, chain.leaf[1:].hex(), root, [(side, it[1:].hex()) for side, it in chain.links])


def extend(subtrees: Subtrees, signature: bytes, parts: Parts, published: Tuple[int, str], publications: str) -> bytes:
    """A signature that is extended over calendar files to a published second, whose root is in hex, and that `ksi verify` accepts against a
    publications file. Raises what `ksi_roots` raises, and NotExtended."""
    last, root = published
    try:
        content = subtrees.extended(parts, last, root)
    except (BadFile, OSError) as reason:
        log.warning("%s gave no chain: %s", subtrees.calendar.folder, reason)
        content = None
    return extension.accepted(lambda: content or roots.extended(subtrees.calendar.folder, signature, last), parts, publications)
