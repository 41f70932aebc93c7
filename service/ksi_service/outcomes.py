"""What a command did with each file, and the sum of all."""
import collections
import tempfile
import threading
from typing import BinaryIO, Counter, Dict, Iterator, List, NamedTuple, Optional, Set, Tuple

from .looks import DAMAGED, NONE, OTHER, OURS, Look
from .trees import Entry
from .verdicts import EMPTY, dated, is_pending, pending, refused

# in words of a report; the first ones are well, PASSED counts for nothing
ACCEPTED, SIGNED, ALREADY_SIGNED, EXTENDED, ALREADY_EXTENDED = "accepted", "signed", "already signed", "extended", "already extended"
PASSED = "passed over"
PENDING, CHANGED, OF_OTHER, NO_SIGNATURE, NO_FILE = "pending", "changed", "signature of another file", "no signature", "no file"
REFUSED, BROKEN, NOT_READ, NOT_SIGNED, NOT_EXTENDED = "refused", "signature damaged", "not read", "not signed", "not extended"
WELL = {ACCEPTED, SIGNED, ALREADY_SIGNED, EXTENDED, ALREADY_EXTENDED}


class Outcome(NamedTuple):
    path: bytes
    verdict: str
    """One of the words above."""
    remark: str = ""
    size: Optional[int] = None
    digest: bytes = b""
    second: Optional[int] = None
    publication: Optional[int] = None
    root: str = ""
    imprint: str = ""
    """The hash that its signature is of, if it is of another."""

    @property
    def is_well(self) -> bool:
        return self.verdict in WELL

    @property
    def is_bad(self) -> bool:
        return not self.is_well and self.verdict != PASSED

    @property
    def line(self) -> str:
        return f"{shown(self.path)}: {self.verdict}{f': {self.remark}' if self.remark else ''}"


def shown(path: bytes) -> str:
    """A path as text of one line, whatever its bytes are."""
    return "".join(it if it.isprintable() else it.encode("unicode_escape").decode() for it in path.decode("utf-8", "backslashreplace"))


def of_entry(entry: Entry) -> Optional[Outcome]:
    """The outcome of an entry that is not looked at, or None."""
    if entry.is_lost:
        return Outcome(entry.path, NO_FILE, f"there is only its signature, {shown(entry.signature)}")
    if entry.passed:
        return Outcome(entry.path, PASSED, entry.passed)
    return Outcome(entry.path, NOT_READ, entry.fault) if entry.fault else None


def of_look(look: Look, verdict: str, remark: str = "") -> Outcome:
    remarks = [it for it in (remark, EMPTY if look.digest and not look.size else "") if it]
    publication, root = look.verdict.publication or (None, "")
    return Outcome(look.path, verdict, "; ".join(remarks), look.size, look.digest, look.verdict.second, publication, root)


def of_bad_signature(look: Look) -> Optional[Outcome]:
    """The outcome of a file that was not read, or whose signature is not of its bytes, or None."""
    if look.fault:
        return Outcome(look.path, NOT_READ, look.fault)
    if look.state == OTHER:
        second = f"of {dated(look.verdict.second)}, " if look.verdict.second is not None else ""
        remark = f"its signature, {second}is of other bytes: the file has changed since, or the signature is another file's"
        return of_look(look, CHANGED, remark)._replace(imprint=look.verdict.imprint)
    if look.state == DAMAGED:
        return of_look(look, BROKEN if look.verdict.code[:1] in ("S", "") else REFUSED, look.reason or refused(look.verdict))
    if look.state not in (NONE, OURS):
        return of_look(look, NOT_READ if look.digest else NOT_SIGNED, f"its signature: {look.reason}" if look.digest else look.reason)
    return None


def of_verified(look: Look, last: Optional[int], following: Optional[int]) -> Outcome:
    """The outcome of a file that was verified against publications to second `last`."""
    bad = of_bad_signature(look)
    if bad:
        return bad
    if look.state == NONE:
        return of_look(look, NO_SIGNATURE)
    if look.verdict.is_accepted:
        return of_look(look, ACCEPTED)
    if is_pending(look.verdict):
        return of_look(look, PENDING, pending(look.verdict, last, following))
    return of_look(look, REFUSED, refused(look.verdict))


class Spool:
    """The hashes of all files with their paths, in a file without a name: a signature of another file is named with it."""

    def __init__(self) -> None:
        self.file: BinaryIO = tempfile.TemporaryFile(prefix="ksi-hashes-")

    def add(self, digest: bytes, path: bytes) -> None:
        self.file.write(digest + len(path).to_bytes(4, "big") + path)

    def rows(self) -> Iterator[Tuple[bytes, bytes]]:
        self.file.seek(0)
        while head := self.file.read(36):
            yield head[:32], self.file.read(int.from_bytes(head[32:], "big"))

    def paths_of(self, digests: Set[bytes]) -> Dict[bytes, bytes]:
        """The first file of each of these hashes."""
        found: Dict[bytes, bytes] = {}
        for digest, path in self.rows() if digests else ():
            if digest in digests:
                found.setdefault(digest, path)
        return found

    def close(self) -> None:
        self.file.close()


class Tally:
    """The outcomes of a command. Those of signatures of other bytes wait for the end, when all files are known."""

    def __init__(self, on_outcome) -> None:
        self.on_outcome = on_outcome
        self.count: Counter[str] = collections.Counter()
        self.kinds: Counter[str] = collections.Counter()
        self.publications: Counter[Tuple[int, str]] = collections.Counter()
        self.bytes = 0
        self.spool = Spool()
        self.waiting: List[Outcome] = []
        self.lock = threading.RLock()

    def hashed(self, look: Look) -> None:
        if look.digest:
            self.spool.add(look.digest, look.path)

    def add(self, it: Outcome) -> None:
        """Several threads may add."""
        with self.lock:
            if it.verdict == CHANGED:
                self.waiting.append(it)
            else:
                self.tell(it)

    def tell(self, it: Outcome) -> None:
        self.count[it.verdict] += 1
        self.bytes += it.size or 0
        if it.verdict == PASSED:
            self.kinds[it.remark] += 1
        if it.publication is not None:
            self.publications[it.publication, it.root] += 1
        self.on_outcome(it)

    def end(self) -> None:
        """Tells apart files that changed and signatures of other files of the tree."""
        paths = self.spool.paths_of({bytes.fromhex(it.imprint) for it in self.waiting if it.imprint})
        for it in self.waiting:
            other = paths.get(bytes.fromhex(it.imprint))
            self.tell(it._replace(verdict=OF_OTHER, remark=f"its signature, of {dated(it.second or 0)}, is of {shown(other)}") if other else it)
        self.waiting = []

    @property
    def bad(self) -> int:
        return sum(count for verdict, count in self.count.items() if verdict not in WELL and verdict != PASSED)

    @property
    def done(self) -> int:
        return sum(self.count.values()) + len(self.waiting)

    @property
    def summary(self) -> str:
        rows = [f"{count:,} {verdict}" for verdict, count in self.count.items()]
        kinds = ", ".join(f"{count:,} {kind}" for kind, count in sorted(self.kinds.items()))
        return (", ".join(rows) or "no files") + (f" ({kinds})" if kinds else "")
