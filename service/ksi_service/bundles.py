"""Bundles: a signature of a plan that is over, with the book that leads to a publication of a later plan (docs/FORMATS.md, "Bundles").

The book is a publications file with the last publication of each plan before the newest one, and was signed as a document in the newest
plan. So a bundle shows by two verifications that a document's hash is below a publication of the newest plan. Neither shows when the
old plan's root was made: whoever has no print of the old plan knows only that it is older than the print that leads to the book."""
import hashlib
import io
import os
import tempfile
import zipfile
from typing import Dict, NamedTuple, Optional, Sequence, Tuple

from .elements import Malformed, notes_in, number_of, published_in, read
from .errors import ServiceError
from .proved import Refused, ksi

SIGNATURE, BOOK, BOOK_SIGNATURE = "signature.ksig", "book", "book.ksig"
PARTS = SIGNATURE, BOOK, BOOK_SIGNATURE
MOST_FILE = 1 << 20
"""How long each file of a bundle may be."""
TIME = 1980, 1, 1, 0, 0, 0
"""The time of each file in a bundle: the first one that a zip file can have. So the same files give the same bytes."""


class NotBundle(ServiceError):
    """A file is no bundle, or one of its parts is malformed."""


class NotVerified(ServiceError):
    """The line of `ksi verify` that refuses a part of a bundle."""


def packed(parts: Dict[str, bytes]) -> bytes:
    """A zip file of these files."""
    out = io.BytesIO()
    with zipfile.ZipFile(out, "w", zipfile.ZIP_STORED) as made:
        for name, content in parts.items():
            made.writestr(zipfile.ZipInfo(name, TIME), content)
    return out.getvalue()


def unpacked(content: bytes, names: Sequence[str]) -> Dict[str, bytes]:
    """The files of a zip file. Raises NotBundle unless it has all of these, none too long."""
    try:
        with zipfile.ZipFile(io.BytesIO(content)) as found:
            sizes = {it.filename: it.file_size for it in found.infolist()}
            if not set(names) <= sizes.keys() or any(sizes[it] > MOST_FILE for it in names):
                raise NotBundle(f"the file does not have {' '.join(names)}, or one of them is longer than {MOST_FILE} bytes")
            return {it: found.read(it) for it in names}
    except (zipfile.BadZipFile, NotImplementedError, RuntimeError, EOFError, ValueError) as fault:
        raise NotBundle(f"the file is no zip file: {fault}") from None


def is_bundle(content: bytes) -> bool:
    return content.startswith(b"PK\3\4")


def publication_of(signature: bytes) -> Optional[int]:
    """The second of the publication to which a signature is extended, or None if it is not extended."""
    try:
        tops = [it for it in read(signature) if it.kind == 0x800]
        chains = [it for top in tops[:1] for it in read(top.body) if it.kind == 0x802]
        return next((number_of(it.body) for chain in chains[:1] for it in read(chain.body) if it.kind == 0x01), None)
    except Malformed:
        return None


class Shown(NamedTuple):
    """The two times that a bundle shows."""

    second: int
    """The second in which the old plan recorded the hash."""
    printed: Tuple[int, str]
    """The publication that shows that the hash existed: the one to compare with a print."""
    note: str = ""
    """What the book notes of the signature's plan."""


def accepted(folder: str, name: str, imprint: str, publications: str) -> int:
    """The second of a signature that `ksi verify` accepts. Raises Refused with its line."""
    words = ksi("verify", os.path.join(folder, name), imprint, publications).split(" ")
    if words[:1] != ["accepted"]:
        raise NotBundle(f"ksi verify says {' '.join(words)}")
    return int(words[1])


def verified(parts: Dict[str, bytes], imprint: str, content: bytes) -> Shown:
    """Verifies a bundle by the proved `ksi verify`: the signature against the book, and the book's signature against the content of a
    publications file. If that file has another print alone, that of the old plan, then the signature against it. Raises NotVerified."""
    with tempfile.TemporaryDirectory(prefix="ksi-bundle-") as room:
        for name, part in {**parts, "publications": content}.items():
            with open(os.path.join(room, name), "wb") as file:
                file.write(part)
        publications = os.path.join(room, "publications")
        try:
            accepted(room, BOOK_SIGNATURE, hashlib.sha256(parts[BOOK]).hexdigest(), publications)
            name, against = BOOK_SIGNATURE, os.path.join(room, BOOK)
        except Refused as refused:
            if not refused.line.startswith("refused V13 "):
                raise NotVerified(f"the book: {refused}") from None
            name, against = SIGNATURE, publications
        try:
            second = accepted(room, SIGNATURE, imprint, against)
        except Refused as refused:
            hint = ""
            if name == SIGNATURE and refused.line.startswith("refused V13 "):
                hint = f" (the publications file has neither the publication that leads to the book, of second {publication_of(parts[BOOK_SIGNATURE])}, nor that of the plan itself)"
            raise NotVerified(f"{refused}{hint}") from None
        return Shown(second, publication_in(publications, publication_of(parts[name])), notes_in(parts[BOOK]).get(publication_of(parts[SIGNATURE]) or -1, ""))


def publication_in(path: str, second: Optional[int]) -> Tuple[int, str]:
    """The publication of a second in a file against which a signature was accepted."""
    with open(path, "rb") as file:
        return next(it for it in published_in(file.read()) if it[0] == second)
