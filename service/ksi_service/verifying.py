"""Verifies signatures: by the proved libksi in this process, or if it is not found by the proved program `ksi`, a process each."""
import tempfile
from typing import NamedTuple, Optional, Protocol, Tuple

from . import libksi
from .elements import Malformed, head_of, publications_file, published_in
from .proved import Refused, ksi

ACCEPTED, NOT_PUBLISHED, OTHER_HASH = "accepted", "V13", "V1"
NONE_PUBLISHED = publications_file([])
"""A publications file without publications: a signature that is right in all else is refused by V13."""


class Verdict(NamedTuple):
    code: str
    """`accepted`, or the code of the check or fault: V1 to V15, S1 to S14, Q1 to Q9 (docs/ANSWERS.md)."""
    second: Optional[int] = None
    """The second that the signature states, if it can be read."""
    publication: Optional[Tuple[int, str]] = None
    """The second and the root of the publication that an accepted signature rests on."""
    imprint: str = ""
    """The hash that the signature is of, in hex, if it can be read."""
    calendar_to: Optional[int] = None
    """The last second of its calendar chain, if it has one."""
    is_extended: bool = False
    """Whether it has a publication record."""

    @property
    def is_accepted(self) -> bool:
        return self.code == ACCEPTED

    @property
    def line(self) -> str:
        """As `ksi verify` begins its line."""
        kinds = {"V": "refused", "S": "malformed 1", "Q": "malformed 3"}
        return f"{ACCEPTED} {self.second}" if self.is_accepted else f"{kinds.get(self.code[:1], 'refused')} {self.code}"


class Verifier(Protocol):
    """Verifies signatures against one publications file."""

    def verify(self, signature: bytes, digest: bytes) -> Verdict:
        """The verdict on a signature for the SHA-256 of a document."""


class ByLibrary:
    def __init__(self, library, publications: bytes) -> None:
        self.library = library
        self.publications = publications

    def verify(self, signature: bytes, digest: bytes) -> Verdict:
        answer = self.library.verify(signature, digest, self.publications)
        if not answer.accepted:
            return stated(answer.name, signature)
        return Verdict(ACCEPTED, answer.second, (answer.publication.second, answer.publication.root.hex()), digest.hex(), answer.publication.second, True)


class ByProcess:
    def __init__(self, publications: bytes) -> None:
        # the first record of a second counts, as for `ksi`
        self.root_of = dict(reversed(published_in(publications)))
        self.file = tempfile.NamedTemporaryFile(prefix="ksi-publications-")
        self.file.write(publications)
        self.file.flush()

    def verify(self, signature: bytes, digest: bytes) -> Verdict:
        with tempfile.NamedTemporaryFile(prefix="ksi-signature-") as file:
            file.write(signature)
            file.flush()
            try:
                second = int(ksi("verify", file.name, digest.hex(), self.file.name).split(" ")[1])
            except Refused as refused:
                return stated(code_in(refused), signature)
        last = stated("", signature).calendar_to
        return Verdict(ACCEPTED, second, (last, self.root_of[last]) if last in self.root_of else None, digest.hex(), last, True)


class ByStatement:
    """Compares the hash that a signature states, and verifies nothing."""

    def verify(self, signature: bytes, digest: bytes) -> Verdict:
        found = stated(NOT_PUBLISHED, signature)
        if not found.imprint:
            return found._replace(code="S1")
        return found if found.imprint == digest.hex() else found._replace(code=OTHER_HASH)


def code_in(refused: Refused) -> str:
    """The code of a line `refused V1 ..` or `malformed 1 S1 ..`. Raises the line if it has none."""
    words = refused.line.split(" ")
    if words[0] == "refused" and len(words) > 1:
        return words[1]
    if words[0] == "malformed" and len(words) > 2:
        return words[2]
    raise refused


def stated(code: str, signature: bytes) -> Verdict:
    """A verdict with the statements of the signature, if they can be read."""
    try:
        head = head_of(signature)
    except Malformed:
        return Verdict(code)
    return Verdict(code, head.second, None, head.imprint, head.calendar_to, head.is_extended)


def verifier(publications: bytes = NONE_PUBLISHED) -> Verifier:
    """A verifier against the bytes of a publications file."""
    library = libksi.library()
    return ByProcess(publications) if library is None else ByLibrary(library, publications)
