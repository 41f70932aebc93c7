"""The book of a service: a publications file with the last publication of each plan before the newest one, which the newest plan signs as
a document (docs/FORMATS.md, "Bundles").

It is signed as soon as the newest plan signs, and the signature is extended to each publication of that plan. The files `book` and
`book.ksig` in the newest plan's folder have both."""
import asyncio
import hashlib
import logging
import os
from typing import List, Optional

from . import bundles, files
from .earlier import Earlier
from .elements import Malformed, parts_of, publications_file
from .errors import ServiceError
from .extension import NotExtended
from .succession import BEGUN

log = logging.getLogger(__name__)

LOOK_SECONDS = 0.5
LATER = ("seconds-missing", "program-missing")
"""The codes of an extension that may succeed later with the same signature."""


def book_of(plans: List[Earlier]) -> Optional[bytes]:
    """The book of plans that are over, or None if there are none. A record says if the plan after it was begun without a majority."""
    notes = {it.record[0]: f"{BEGUN}: {' '.join(it.way.lost)} lost" for it in plans if it.way}
    return publications_file([it.record for it in plans], notes) if plans else None


def book_in(folder: str) -> Optional[bytes]:
    """The book and its signature in a plan's folder, packed, once the signature leads to a publication."""
    found = [files.content_of(os.path.join(folder, it)) for it in (bundles.BOOK, bundles.BOOK_SIGNATURE)]
    return packed(*found) if None not in found and bundles.publication_of(found[1]) is not None else None


def packed(content: bytes, signature: bytes) -> bytes:
    return bundles.packed({bundles.BOOK: content, bundles.BOOK_SIGNATURE: signature})


class Book:
    def __init__(self, service, folder: str, plans: List[Earlier]) -> None:
        self.service = service
        self.path = os.path.join(folder, bundles.BOOK)
        self.signature_path = os.path.join(folder, bundles.BOOK_SIGNATURE)
        self.content = book_of(plans)
        self.signature: Optional[bytes] = files.content_of(self.signature_path) if self.content and files.content_of(self.path) == self.content else None
        self.tried: Optional[int] = None
        """The last publication to which an extension was tried."""
        self.packed: Optional[bytes] = book_in(folder) if self.signature else None
        """The book and its signature, once that leads to a publication."""
        self.logged = ""

    async def run(self) -> None:
        """Signs the book, and extends the signature after each publication. If it does not extend, the book is signed again."""
        while True:
            try:
                await self.look()
            except (ServiceError, OSError) as reason:
                if str(reason) != self.logged:
                    self.logged = str(reason)
                    log.warning("the book is not signed yet: %s", reason)
            await asyncio.sleep(LOOK_SECONDS)

    async def look(self) -> None:
        if self.signature is None:
            await self.sign()
        last = self.service.publications.last()
        if last is not None and last != self.tried and last >= self.second():
            self.tried = last
            await self.extend(last)

    def second(self) -> int:
        try:
            return parts_of(self.signature or b"").second
        except Malformed:
            return 0

    async def sign(self) -> None:
        desk = self.service.host.desk
        if not desk.has_majority:
            return
        text, second = await desk.sign(hashlib.sha256(self.content).hexdigest())
        # the signature that is on the disk is always one of the book there
        files.remove(self.signature_path)
        files.write(self.path, self.content)
        self.keep(bytes.fromhex(text))
        log.info("the book of the plans before was signed in second %d", second)

    def keep(self, signature: bytes) -> None:
        files.write(self.signature_path, signature)
        self.signature = signature

    async def extend(self, last: int) -> None:
        try:
            self.keep(await self.service.extend(self.signature, last))
        except NotExtended as reason:
            if reason.code not in LATER:
                self.signature = None
            raise
        self.packed = packed(self.content, self.signature)
