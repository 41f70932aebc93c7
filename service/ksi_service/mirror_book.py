"""The book of a mirror (book.py): it keeps the newest one that a service serves, if its signature leads to a publication of the mirror."""
import hashlib
import os
import tempfile
from typing import Dict, List, Optional, Tuple

from . import bundles, files
from .elements import Malformed, published_in
from .fetching import Fetched, Unknown
from .mirror import Mirror
from .proved import Refused
from .source import AGREES, FAULTY, Source

MOST_BOOK = 4 << 20
PARTS = bundles.BOOK, bundles.BOOK_SIGNATURE


class NotMine(Exception):
    """Why a book is not one of the mirror's plans."""


class Books:
    def __init__(self, mirror: Mirror) -> None:
        self.mirror = mirror
        self.path = os.path.join(mirror.folder, "book.zip")
        self.content: Optional[bytes] = files.content_of(self.path)
        """The book and its signature, packed."""
        self.etags: Dict[str, str] = {}
        """By source, the ETag of its last book that was compared."""

    def look(self) -> bool:
        """Fetches the books, has the mirror look at its sources, and keeps the newest book of those that agree. Returns whether the mirror
        went on to the next plan. The mirror looks later, so it has the publication to which a book leads."""
        fetched = {source: self.fetched(source) for source in self.mirror.sources if source.is_door}
        went_on = self.mirror.look()
        for source, found in fetched.items():
            if found is not None and source.is_there and source.state == AGREES:
                self.take(source, found)
        return went_on

    def fetched(self, source: Source) -> Optional[Fetched]:
        """The book of a source, unless it has none, or the one that was compared last."""
        try:
            found = source.server.get("/v1/book", MOST_BOOK, self.etags.get(source.url, ""))
        except Unknown:
            return None
        return found if found and found.content is not None else None

    def take(self, source: Source, fetched: Fetched) -> None:
        try:
            if fetched.content == self.content or self.see(bundles.unpacked(fetched.content, PARTS)):
                self.etags[source.url] = fetched.etag
                self.keep(fetched.content)
        except (bundles.NotBundle, Malformed, NotMine) as reason:
            source.judged = self.mirror.now()
            self.mirror.note(source, FAULTY, f"its book: {reason}")

    def keep(self, content: bytes) -> None:
        """Keeps a book that is newer than the one that is kept."""
        if self.content is None or age_of(content) > age_of(self.content):
            files.write(self.path, content)
            self.content = content

    def see(self, parts: Dict[str, bytes]) -> bool:
        """Whether a book's signature leads to a publication of the plan that the mirror follows. Raises NotMine if the book has another
        root than the mirror for a second of an earlier plan."""
        known = dict(self.mirror.published())
        for second, root in published_in(parts[bundles.BOOK]):
            if known.get(second, root) != root:
                raise NotMine(f"it has the root {root} for second {second}, which was published with the root {known[second]}")
        if self.mirror.seen is None:
            return False
        with tempfile.TemporaryDirectory(prefix="ksi-book-") as room:
            files.write(os.path.join(room, bundles.BOOK_SIGNATURE), parts[bundles.BOOK_SIGNATURE])
            try:
                bundles.accepted(room, bundles.BOOK_SIGNATURE, hashlib.sha256(parts[bundles.BOOK]).hexdigest(), self.mirror.seen.path)
            except Refused as refused:
                if refused.line.startswith("refused V13 "):
                    # the mirror does not have that publication yet, or has gone on to another plan
                    return False
                raise NotMine(str(refused)) from None
        return True


def age_of(content: bytes) -> Tuple[List[Tuple[int, str]], int]:
    """How new a book is: by the plans that it has, then by the publication to which it leads."""
    parts = bundles.unpacked(content, PARTS)
    return published_in(parts[bundles.BOOK]), bundles.publication_of(parts[bundles.BOOK_SIGNATURE]) or 0
