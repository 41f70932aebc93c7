"""Outside copies of publications: a print, or the list of a mirror. Only they show that a publications file is not forged."""
import os
from typing import Dict, List, NamedTuple, Optional, Tuple

from . import files, newest, printing
from .elements import Malformed, published_in
from .errors import ServiceError
from .verdicts import UNCOMPARED, date

Publication = Tuple[int, str]


class BadOutside(ServiceError):
    """An outside copy cannot be read."""


class OtherRoot(ServiceError):
    """An outside copy has another root for a publication."""


class Outside(NamedTuple):
    name: str
    root_of: Dict[int, str]

    def note(self, publication: Publication) -> str:
        """How a publication compares with this copy. Raises OtherRoot if the copy has another root for its second."""
        second, root = publication
        mine = self.root_of.get(second)
        if mine is None:
            return f"{UNCOMPARED}: {self.name} has none for second {second}"
        if mine != root:
            raise OtherRoot(f"{self.name} has another root for second {second} ({date(second)}): {mine}, and not {root}. There are two calendars, and at least one is not the one that was published")
        return f"{self.name} has the same publication"


def printed(text: str) -> Publication:
    """The publication of a print: the five lines of `ksi-service publications --print`, or its line `second .., root ..`. Or a file with it."""
    if os.path.isfile(text):
        with open(text, encoding="utf-8", errors="replace") as file:
            text = file.read(1 << 16)
    try:
        return newest.print_in(text)
    except newest.NotNewest:
        return printing.read(text)


def listed(place: str) -> Outside:
    """The list of a mirror: a publications file, or the URL of a mirror."""
    try:
        if place.startswith(("http://", "https://")):
            return Outside(f"the mirror {place}", dict(reversed(newest.published_at(place))))
        content = files.content_of(place)
        if content is None:
            raise BadOutside(f"{place}: no such file")
        return Outside(place, dict(reversed(published_in(content))))
    except (newest.NoAnswer, Malformed) as reason:
        raise BadOutside(f"{place}: {reason}") from None


def notes_of(publications: List[Publication], outside: Optional[Outside], is_print: bool) -> List[str]:
    """A sentence on each publication that accepted signatures rest on. Raises OtherRoot."""
    rows = []
    for second, root in publications:
        compared = "the print has the same publication" if is_print else outside.note((second, root)) if outside else UNCOMPARED
        rows.append(f"publication of second {second} ({date(second)}), root {root}: {compared}")
    return rows


