"""What the HTTP server needs from a service, or from a mirror."""
from typing import Any, Callable, Dict, List, NamedTuple, Optional, Union

from .answers import Refusal
from .calendar_files import Calendar
from .gate import Load


class Signed(NamedTuple):
    """A hash with its signature."""

    imprint: str
    """64 hex digits."""
    content: bytes
    second: int


class Extended(NamedTuple):
    """An extended signature."""

    imprint: str
    content: bytes
    second: int
    publication: int
    """The second of the publication to which it is extended."""


Signings = List[Union[Signed, Refusal]]
Extensions = List[Union[Extended, Refusal]]


class House(Load):
    """A service or a mirror. Each call may raise a Refusal."""

    def admit(self, count: int = 1) -> None:
        """Raises a Refusal if a request to sign this many hashes would be refused now."""
        raise NotImplementedError

    async def sign(self, imprints: List[str], is_gone: Callable[[], bool], name: Optional[str] = None) -> Signings:
        """The signature of each hash, or the reason why it has none. Raises a Refusal if no hash was signed. Once `is_gone` returns true
        nobody waits for them. The name, if there is one, is hashed with each."""
        raise NotImplementedError

    async def extend(self, contents: List[bytes], to: Optional[int]) -> Extensions:
        """Each signature, extended to the publication of a second or to the last one, or the reason why it is not."""
        raise NotImplementedError

    async def lookup(self, imprint: str) -> Signed:
        """The last signature of a hash that the service knows. Raises a Refusal if there is none, or it cannot be said."""
        raise NotImplementedError

    def publications(self) -> Optional[bytes]:
        """The publications file, if there is a publication."""
        raise NotImplementedError

    def book(self) -> bytes:
        """The book of the plans before, with its signature (bundles.py). Raises a Refusal if there is none."""
        raise NotImplementedError

    def calendars(self) -> Dict[str, Calendar]:
        """The calendars by their plans' digests."""
        raise NotImplementedError

    def page(self) -> Optional[bytes]:
        """The page for browsers, if it is built."""
        raise NotImplementedError

    def not_ready(self) -> Optional[str]:
        """Why requests would be refused now, or None if they are taken."""
        raise NotImplementedError

    def counters(self) -> Dict[str, Any]:
        """The counters of `status`."""
        raise NotImplementedError
