"""The body of a request, read a piece at a time and within limits: of a known length, or in chunks (RFC 9112, 6 and 7.1).

Reading is strict: a request with both kinds of length is refused, and each line between chunks ends in CR LF. Extensions of chunks and
trailers are read and dropped, as RFC 9112 asks."""
import asyncio
import contextlib
import re
from typing import AsyncIterator, Dict, Iterator, Optional

from .answers import Refusal

SECONDS_FOR_BODY = 30
BYTES_A_SECOND = 128 << 10
"""A body, of a request or an answer, may take SECONDS_FOR_BODY, and a second more for each this many bytes."""
MOST_PIECE = 1 << 16
MOST_BODIES = 256
"""How many bodies other than a hash are in transfer at once."""
LENGTH = re.compile(r"[0-9]{1,15}")
CHUNK = re.compile(rb"([0-9a-fA-F]{1,12})[ \t]*(?:;[ -~\t]*)?\r\n")
"""The line before a chunk: its size, and perhaps extensions."""
MOST_TRAILERS = 64


class Transfers:
    """Counts the bodies in transfer."""

    def __init__(self) -> None:
        self.count = 0

    @contextlib.contextmanager
    def one(self) -> Iterator[None]:
        """While a body is in transfer. Raises a Refusal if too many are."""
        if self.count >= MOST_BODIES:
            raise Refusal("too-many-transfers", "too many documents are on their way", Retry_After="2")
        self.count += 1
        try:
            yield
        finally:
            self.count -= 1


class Body:
    """The body of a request."""

    def __init__(self, method: str, is_first_version: bool, headers: Dict[str, str], connection) -> None:
        self.connection = connection
        self.is_chunked = is_chunked(headers, is_first_version)
        self.left = 0 if self.is_chunked else length_of(method, headers)
        """How many bytes are left, or of the present chunk if it is chunked."""
        self.is_over = not self.is_chunked and not self.left
        """Whether all of it was read."""
        self.waits_for_word = not self.is_over and expects(headers, is_first_version)
        """Whether the client sends it only after the interim answer."""

    async def pieces(self, most: int) -> AsyncIterator[bytes]:
        """The body, a piece at a time. Raises a Refusal if it has more bytes than this."""
        self.begin(most)
        async for piece in self.chunks(most) if self.is_chunked else self.rest():
            yield piece
        self.is_over = True
        self.connection.free()

    def begin(self, most: int) -> None:
        """Lets the client send it, from now on within a time. Raises a Refusal if it has more bytes than this."""
        if self.left > most:
            raise too_large(most)
        if self.waits_for_word:
            self.connection.writer.write(b"HTTP/1.1 100 Continue\r\n\r\n")
            self.waits_for_word = False
        self.connection.limit(SECONDS_FOR_BODY)

    async def whole(self, most: int) -> bytes:
        if self.is_chunked or self.left > MOST_PIECE:
            return b"".join([piece async for piece in self.pieces(most)])
        self.begin(most)
        try:
            content = await self.connection.reader.readexactly(self.left)
        except asyncio.IncompleteReadError:
            raise ended_early() from None
        self.left = 0
        self.is_over = True
        self.connection.free()
        return content

    async def rest(self) -> AsyncIterator[bytes]:
        """The bytes that are left of the present chunk, or of a body without chunks."""
        while self.left:
            piece = await self.connection.reader.read(min(self.left, MOST_PIECE))
            if not piece:
                raise ended_early()
            self.left -= len(piece)
            self.connection.prolong(len(piece) / BYTES_A_SECOND)
            yield piece

    async def chunks(self, most: int) -> AsyncIterator[bytes]:
        size = 0
        while True:
            found = CHUNK.fullmatch(await self.line())
            if not found:
                raise Refusal("malformed-request", "a chunk does not begin with its size in hex and CR LF")
            self.left = int(found[1], 16)
            size += self.left
            if size > most:
                raise too_large(most)
            if not self.left:
                break
            async for piece in self.rest():
                yield piece
            if await self.line() != b"\r\n":
                raise Refusal("malformed-request", "a chunk does not end with CR LF after its size")
        await self.drop_trailers()

    async def drop_trailers(self) -> None:
        for _ in range(MOST_TRAILERS + 1):
            if await self.line() == b"\r\n":
                return
        raise Refusal("head-too-large", f"at most {MOST_TRAILERS} trailers")

    async def line(self) -> bytes:
        try:
            return await self.connection.reader.readuntil(b"\r\n")
        except asyncio.IncompleteReadError:
            raise ended_early() from None
        except asyncio.LimitOverrunError:
            raise Refusal("malformed-request", "a line between chunks is too long") from None


def too_large(most: int) -> Refusal:
    return Refusal("body-too-large", f"at most {most} bytes")


def ended_early() -> Refusal:
    return Refusal("malformed-request", "the body ended early")


def is_chunked(headers: Dict[str, str], is_first_version: bool) -> bool:
    """Whether the body comes in chunks. A length in two forms may be read in two ways, and is refused."""
    coding: Optional[str] = headers.get("transfer-encoding")
    if coding is None:
        return False
    if "content-length" in headers or is_first_version:
        raise Refusal("malformed-request", "Transfer-Encoding goes with neither Content-Length nor HTTP/1.0")
    if coding.lower() != "chunked":
        raise Refusal("unsupported-transfer-coding", "a body has a Content-Length, or the transfer coding chunked alone")
    return True


def length_of(method: str, headers: Dict[str, str]) -> int:
    """How many bytes a body without chunks has."""
    text = headers.get("content-length")
    if text is None:
        if method == "POST":
            raise Refusal("length-required", "a body has a Content-Length, or the transfer coding chunked")
        return 0
    if not LENGTH.fullmatch(text):
        raise Refusal("malformed-request", "the Content-Length is no number")
    return int(text)


def expects(headers: Dict[str, str], is_first_version: bool) -> bool:
    """Whether the client waits for the interim answer (RFC 9110, 10.1.1)."""
    text = headers.get("expect")
    if text is None or is_first_version:
        return False
    if text.lower() != "100-continue":
        raise Refusal("expectation-failed", "the only expectation that is met is 100-continue")
    return True
