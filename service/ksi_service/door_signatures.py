"""The paths of signatures at the HTTP server.

    POST /v1/signatures       one hash or up to 1,000, or a document: their signatures as JSON, in the same order
    GET  /v1/signatures/HEX   the last signature of a hash, as JSON
    POST /sign                a hash or a document: its signature as bytes
    GET  /signature/HEX       the last signature of a hash as bytes

A body is read by its media type: `text/plain` is one hash of 64 hex digits, `application/json` an array of such hashes,
`application/vnd.ksi.digests` hashes of 32 bytes one after the other, and `application/octet-stream` a document, which is hashed."""
import base64
import functools
import hashlib
import json
import re
import time
from typing import Any, Awaitable, Callable, Dict, List

from .answers import Answer, Refusal, json_answer, signature_answer
from .bodies import Transfers
from .houses import House, Signed

MOST_DOCUMENT = 64 << 20
"""The largest document, in bytes."""
MOST_HASHES = 1000
"""The most hashes of one request."""
MOST_TEXT = 256
"""The most bytes of a hash as text, with white space around it."""
MOST_JSON = 128 << 10
DIGEST_BYTES = 32
DIGESTS = "application/vnd.ksi.digests"
HASH = re.compile(rb"\s*([0-9a-fA-F]{64})\s*")
ENTRY = re.compile("[0-9a-fA-F]{64}")
ZERO = "0" * 64

Read = Callable[[Any], Awaitable[List[str]]]


def kind_of(request: Any) -> str:
    """The media type of a body without its parameters."""
    return request.headers.get("content-type", "").split(";")[0].strip().lower()


def looks_like_a_digest(content: bytes) -> bool:
    """By its first bytes, which are one more than MOST_TEXT if there are more."""
    return len(content) == DIGEST_BYTES or len(content) <= MOST_TEXT and HASH.fullmatch(content) is not None


def imprint_of(text: str, index: int) -> str:
    """The hash of an entry in lower case."""
    if text == ZERO:
        raise Refusal("zero-hash", f"entry {index} is 64 zeros, which are the root of a missed second and no file's hash", {"index": index})
    return text.lower()


@functools.lru_cache(1024)
def date_of(second: int) -> str:
    """A second as RFC 3339 has it."""
    return time.strftime("%Y-%m-%dT%H:%M:%SZ", time.gmtime(second))


def row_of(signed: Signed) -> Dict[str, Any]:
    return {"hash": signed.imprint, "second": signed.second, "date": date_of(signed.second), "signature": base64.b64encode(signed.content).decode()}


class Signatures:
    def __init__(self, house: House, transfers: Transfers) -> None:
        self.house = house
        self.transfers = transfers
        one: Dict[str, Read] = {"text/plain": self.text, "application/x-www-form-urlencoded": self.text, "": self.text, "application/octet-stream": self.document}
        self.of_one = one
        """How a body of one hash or document is read, by its media type."""
        self.of_many: Dict[str, Read] = {**one, "application/json": self.json, DIGESTS: self.digests}

    async def sign(self, request: Any) -> Answer:
        signed, = await self.signed(request, self.of_one, "a hash is text/plain, a document application/octet-stream")
        return signature_answer(signed.content)

    async def sign_many(self, request: Any) -> Answer:
        kinds = f"hashes are text/plain, application/json or {DIGESTS}, and a document is application/octet-stream"
        found = await self.signed(request, self.of_many, kinds)
        return json_answer([{"hash": imprint, "error": it.told()} if isinstance(it, Refusal) else row_of(it) for imprint, it in zip(request.imprints, found)])

    async def signed(self, request: Any, readers: Dict[str, Read], kinds: str) -> List[Any]:
        """The signatures of the hashes of a body."""
        read = readers.get(kind_of(request))
        if read is None:
            raise Refusal("unsupported-media-type", kinds)
        if request.body.waits_for_word or request.body.is_chunked or request.body.left > MOST_TEXT:
            # a client that waits for the interim answer gets a refusal in its place, and a large body is not read for nothing
            self.house.admit()
        request.imprints = await read(request)
        request.caller.take(len(request.imprints))
        found = await self.house.sign(request.imprints, request.connection.reader.at_eof, request.caller.signs_as)
        request.second = max((it.second for it in found if isinstance(it, Signed)), default=None)
        return found

    async def text(self, request: Any) -> List[str]:
        found = HASH.fullmatch(await request.body.whole(MOST_TEXT)) if request.body.left <= MOST_TEXT else None
        if not found:
            raise Refusal("malformed-hash", "a hash has 64 hex digits; a document is sent as application/octet-stream")
        return [imprint_of(found[1].decode(), 0)]

    async def document(self, request: Any) -> List[str]:
        """The SHA-256 of a document. One that looks like a hash is refused, since its sender probably has it hashed already."""
        digest, begun = hashlib.sha256(), b""
        with self.transfers.one():
            async for piece in request.body.pieces(MOST_DOCUMENT):
                digest.update(piece)
                begun += piece[:MOST_TEXT + 1 - len(begun)]
        if "document" not in request.query and looks_like_a_digest(begun):
            raise Refusal("looks-like-a-digest", "the document has 32 bytes or 64 hex digits: a hash is sent as text/plain, and ?document has these bytes hashed")
        return [digest.hexdigest()]

    async def json(self, request: Any) -> List[str]:
        with self.transfers.one():
            content = await request.body.whole(MOST_JSON)
        try:
            # numbers are not computed: a long one would cost much
            entries = json.loads(content, parse_int=str, parse_float=str, parse_constant=str)
        except (ValueError, RecursionError):
            raise Refusal("malformed-json", "the body is not JSON") from None
        if not isinstance(entries, list) or not entries:
            raise Refusal("malformed-json", f"the body is not an array of 1 to {MOST_HASHES} hashes")
        see_count(len(entries))
        for index, it in enumerate(entries):
            if not isinstance(it, str) or not ENTRY.fullmatch(it):
                raise Refusal("malformed-hash", f"entry {index} is not a string of 64 hex digits", {"index": index})
        return [imprint_of(it, index) for index, it in enumerate(entries)]

    async def digests(self, request: Any) -> List[str]:
        if request.body.left > MOST_HASHES * DIGEST_BYTES:
            raise too_many()
        with self.transfers.one():
            content = await request.body.whole(MOST_HASHES * DIGEST_BYTES)
        if not content or len(content) % DIGEST_BYTES:
            raise Refusal("malformed-hash", f"the body has {len(content)} bytes, which are no list of hashes of {DIGEST_BYTES} bytes", {"index": len(content) // DIGEST_BYTES})
        return [imprint_of(content[at:at + DIGEST_BYTES].hex(), at // DIGEST_BYTES) for at in range(0, len(content), DIGEST_BYTES)]

    async def find(self, request: Any) -> Answer:
        return json_answer(row_of(await self.house.lookup(imprint_in(request.path))))

    async def find_bytes(self, request: Any) -> Answer:
        return signature_answer((await self.house.lookup(imprint_in(request.path))).content)


def see_count(count: int) -> None:
    if count > MOST_HASHES:
        raise too_many()


def too_many() -> Refusal:
    return Refusal("too-many-hashes", f"at most {MOST_HASHES} hashes")


def imprint_in(path: str) -> str:
    """The hash at the end of a path."""
    return path.rsplit("/", 1)[1].lower()
