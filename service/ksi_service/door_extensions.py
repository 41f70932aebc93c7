"""The paths of extensions at the HTTP server.

    POST /v1/extensions[?to=SECOND]   one signature or up to 100: each extended to the last publication, or to that of a second, as JSON
    POST /extend                      a signature: extended to the last publication, as bytes

One signature is `application/octet-stream`; several are `application/json`, an array of signatures in base64."""
import base64
import binascii
import json
import re
from typing import Any, List, Optional

from .answers import BYTES, JSON, Answer, Refusal, json_answer, signature_answer
from .bodies import Transfers
from .door_signatures import kind_of, row_of
from .houses import Extended, House, Signed

MOST_SIGNATURE = 65_539
MOST_SIGNATURES = 100
"""The most signatures of one request: each is verified by a process before it is returned."""
MOST_JSON = 4 << 20
SECOND = re.compile("[0-9]{1,12}")


class ExtensionPaths:
    def __init__(self, house: House, transfers: Transfers) -> None:
        self.house = house
        self.transfers = transfers

    async def extend(self, request: Any) -> Answer:
        """One signature as bytes, whatever its media type."""
        with self.transfers.one():
            content = await request.body.whole(MOST_SIGNATURE)
        request.caller.take(1)
        extended, = await self.house.extend([content], None)
        if isinstance(extended, Refusal):
            raise extended
        return signature_answer(extended.content)

    async def extend_many(self, request: Any) -> Answer:
        to = second_in(request.query)
        contents = await self.contents(request)
        request.caller.take(len(contents))
        found = await self.house.extend(contents, to)
        return json_answer([{"error": it.told()} if isinstance(it, Refusal) else extended_row(it) for it in found])

    async def contents(self, request: Any) -> List[bytes]:
        """The signatures of a body."""
        kind = kind_of(request)
        if kind not in (BYTES, JSON):
            raise Refusal("unsupported-media-type", f"a signature is {BYTES}; several are {JSON}, an array of signatures in base64")
        with self.transfers.one():
            content = await request.body.whole(MOST_SIGNATURE if kind == BYTES else MOST_JSON)
        return [content] if kind == BYTES else signatures_in(content)


def second_in(query: Any) -> Optional[int]:
    """The second of the parameter `to`, if it is there."""
    text = query.get("to")
    if text is None:
        return None
    if not SECOND.fullmatch(text):
        raise Refusal("malformed-query", "to is the second of a publication")
    return int(text)


def signatures_in(content: bytes) -> List[bytes]:
    try:
        entries = json.loads(content, parse_int=str, parse_float=str, parse_constant=str)
    except (ValueError, RecursionError):
        raise Refusal("malformed-json", "the body is not JSON") from None
    if not isinstance(entries, list) or not 0 < len(entries) <= MOST_SIGNATURES:
        raise Refusal("malformed-json", f"the body is not an array of 1 to {MOST_SIGNATURES} signatures")
    return [signature_in(it, index) for index, it in enumerate(entries)]


def signature_in(text: Any, index: int) -> bytes:
    try:
        return base64.b64decode(text.encode("ascii"), validate=True)
    except (AttributeError, UnicodeEncodeError, binascii.Error):
        raise Refusal("malformed-json", f"entry {index} is not a signature in base64", {"index": index}) from None


def extended_row(it: Extended) -> Any:
    return {**row_of(Signed(it.imprint, it.content, it.second)), "publication": it.publication}
