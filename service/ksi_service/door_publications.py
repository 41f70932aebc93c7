"""The publications at the HTTP server: `GET /publications` is the file, and `GET /v1/publications` the form that the client prefers.

`GET /v1/book` is the book of the plans before the newest one, with its signature (bundles.py).

The file is `application/octet-stream`, the list `application/json`, and `text/plain` has each publication as it is printed."""
import functools
import json
from typing import Any, Dict, Optional, Sequence, Tuple

from .answers import BYTES, JSON, TEXT, ZIP, Answer, Refusal
from .calendar_door import LISTED, cached, digest_of_list
from .door_signatures import date_of
from .elements import published_in
from .houses import House
from .newest import line_of

FORMS = (BYTES, JSON, "text/plain")


def preferred(accept: str, offered: Sequence[str]) -> str:
    """Which of the media types a client prefers by its header Accept (RFC 9110, 12.5.1); the first one if it names none of them."""
    weights: Dict[str, float] = {}
    for row in accept.split(","):
        kind, *words = (it.strip().lower() for it in row.split(";"))
        quality = next((it[2:] for it in words if it.startswith("q=")), "1")
        weights[kind] = float(quality) if quality.replace(".", "", 1).isdigit() else 0.0

    def weight(kind: str) -> float:
        return weights.get(kind, weights.get(kind.split("/")[0] + "/*", weights.get("*/*", 0.0)))
    return max(offered, key=weight)


@functools.lru_cache(4)
def form_of(content: bytes, kind: str) -> Tuple[bytes, str]:
    """A form of a publications file, and its media type."""
    if kind == JSON:
        rows = [{"second": second, "date": date_of(second), "root": root} for second, root in published_in(content)]
        return json.dumps({"publications": rows}, separators=(",", ":")).encode() + b"\n", JSON
    return "".join(f"{line_of(*it)}\n" for it in published_in(content)).encode(), TEXT


class PublicationPaths:
    def __init__(self, house: House) -> None:
        self.house = house

    def content(self) -> bytes:
        content: Optional[bytes] = self.house.publications()
        if content is None:
            raise Refusal("no-publication", "nothing was published yet")
        return content

    async def file(self, request: Any) -> Answer:
        content = self.content()
        return cached(request, content, digest_of_list(content), BYTES, LISTED)

    async def book(self, request: Any) -> Answer:
        content = self.house.book()
        return cached(request, content, digest_of_list(content), ZIP, LISTED)

    async def forms(self, request: Any) -> Answer:
        content = self.content()
        kind = preferred(request.headers.get("accept", ""), FORMS)
        body, full = (content, BYTES) if kind == BYTES else form_of(content, kind)
        answer = cached(request, body, digest_of_list(body), full, LISTED)
        answer.headers["Vary"] = "Accept"
        return answer
