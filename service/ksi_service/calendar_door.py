"""The paths of calendar files at an HTTP server, of a service or of a mirror.

    GET /v1/calendar          the calendars, as JSON
    GET /v1/calendar/PLAN/N   file N of the plan with this digest

An ETag is the SHA-256 of the content. A full file never changes, and may be kept for ever."""
import functools
import hashlib
import json
import re
from http import HTTPStatus
from typing import Any, Awaitable, Callable, Dict, Optional

from .answers import BYTES, Answer, Refusal
from .calendar_files import Calendar

PATH = re.compile(r"/v1/calendar/([0-9a-f]{64})/(0|[1-9][0-9]{0,17})")
FULL, GROWING, LISTED = "public, max-age=31536000, immutable", "public, max-age=2", "no-cache"
"""How long caches may keep a full file, one that grows, and a list."""

Work = Callable[[Any], Awaitable[Answer]]


@functools.lru_cache(maxsize=4)
def digest_of_list(content: bytes) -> str:
    """The SHA-256 of a publications file, or of another form of it, which many clients ask for."""
    return hashlib.sha256(content).hexdigest()


def cached(request, content: Any, digest: str, kind: str, caching: str) -> Answer:
    """An answer with its ETag, or 304 without content if the client has it (RFC 9110, 13.1.2)."""
    tag = f'"{digest}"'
    known = re.split(r"[ \t]*,[ \t]*", request.headers.get("if-none-match", ""))
    if any(it in (tag, f"W/{tag}", "*") for it in known):
        return Answer(HTTPStatus.NOT_MODIFIED, b"", kind, ETag=tag, Cache_Control=caching)
    return Answer(HTTPStatus.OK, content, kind, ETag=tag, Cache_Control=caching)


def calendar_path(path: str, calendars: Callable[[], Dict[str, Calendar]]) -> Optional[Work]:
    """The work of a path of calendar files, or None if it is another path."""
    if path == "/v1/calendar":
        async def listing(_):
            content = json.dumps({"calendars": [it.listed() for it in calendars().values()]})
            return Answer(HTTPStatus.OK, content, "application/json", Cache_Control=LISTED)
        return listing
    found = PATH.fullmatch(path)
    if not found:
        return None

    async def work(request):
        calendar = calendars().get(found[1])
        served = calendar.served(int(found[2])) if calendar else None
        if served is None:
            raise Refusal("no-such-file", "no such calendar file here")
        return cached(request, served.content, served.digest, BYTES, FULL if served.is_full else GROWING)
    return work
