"""Answers of the HTTP server, and its refusals. A refusal has a code that stays the same from version to version; its sentence may change.

A path that begins with /v1/ answers a refusal as `application/problem+json` (RFC 9457). The other paths answer with the sentence alone."""
import json
from http import HTTPStatus
from typing import Any, Dict, List, NamedTuple, Optional, Union

PROBLEM_TYPE = "application/problem+json"
TEXT = "text/plain; charset=utf-8"
BYTES = "application/octet-stream"
JSON = "application/json"
ZIP = "application/zip"


class Problem(NamedTuple):
    status: HTTPStatus
    title: str


PROBLEMS: Dict[str, Problem] = {
    # the request itself
    "malformed-request": Problem(HTTPStatus.BAD_REQUEST, "The request is not one of HTTP/1.1"),
    "head-too-large": Problem(HTTPStatus.REQUEST_HEADER_FIELDS_TOO_LARGE, "The head of the request is too large"),
    "length-required": Problem(HTTPStatus.LENGTH_REQUIRED, "The request has no length"),
    "body-too-large": Problem(HTTPStatus.REQUEST_ENTITY_TOO_LARGE, "The body is too large"),
    "request-timeout": Problem(HTTPStatus.REQUEST_TIMEOUT, "The request took too long to arrive"),
    "expectation-failed": Problem(HTTPStatus.EXPECTATION_FAILED, "The server meets no expectation but 100-continue"),
    "unsupported-transfer-coding": Problem(HTTPStatus.NOT_IMPLEMENTED, "The server reads no transfer coding but chunked"),
    "too-many-connections": Problem(HTTPStatus.SERVICE_UNAVAILABLE, "Too many connections are open"),
    "not-found": Problem(HTTPStatus.NOT_FOUND, "The server has no such path"),
    "method-not-allowed": Problem(HTTPStatus.METHOD_NOT_ALLOWED, "The path does not take this method"),
    "malformed-query": Problem(HTTPStatus.BAD_REQUEST, "A parameter of the query is malformed"),
    "unsupported-media-type": Problem(HTTPStatus.UNSUPPORTED_MEDIA_TYPE, "The path does not take this media type"),
    "malformed-json": Problem(HTTPStatus.BAD_REQUEST, "The body is not the JSON that is documented"),
    "too-many-transfers": Problem(HTTPStatus.SERVICE_UNAVAILABLE, "Too many bodies are in transfer"),
    "internal-error": Problem(HTTPStatus.INTERNAL_SERVER_ERROR, "The service failed"),
    "program-missing": Problem(HTTPStatus.SERVICE_UNAVAILABLE, "A program of the service is missing"),
    # signing
    "malformed-hash": Problem(HTTPStatus.BAD_REQUEST, "A hash is malformed"),
    "zero-hash": Problem(HTTPStatus.BAD_REQUEST, "64 zeros are no file's hash"),
    "too-many-hashes": Problem(HTTPStatus.REQUEST_ENTITY_TOO_LARGE, "The body has too many hashes"),
    "looks-like-a-digest": Problem(HTTPStatus.UNPROCESSABLE_ENTITY, "The document looks like a digest"),
    "busy": Problem(HTTPStatus.SERVICE_UNAVAILABLE, "More requests wait than can be signed in time"),
    "no-majority": Problem(HTTPStatus.SERVICE_UNAVAILABLE, "This machine cannot sign now"),
    "stopping": Problem(HTTPStatus.SERVICE_UNAVAILABLE, "The service stops"),
    "plan-over": Problem(HTTPStatus.SERVICE_UNAVAILABLE, "The plan is over, and the next one is not begun here"),
    "not-signed": Problem(HTTPStatus.SERVICE_UNAVAILABLE, "No second took the request"),
    "signs-nothing": Problem(HTTPStatus.NOT_FOUND, "A mirror signs nothing"),
    "signature-unknown": Problem(HTTPStatus.NOT_FOUND, "The service has no such signature"),
    "lookup-incomplete": Problem(HTTPStatus.SERVICE_UNAVAILABLE, "It cannot be said now whether there is a signature"),
    # extending
    "no-publication": Problem(HTTPStatus.NOT_FOUND, "Nothing was published yet"),
    "nothing-published": Problem(HTTPStatus.CONFLICT, "Nothing was published yet"),
    "not-yet-published": Problem(HTTPStatus.CONFLICT, "The signature's second is not published yet"),
    "no-such-publication": Problem(HTTPStatus.CONFLICT, "The service has no publication of that second"),
    "malformed-signature": Problem(HTTPStatus.CONFLICT, "The signature is malformed"),
    "other-service": Problem(HTTPStatus.CONFLICT, "The signature is of another service"),
    "other-calendar": Problem(HTTPStatus.CONFLICT, "The signature is of another calendar"),
    "seconds-missing": Problem(HTTPStatus.CONFLICT, "No core of this machine has all seconds"),
    "not-accepted": Problem(HTTPStatus.CONFLICT, "ksi verify does not accept the extended signature"),
    "too-many-extensions": Problem(HTTPStatus.SERVICE_UNAVAILABLE, "Too many signatures wait to be extended"),
    # files
    "no-such-file": Problem(HTTPStatus.NOT_FOUND, "The server has no such file"),
    "not-in-order": Problem(HTTPStatus.CONFLICT, "The first publication is after the second"),
    "not-published": Problem(HTTPStatus.NOT_FOUND, "The server has no publication of that second"),
    "no-such-calendar": Problem(HTTPStatus.NOT_FOUND, "The server has no calendar with both seconds"),
    "no-book": Problem(HTTPStatus.NOT_FOUND, "The server has no book of earlier plans"),
    "no-proof": Problem(HTTPStatus.CONFLICT, "The calendar files give no proof"),
    "too-many-proofs": Problem(HTTPStatus.SERVICE_UNAVAILABLE, "Too many proofs are wanted"),
    "program-failed": Problem(HTTPStatus.SERVICE_UNAVAILABLE, "A program of the service failed"),
    "page-not-built": Problem(HTTPStatus.NOT_FOUND, "The page is not built"),
    # clients
    "cross-site": Problem(HTTPStatus.FORBIDDEN, "Another site's page sent the request"),
    "host-not-allowed": Problem(HTTPStatus.MISDIRECTED_REQUEST, "The door does not have the name in Host"),
    "client-not-allowed": Problem(HTTPStatus.FORBIDDEN, "The door is not open to this client"),
    "key-required": Problem(HTTPStatus.UNAUTHORIZED, "The door needs a key"),
    "key-unknown": Problem(HTTPStatus.UNAUTHORIZED, "No client has this key"),
    "rate-exceeded": Problem(HTTPStatus.TOO_MANY_REQUESTS, "The client is over its rate"),
}
"""Each code, with its status and what it means."""


class Answer(Exception):
    """The answer to a request, with its status."""

    def __init__(self, status: int, content: Union[str, bytes, Any], kind: str = TEXT, **headers: str) -> None:
        super().__init__(status)
        self.status = HTTPStatus(status)
        self.kind = kind
        self.content = (content + "\n").encode() if isinstance(content, str) else content
        """Bytes, or what has a length and gives bytes by slices."""
        self.headers = {"Cache-Control": "no-store", **{name.replace("_", "-"): value for name, value in headers.items()}}

    def head(self, ends: bool) -> bytes:
        # RFC 9110, 8.6: a 304 has no length but that of the content that it does not send, and a 204 has none
        has_content = self.status not in (HTTPStatus.NOT_MODIFIED, HTTPStatus.NO_CONTENT)
        sizes = [f"Content-Type: {self.kind}", f"Content-Length: {len(self.content)}"] if has_content else []
        rows = [f"HTTP/1.1 {self.status.value} {self.status.phrase}", *sizes, "X-Content-Type-Options: nosniff",
                *(f"{name}: {value}" for name, value in self.headers.items())]
        rows += ["Connection: close"] if ends else []
        return "".join(f"{row}\r\n" for row in rows).encode() + b"\r\n"


class Refusal(Answer):
    """A refusal with one of the codes, and a sentence for people."""

    def __init__(self, code: str, detail: str, members: Optional[Dict[str, Any]] = None, **headers: str) -> None:
        super().__init__(PROBLEMS[code].status, detail, **headers)
        self.code = code
        self.detail = detail
        self.members = members or {}
        """Further members of the problem, as the index of an entry."""

    def told(self) -> Dict[str, Any]:
        """The members of the problem, also as the error of one entry of a batch."""
        problem = PROBLEMS[self.code]
        after = {"retry_after": int(self.headers["Retry-After"])} if "Retry-After" in self.headers else {}
        return {"type": f"/v1/problems#{self.code}", "title": problem.title, "status": problem.status.value, "code": self.code, "detail": self.detail,
                **self.members, **after}

    def as_problem(self) -> Answer:
        """The refusal as RFC 9457 has it."""
        answer = Answer(self.status, json_of(self.told()), PROBLEM_TYPE)
        answer.headers = dict(self.headers)
        return answer


def json_of(value: Any) -> bytes:
    return json.dumps(value, separators=(",", ":")).encode() + b"\n"


def json_answer(value: Any, **headers: str) -> Answer:
    return Answer(HTTPStatus.OK, json_of(value), JSON, **headers)


def signature_answer(content: bytes) -> Answer:
    return Answer(HTTPStatus.OK, content, BYTES)


def problems() -> List[Dict[str, Any]]:
    """All codes, for a client that follows the `type` of a problem."""
    return [{"code": code, "status": it.status.value, "title": it.title} for code, it in PROBLEMS.items()]
