"""The operations of the HTTP API below /v1, with the codes that each may refuse with. `openapi.py` makes the document of them."""
from typing import Any, Dict, List, NamedTuple, Tuple

from .answers import BYTES, JSON, ZIP
from .door_extensions import MOST_SIGNATURES
from .door_signatures import DIGESTS, MOST_HASHES

HEX = {"type": "string", "pattern": "^[0-9a-fA-F]{64}$"}
BASE64 = {"type": "string", "contentEncoding": "base64"}
SECOND = {"type": "integer", "minimum": 0}
TEXT = "text/plain"


def ref(name: str) -> Dict[str, str]:
    return {"$ref": f"#/components/schemas/{name}"}


def array(*kinds: Dict[str, Any], most: int) -> Dict[str, Any]:
    return {"type": "array", "minItems": 1, "maxItems": most, "items": kinds[0] if len(kinds) == 1 else {"oneOf": list(kinds)}}


ANY = ("malformed-request", "host-not-allowed", "cross-site", "internal-error")
"""The codes of every operation."""
CLIENT = ("key-required", "key-unknown", "client-not-allowed")
BODY = ("length-required", "body-too-large", "request-timeout", "expectation-failed", "unsupported-transfer-coding", "unsupported-media-type", "malformed-json", "too-many-transfers", "rate-exceeded")
"""The codes of an operation that has a body."""


class Operation(NamedTuple):
    method: str
    path: str
    name: str
    summary: str
    bodies: Dict[str, Any]
    """The schema of each media type of the request's body, if it has one."""
    answers: Dict[str, Any]
    """The schema of each media type of the answer."""
    codes: Tuple[str, ...]
    entry_codes: Tuple[str, ...] = ()
    """The codes of the error of one entry."""
    parameters: Tuple[Dict[str, Any], ...] = ()
    is_cached: bool = False


OPERATIONS: List[Operation] = [
    Operation(
        "post", "/v1/signatures", "sign", f"Signs one hash or up to {MOST_HASHES}, or a document. The answer has a signature or an error for each, in the same order.",
        {JSON: array(HEX, most=MOST_HASHES), TEXT: {"type": "string", "pattern": r"^\s*[0-9a-fA-F]{64}\s*$"}, DIGESTS: {}, BYTES: {}},
        {JSON: array(ref("Signature"), ref("HashError"), most=MOST_HASHES)},
        (*ANY, *CLIENT, *BODY, "malformed-hash", "zero-hash", "too-many-hashes", "looks-like-a-digest", "busy", "no-majority", "stopping", "plan-over", "not-signed"),
        entry_codes=("not-signed", "no-majority", "plan-over"),
        parameters=({"name": "document", "in": "query", "schema": {"type": "string"}, "allowEmptyValue": True,
                     "description": "Hash a document of application/octet-stream even if it has 32 bytes or 64 hex digits."},)),
    Operation(
        "get", "/v1/signatures/{hash}", "lookup", "The last signature of a hash that the service knows.", {}, {JSON: ref("Signature")},
        (*ANY, *CLIENT, "signature-unknown", "lookup-incomplete"),
        parameters=({"name": "hash", "in": "path", "required": True, "schema": HEX},)),
    Operation(
        "post", "/v1/extensions", "extend", f"Extends one signature or up to {MOST_SIGNATURES}, to the last publication or to that of a second.",
        {JSON: array(BASE64, most=MOST_SIGNATURES), BYTES: {}}, {JSON: array(ref("Extension"), ref("EntryError"), most=MOST_SIGNATURES)},
        (*ANY, *CLIENT, *BODY, "malformed-query", "nothing-published", "no-such-publication", "too-many-extensions", "program-missing"),
        entry_codes=("not-yet-published", "malformed-signature", "other-service", "other-calendar", "seconds-missing", "not-accepted"),
        parameters=({"name": "to", "in": "query", "schema": SECOND, "description": "The second of the publication."},)),
    Operation(
        "get", "/v1/publications", "publications", "The publications: as the file that verifiers take, as JSON, or as the text to be printed.", {},
        {BYTES: {}, JSON: ref("Publications"), TEXT: {"type": "string"}}, (*ANY, "no-publication"), is_cached=True),
    Operation("get", "/v1/book", "book", "The book of the plans before the newest one, with its signature.", {}, {ZIP: {}}, (*ANY, "no-book"), is_cached=True),
    Operation("get", "/v1/calendar", "calendars", "The calendars that the server has.", {}, {JSON: ref("Calendars")}, ANY, is_cached=True),
    Operation(
        "get", "/v1/calendar/{plan}/{number}", "calendarFile", "A calendar file: the roots of 4,096 seconds.", {}, {BYTES: {}}, (*ANY, "no-such-file"),
        parameters=({"name": "plan", "in": "path", "required": True, "schema": {"type": "string", "pattern": "^[0-9a-f]{64}$"}},
                    {"name": "number", "in": "path", "required": True, "schema": {"type": "integer", "minimum": 0}}), is_cached=True),
    Operation(
        "get", "/v1/consistency", "consistency", "A consistency proof: the calendar to the first second is a prefix of the calendar to the second one.", {}, {BYTES: {}},
        (*ANY, "malformed-query", "not-in-order", "not-published", "no-such-calendar", "no-proof", "too-many-proofs", "program-missing", "program-failed"),
        parameters=({"name": "from", "in": "query", "required": True, "schema": SECOND, "description": "The second of a publication."},
                    {"name": "to", "in": "query", "required": True, "schema": SECOND, "description": "The second of the same or a later publication."}), is_cached=True),
    Operation("get", "/v1/problems", "problems", "The codes of refusals.", {}, {JSON: ref("Problems")}, ANY),
    Operation("get", "/v1/openapi.json", "openapi", "This document.", {}, {JSON: {"type": "object"}}, ANY),
]
