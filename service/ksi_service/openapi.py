"""The description of the HTTP API by OpenAPI 3.1, made of the table of operations. The door serves it at /v1/openapi.json."""
import functools
from typing import Any, Dict, List

from .answers import PROBLEM_TYPE, PROBLEMS, json_of
from .operations import BASE64, HEX, OPERATIONS, SECOND, Operation, ref
from .version import version

DATE = {"type": "string", "format": "date-time"}
ABOUT = (
    "Timestamps by hashing. A signature shows that its hash existed in a second; verify it with ksi or libksi against the publications, and not by this server. "
    "A refusal is a problem of RFC 9457 whose code stays the same. A request whose first lines are malformed, and one that a full server refuses before it reads it, may get text. "
    "The paths /sign, /extend, /signature/{hash} and /publications of before, and the same below /v1, answer with bytes."
)


def thing(required: Dict[str, Any], **optional: Any) -> Dict[str, Any]:
    return {"type": "object", "required": list(required), "properties": {**required, **optional}}


SCHEMAS: Dict[str, Any] = {
    "Problem": thing({"type": {"type": "string"}, "title": {"type": "string"}, "status": {"type": "integer"}, "code": {"type": "string", "enum": list(PROBLEMS)}, "detail": {"type": "string"}},
                     index={"type": "integer", "minimum": 0, "description": "Which entry of the body is malformed, from 0."},
                     retry_after={"type": "integer", "minimum": 0, "description": "After how many seconds asking again may help, as Retry-After."}),
    "Signature": thing({"hash": HEX, "second": SECOND, "date": DATE, "signature": BASE64}),
    "Extension": thing({"hash": HEX, "second": SECOND, "date": DATE, "publication": SECOND, "signature": BASE64}),
    "HashError": thing({"hash": HEX, "error": ref("Problem")}),
    "EntryError": {**thing({"error": ref("Problem")}), "not": {"required": ["hash"]}},
    "Publications": thing({"publications": {"type": "array", "items": thing({"second": SECOND, "date": DATE, "root": HEX})}}),
    "Calendars": thing({"calendars": {"type": "array", "items": {"type": "object"}}}),
    "Problems": thing({"problems": {"type": "array", "items": thing({"code": {"type": "string"}, "status": {"type": "integer"}, "title": {"type": "string"}})}}),
}


def refusals_of(operation: Operation) -> Dict[str, Any]:
    """The responses that refuse, by their status."""
    by_status: Dict[str, List[str]] = {}
    for code in operation.codes:
        by_status.setdefault(str(PROBLEMS[code].status.value), []).append(code)
    return {status: refusal(codes) for status, codes in sorted(by_status.items())}


def refusal(codes: List[str]) -> Dict[str, Any]:
    schema = {"allOf": [ref("Problem"), {"properties": {"code": {"enum": codes}}}]}
    return {"description": "; ".join(f"`{code}`: {PROBLEMS[code].title}" for code in codes), "content": {PROBLEM_TYPE: {"schema": schema}}}


def operation_of(it: Operation) -> Dict[str, Any]:
    entries = f" The error of an entry has one of the codes {', '.join(f'`{code}`' for code in it.entry_codes)}." if it.entry_codes else ""
    success = {"description": "Done." + entries, "content": {kind: {"schema": schema} for kind, schema in it.answers.items()}}
    kept = {"304": {"description": "The client has it already, by its ETag in If-None-Match."}} if it.is_cached else {}
    told: Dict[str, Any] = {"operationId": it.name, "summary": it.summary, "responses": {"200": success, **kept, **refusals_of(it)}}
    if it.parameters:
        told["parameters"] = list(it.parameters)
    if it.bodies:
        told["requestBody"] = {"required": True, "content": {kind: {"schema": schema} for kind, schema in it.bodies.items()}}
    if "key-required" in it.codes:
        told["security"] = [{}, {"key": []}]
    return told


def document() -> Dict[str, Any]:
    paths: Dict[str, Any] = {}
    for it in OPERATIONS:
        paths.setdefault(it.path, {})[it.method] = operation_of(it)
    key = {"type": "http", "scheme": "bearer", "description": "The key that `ksi-service client add` printed, if the server has clients."}
    return {
        "openapi": "3.1.0",
        "info": {"title": "Keyless Signatures' Infrastructure", "version": version(), "description": ABOUT},
        "paths": paths,
        "components": {"schemas": SCHEMAS, "securitySchemes": {"key": key}},
    }


@functools.lru_cache(1)
def content() -> bytes:
    return json_of(document())
