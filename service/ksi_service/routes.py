"""The paths of the HTTP server, each with its method and its work. The paths of before /v1 stay as they were."""
import re
from typing import Any, Awaitable, Callable, Dict, NamedTuple, Optional

from .answers import Answer, Refusal
from .bodies import Transfers
from .calendar_door import calendar_path
from .consistency import Consistency
from .door_extensions import ExtensionPaths
from .door_publications import PublicationPaths
from .door_signatures import Signatures
from .door_status import StatusPaths
from .houses import House

SIGNATURE = re.compile(r"(/v1/signatures/|/v1/signature/|/signature/)[0-9a-fA-F]{64}")


class Route(NamedTuple):
    method: str
    work: Callable[[Any], Awaitable[Answer]]
    is_public: bool = False
    """Whether anybody may use it, since it gives what is published anyway or shows no more than that the server runs."""
    is_counter: bool = False
    """Whether it has the counters, which a process of this machine may read without a key."""

    @property
    def allowed(self) -> str:
        """The methods of the path, for the header Allow."""
        return "GET, HEAD, OPTIONS" if self.method == "GET" else f"{self.method}, OPTIONS"

    def takes(self, method: str) -> bool:
        return method == self.method or (method, self.method) == ("HEAD", "GET")


class Routes:
    def __init__(self, house: House, transfers: Transfers, prometheus: Callable[[Dict[str, Any]], str]) -> None:
        self.house = house
        self.signatures = Signatures(house, transfers)
        self.consistency = Consistency(house)
        extensions, publications, status = ExtensionPaths(house, transfers), PublicationPaths(house), StatusPaths(house, prometheus)
        sign, extend = Route("POST", self.signatures.sign), Route("POST", extensions.extend)
        self.fixed: Dict[str, Route] = {
            "/v1/signatures": Route("POST", self.signatures.sign_many),
            "/v1/extensions": Route("POST", extensions.extend_many),
            "/v1/publications": Route("GET", publications.forms, is_public=True),
            "/v1/book": Route("GET", publications.book, is_public=True),
            "/v1/consistency": Route("GET", self.consistency.answer, is_public=True),
            "/v1/problems": Route("GET", status.problems, is_public=True),
            "/v1/openapi.json": Route("GET", status.openapi, is_public=True),
            "/v1/sign": sign,
            "/v1/extend": extend,
            "/sign": sign,
            "/extend": extend,
            "/publications": Route("GET", publications.file, is_public=True),
            "/status": Route("GET", status.status, is_counter=True),
            "/metrics": Route("GET", status.metrics, is_counter=True),
            "/healthz": Route("GET", status.health, is_public=True),
            "/readyz": Route("GET", status.readiness, is_public=True),
            "/": Route("GET", status.page, is_public=True),
        }

    def of(self, path: str) -> Route:
        """The route of a path. Raises a Refusal if there is none."""
        route = self.fixed.get(path) or self.of_calendar(path) or self.of_signature(path)
        if route is None:
            raise Refusal("not-found", "no such thing")
        return route

    def of_calendar(self, path: str) -> Optional[Route]:
        work = calendar_path(path, self.house.calendars)
        return Route("GET", work, is_public=True) if work else None

    def of_signature(self, path: str) -> Optional[Route]:
        found = SIGNATURE.fullmatch(path)
        if not found:
            return None
        return Route("GET", self.signatures.find if found[1] == "/v1/signatures/" else self.signatures.find_bytes)
