"""The HTTP server of a service or a mirror, for the page, for `ksi-service` and for programs. `routes.py` has its paths.

A refusal has a reason: as plain text, or for a path of /v1/ as `application/problem+json` with a code."""
import asyncio
import logging
import os
import re
import time
from http import HTTPStatus
from typing import Any, Callable, Dict, Optional

from . import connections
from .access import Access
from .access_log import AccessLog
from .answers import Answer, Refusal
from .bodies import Transfers
from .connections import Connection
from .door_tls import DoorCertificate
from .gate import Gate
from .houses import House
from .metrics import prometheus as service_metrics
from .programs import Missing
from .requested import Requests
from .routes import Routes

log = logging.getLogger(__name__)

MOST_CONNECTIONS = 12_000
MOST_ACCEPTED = 1024
"""How many connections the system may hand over before one is looked at."""
LOOK_SECONDS = 0.25
"""How often the door looks for clients that take too long."""
REQUEST_ID = re.compile("[!-~]{1,64}")


class Door:
    """Listens, and asks a house."""

    def __init__(self, house: House, most_connections: int = MOST_CONNECTIONS, prometheus: Callable[[Dict[str, Any]], str] = service_metrics,
                 access: Optional[Access] = None, certificate: Optional[DoorCertificate] = None, log_to: Optional[AccessLog] = None) -> None:
        self.house = house
        self.access = access or Access()
        self.certificate = certificate
        self.log_to = log_to
        self.most_connections = most_connections
        self.transfers = Transfers()
        self.routes = Routes(house, self.transfers, prometheus)
        self.open = set()
        self.refused = 0
        self.requests = Requests()
        self.idle = {}
        self.of = {}
        """The connection of each transport."""
        self.gate = Gate(house, self.connected, self.is_idle, MOST_ACCEPTED, certificate)
        self.is_open = False
        self.looking = None

    async def begin(self, host, port):
        await self.gate.begin(host, port)
        self.is_open = True
        self.looking = asyncio.create_task(self.look())

    def is_idle(self, transport):
        """Whether the connection of a transport waits for the first byte of a request."""
        connection = self.of.get(transport)
        if connection not in self.idle:
            return False
        connection.limit(connections.SECONDS_FOR_HEAD)
        return True

    async def look(self):
        """Ends reads that take too long."""
        while True:
            await asyncio.sleep(LOOK_SECONDS)
            now = time.monotonic()
            for connection in self.open:
                connection.look(now)

    def address(self):
        return self.gate.address()

    def where(self):
        """The address as written in a URL (RFC 3986, 3.2.2), without the scheme."""
        host, port = self.address()
        return f"[{host}]:{port}" if ":" in host else f"{host}:{port}"

    @property
    def scheme(self):
        return "https" if self.certificate else "http"

    async def stop(self):
        """Takes no more connections, and ends those that are open."""
        self.gate.close()
        self.looking.cancel()
        for connection in list(self.open):
            connection.writer.transport.abort()
        if self.log_to:
            self.log_to.close()
        await asyncio.sleep(0)

    def make_room(self):
        """Ends the connection that has waited longest for a request, if as many are open as may. Returns whether there is room."""
        if len(self.open) < self.most_connections:
            return True
        longest = next(iter(self.idle), None)
        if longest is None:
            return False
        del self.idle[longest]
        self.open.discard(longest)
        longest.writer.transport.abort()
        return True

    async def connected(self, reader, writer):
        """One connection. If all that may be open are at work, it is refused."""
        connection = self.of[writer.transport] = Connection(reader, writer, self.idle)
        try:
            if writer.get_extra_info("peername") is None:
                # the client left before anybody looked
                pass
            elif self.make_room():
                self.open.add(connection)
                await connections.serve(connection, self.reply, self.finish)
            else:
                answer = Refusal("too-many-connections", "too many connections are open", Retry_After="2")
                writer.write(answer.head(True) + answer.content)
        except (ConnectionError, TimeoutError, asyncio.CancelledError):
            pass
        finally:
            # a client that reads nothing counts until the end: otherwise more could be open than may
            await connections.end(writer)
            self.open.discard(connection)
            self.of.pop(writer.transport, None)

    async def reply(self, request):
        """The answer to a request, which is counted."""
        answer = await self.answer(request)
        self.requests.add(request.path, answer.status)
        return answer

    async def answer(self, request):
        """The answer to a request."""
        try:
            return await self.route(request)
        except Answer as told:
            return told
        except TimeoutError:
            raise
        except Missing as missing:
            return Refusal("program-missing", str(missing))
        except Exception as error:
            if isinstance(error, ConnectionError) and not request.is_over:
                # the client left before its body came: that is no fault of the door
                raise
            log.exception("%s %s failed", request.method, request.path)
            return Refusal("internal-error", "the service failed at this")

    async def route(self, request):
        if request.headers.get("sec-fetch-site") == "cross-site":
            raise Refusal("cross-site", "another site's page asks")
        if request.path == "*":
            return Answer(HTTPStatus.NO_CONTENT, b"", Allow="GET, HEAD, POST, OPTIONS")
        route = self.routes.of(request.path)
        request.caller = self.access.caller(request, route)
        if request.method == "OPTIONS":
            return Answer(HTTPStatus.NO_CONTENT, b"", Allow=route.allowed)
        if not route.takes(request.method):
            raise Refusal("method-not-allowed", f"only {route.method}", Allow=route.allowed)
        if route.method == "GET" and not request.is_over:
            raise Refusal("malformed-request", "a GET has no body")
        return await route.work(request)

    def finish(self, request, answer):
        """Counts and logs an answer, and gives it the form that its path has."""
        self.refused += 400 <= answer.status < 500
        if request is None:
            return answer
        if isinstance(answer, Refusal) and request.path.startswith("/v1/"):
            answer = answer.as_problem()
        given = request.headers.get("x-request-id", "")
        request.id = given if given and REQUEST_ID.fullmatch(given) else os.urandom(8).hex()
        answer.headers["X-Request-Id"] = request.id
        if self.log_to:
            self.log_to.add(request, answer)
        return answer
