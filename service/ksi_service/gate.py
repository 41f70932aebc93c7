"""Accepts connections for the door, a few in each turn of the event loop, so that the lines of the nodes have their turn in between.

A service that has more to do than it bears must not spend its time on refusals. So while the door is full, a request to sign is refused
before anything is made of it: on a new connection by its first bytes, on a kept one if the whole small request is there."""
import asyncio
import contextlib
import errno
import functools
import re
import socket
from typing import Any, Callable, Optional, Protocol, Set, Tuple

from .answers import Refusal
from .connections import MOST_HEAD
from .door_tls import HANDSHAKE_SECONDS, DoorCertificate
from .overload import is_on

MOST_A_TURN = 32
"""How many connections are accepted in one turn of the event loop."""
FIRST_BYTES = re.compile(rb"POST (/v1)?/sign ")
"""A request for one signature, which is usually small. A client that sends much could lose the answer with the connection."""
MOST_FIRST = len(b"POST /v1/sign ")
MOST_READ = 1 << 14
"""How much of a request is read that is refused at once, so that the answer is not lost with the connection."""
WHOLE = re.compile(rb"POST (/v1)?/sign(?:atures)? HTTP/1\.1\r\n(?:[!-~]+:[ -~]*\r\n)*?content-length: *(?P<length>[0-9]{1,3})\r\n(?:[!-~]+:[ -~]*\r\n)*\r\n", re.IGNORECASE)
"""The head of a small request to sign."""
CLOSES = re.compile(rb"\r\nconnection:[ -~]*close", re.IGNORECASE)
"""A header that may ask for the end of the connection. Such a request is read."""
MOST_MAKING = 1024
"""How many connections may be in the handshake of TLS at once. One more is closed."""
AGAIN_SECONDS = 1.0
"""After how long accepting is tried again if the system has no room for another connection."""
NO_ROOM = {errno.EMFILE, errno.ENFILE, errno.ENOBUFS, errno.ENOMEM}


class Load(Protocol):
    """How much the service has to do."""

    def is_full(self) -> bool:
        """Whether a request to sign would be refused."""

    def retry_after(self) -> int:
        """After how many seconds a client should ask again."""

    def refused_early(self) -> None:
        """Counts a request that was refused before it was read."""


@functools.lru_cache(64)
def refused(after: int, ends: bool, is_versioned: bool) -> bytes:
    """The refusal of a request to sign, for a path of /v1/ or another one."""
    refusal = Refusal("busy", "more requests wait than can be signed in time", Retry_After=str(after))
    answer = refusal.as_problem() if is_versioned else refusal
    return answer.head(ends) + answer.content


class Gate:
    def __init__(self, load: Load, connected: Callable[..., Any], is_idle: Callable[[Any], bool], backlog: int, certificate: Optional[DoorCertificate] = None) -> None:
        self.load = load
        self.connected = connected
        """Serves a connection, by its reader and writer."""
        self.is_idle = is_idle
        """Whether the connection of a transport waits for a request."""
        self.backlog = backlog
        self.certificate = certificate
        self.listener: Optional[socket.socket] = None
        self.making: Set[asyncio.Task] = set()

    async def begin(self, host: str, port: int) -> None:
        loop = asyncio.get_running_loop()
        family, _, _, _, address = (await loop.getaddrinfo(host, port, type=socket.SOCK_STREAM, flags=socket.AI_PASSIVE))[0]
        self.listener = socket.create_server(address, family=family, backlog=self.backlog)
        self.listener.setblocking(False)
        loop.add_reader(self.listener, self.accept)

    def address(self) -> Tuple[str, int]:
        return self.listener.getsockname()[:2]

    def close(self) -> None:
        asyncio.get_running_loop().remove_reader(self.listener)
        self.listener.close()

    def accept(self) -> None:
        """Accepts waiting connections, but not more than one turn allows."""
        for _ in range(MOST_A_TURN if is_on("gate") else self.backlog):
            try:
                it, _ = self.listener.accept()
            except (BlockingIOError, ConnectionError):
                return
            except OSError as fault:
                if fault.errno not in NO_ROOM:
                    raise
                self.rest()
                return
            it.setblocking(False)
            if len(self.making) >= MOST_MAKING or is_on("gate") and self.load.is_full() and self.turned_away(it):
                it.close()
            else:
                self.make(it)

    def rest(self) -> None:
        """Accepts nothing for a while."""
        loop = asyncio.get_running_loop()
        loop.remove_reader(self.listener)

        def again():
            if self.listener.fileno() >= 0:
                loop.add_reader(self.listener, self.accept)
        loop.call_later(AGAIN_SECONDS, again)

    def turned_away(self, it: socket.socket) -> bool:
        """Answers 503 if a request to sign is there, which is to be closed then. Returns whether it was."""
        with contextlib.suppress(OSError):
            first = FIRST_BYTES.match(it.recv(MOST_FIRST, socket.MSG_PEEK))
            if not first:
                return False
            it.recv(MOST_READ)
            it.send(refused(self.load.retry_after(), True, bool(first[1])))
            self.load.refused_early()
            return True
        return False

    def make(self, it: socket.socket) -> None:
        """Serves a connection."""
        async def work():
            try:
                context = self.certificate.context() if self.certificate else None
                words = {"ssl": context, "ssl_handshake_timeout": HANDSHAKE_SECONDS} if context else {}
                await asyncio.get_running_loop().connect_accepted_socket(lambda: Watched(self), it, **words)
            except OSError:
                it.close()
        task = asyncio.create_task(work())
        self.making.add(task)
        task.add_done_callback(self.making.discard)

    def refusal_of(self, transport: Any, data: bytes, has_more: bool) -> Optional[bytes]:
        """The refusal of what came on a kept connection, if it is one whole small request to sign and the door is full."""
        if not is_on("kept") or has_more or not self.load.is_full() or not self.is_idle(transport):
            return None
        found = WHOLE.match(data)
        if not found or len(data) != found.end() + int(found["length"]) or CLOSES.search(found[0]):
            return None
        self.load.refused_early()
        return refused(self.load.retry_after(), False, bool(found[1]))


class Watched(asyncio.StreamReaderProtocol):
    """A connection whose requests may be refused before they are read."""

    def __init__(self, gate: Gate) -> None:
        self.gate = gate
        self.reader = asyncio.StreamReader(limit=MOST_HEAD)
        self.transport: Any = None
        super().__init__(self.reader, gate.connected)

    def connection_made(self, transport: Any) -> None:
        self.transport = transport
        super().connection_made(transport)

    def data_received(self, data: bytes) -> None:
        # StreamReader does not say otherwise whether something waits in it
        answer = self.gate.refusal_of(self.transport, data, bool(getattr(self.reader, "_buffer", b"?")))
        if answer is None:
            super().data_received(data)
            return
        self.transport.write(answer)
