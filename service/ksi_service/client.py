"""Has a hash signed by one of several doors: the HTTP servers of a service's machines.

The request asks for the interim answer of RFC 9110, 10.1.1 (`Expect: 100-continue`): a door that works gives it at once, or refuses. So a
client leaves a dead door soon, and is patient with one that has the request. A hash that two doors take is signed twice, which harms
nobody."""
import http.client
import os
import random
import socket
import time
from typing import Callable, Dict, List, NamedTuple, Optional, Sequence

from .errors import ServiceError

CONNECT_SECONDS = 0.5
"""For how long a connection to a door may be made."""
INTERIM_SECONDS = 2.0
"""How long a door may answer nothing."""
TAKEN_SECONDS = 6.0
"""How long a door that took the request may need for the signature."""
LONG_RETRY, MOST_RETRY = 2.0, 16.0
"""If a `Retry-After` is at least this long, no other door is asked first: all are busy then. And the longest pause."""
FIRST_PAUSE = 1.0
"""How long a client waits after all doors failed for the first time."""
ALL_SECONDS = 90.0
"""After this time no further door is asked."""
TAKEN = b"HTTP/1.1 100"
HTTPS = "https://"


class NotSigned(ServiceError):
    """No door signed the hash."""


class Reply(NamedTuple):
    """The answer of a door. Without a status there was no answer, and the content is the reason."""

    status: Optional[int]
    retry_after: float
    content: bytes

    def reason(self) -> str:
        return self.content.decode(errors="replace").strip() or f"status {self.status}"


def ask(address: str, imprint: str) -> Reply:
    """Asks one door, with the patience of the constants above."""
    connection = connection_to(address)
    try:
        connection.connect()
        connection.sock.settimeout(INTERIM_SECONDS)
        # the first bytes of an answer under TLS cannot be looked at without reading them: there the hash is sent at once
        is_secure = isinstance(connection, http.client.HTTPSConnection)
        send_head(connection, imprint, not is_secure)
        if is_secure or is_taken(connection.sock):
            connection.send(imprint.encode())
            connection.sock.settimeout(TAKEN_SECONDS)
        answer = connection.getresponse()
        return Reply(answer.status, seconds_of(answer.getheader("Retry-After")), answer.read())
    except (OSError, http.client.HTTPException) as error:
        return Reply(None, 0.0, (str(error) or type(error).__name__).encode())
    finally:
        connection.close()


def connection_to(address: str) -> http.client.HTTPConnection:
    """A connection to HOST:PORT, or to https://HOST:PORT, whose certificate is verified by the system's authorities or SSL_CERT_FILE."""
    if address.startswith(HTTPS):
        return http.client.HTTPSConnection(address[len(HTTPS):], timeout=CONNECT_SECONDS)
    return http.client.HTTPConnection(address, timeout=CONNECT_SECONDS)


def key_header() -> Dict[str, str]:
    """The header with the key of this client, if the environment has one."""
    key = os.environ.get("KSI_KEY")
    return {"Authorization": f"Bearer {key}"} if key else {}


def send_head(connection: http.client.HTTPConnection, imprint: str, waits: bool) -> None:
    connection.putrequest("POST", "/sign", skip_accept_encoding=True)
    expect = {"Expect": "100-continue"} if waits else {}
    for name, value in {"Content-Type": "text/plain", "Content-Length": str(len(imprint)), **expect, **key_header(), "Connection": "close"}.items():
        connection.putheader(name, value)
    connection.endheaders()


def is_taken(sock: socket.socket) -> bool:
    """Whether the first answer is the interim one. It is left to be read. Raises OSError after INTERIM_SECONDS without an answer."""
    end = time.monotonic() + INTERIM_SECONDS
    begun = b""
    while len(begun) < len(TAKEN):
        if time.monotonic() > end:
            raise TimeoutError("timed out")
        before = begun
        begun = sock.recv(len(TAKEN), socket.MSG_PEEK)
        if not begun or begun == before:
            # a connection that ended in the middle is peeked again and again
            time.sleep(0.01)
        if not begun:
            return False
    return begun == TAKEN


def seconds_of(text: Optional[str]) -> float:
    """The seconds of a `Retry-After`, or 0 if it has none. A date is not obeyed: our doors send none."""
    return float(text) if text and text.isascii() and text.isdigit() else 0.0


Ask = Callable[[str, str], Reply]


class Pauses:
    """How long a client waits between two rounds: at least as long as a door asked for, twice as long each time, and up to half as long again by chance."""

    def __init__(self, chance: Callable[[], float] = random.random) -> None:
        self.chance = chance
        self.last = 0.0

    def next(self, retry_after: float) -> float:
        self.last = min(MOST_RETRY, max(retry_after, 2 * self.last, FIRST_PAUSE))
        return self.last * (1 + self.chance() / 2)


def once_at_all(doors: Sequence[str], imprint: str, failures: List[str], ask_one: Ask) -> Reply:
    """Asks one door after the other, until one signs, refuses for good, or says that all are busy. Returns the last answer."""
    reply = Reply(None, 0.0, b"")
    retry_after = 0.0
    for address in doors:
        reply = ask_one(address, imprint)
        retry_after = max(retry_after, reply.retry_after)
        if reply.status == 200 or reply.status is not None and 400 <= reply.status < 500 or reply.retry_after >= LONG_RETRY:
            break
        failures.append(f"{address}: {reply.reason()}")
    return reply._replace(retry_after=retry_after)


def sign(doors: Sequence[str], imprint: str, pauses: Optional[Pauses] = None, sleep: Callable[[float], None] = time.sleep, ask: Ask = ask) -> bytes:
    """The signature of a hash, by the first of these doors that gives one within ALL_SECONDS."""
    pauses = pauses or Pauses()
    end = time.monotonic() + ALL_SECONDS
    while True:
        failures: List[str] = []
        reply = once_at_all(doors, imprint, failures, ask)
        if reply.status == 200:
            return reply.content
        if reply.status is not None and 400 <= reply.status < 500:
            raise NotSigned(reply.reason())
        pause = pauses.next(reply.retry_after)
        if time.monotonic() + pause > end:
            raise NotSigned("; ".join(failures) or reply.reason())
        sleep(pause)


def doors_of(text: str) -> List[str]:
    """The addresses of `--door A,B,C`: HOST:PORT or https://HOST:PORT each."""
    doors = [it.strip() for it in text.split(",")]
    for door in doors:
        host, _, port = door[len(HTTPS) * door.startswith(HTTPS):].rpartition(":")
        if not host or not port.isdigit() or not 0 < int(port) < 65536:
            raise NotSigned(f"'{door}' is not HOST:PORT")
    return doors
