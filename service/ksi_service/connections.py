"""HTTP/1.1 for the door (RFC 9112): one request after the other on a connection, each within limits, or refused with a reason.

Reading is strict: the lines of a head end in CR LF, and names and values are printable ASCII. Bodies are read by bodies.py."""
import asyncio
import re
import time
import urllib.parse

from .answers import Refusal
from .bodies import BYTES_A_SECOND, SECONDS_FOR_BODY, Body

MOST_HEAD = 8192
"""The most bytes of the first line and the headers."""
MOST_HEADERS = 64
SECONDS_FOR_HEAD = 15
"""How long a client may take for the next request's head; then the connection ends."""
SECONDS_TO_LINGER = 2
MOST_TO_LINGER = 1 << 20
PIECE = 16 << 10
"""The most bytes of an answer that wait for a client."""
FIRST = re.compile(r"([A-Z]{1,16}) (?:https?://([0-9A-Za-z.:\[\]_-]+))?(/[!-~]*|\*) HTTP/1\.([01])")
NO_FIRST = "the first line is not METHOD /PATH HTTP/1.1"
HEADER = re.compile(r"([!#$%&'*+.^_`|~0-9A-Za-z-]+):[ \t]*([ -~\t]*)")
ONCE = {"content-length", "content-type", "host", "transfer-encoding", "expect", "connection"}
"""Headers that may occur at most once."""


class Connection:
    """A connection to a client, and the time until which the next bytes have to arrive."""

    def __init__(self, reader, writer, idle=None):
        self.reader = reader
        self.writer = writer
        self.until = None
        self.idle = {} if idle is None else idle
        """The connections that wait for the head of a request, the one that has waited longest first."""
        writer.transport.set_write_buffer_limits(high=PIECE)

    def limit(self, seconds):
        self.until = time.monotonic() + seconds

    def prolong(self, seconds):
        """More time for a client that is in time so far."""
        if self.until is not None:
            self.until += seconds

    def free(self):
        self.until = None

    def look(self, now):
        """Fails the read if its time is over. The door calls this from time to time."""
        if self.until is not None and now > self.until:
            self.until = None
            self.reader.set_exception(TimeoutError())


class Request:
    """A request whose head was read. Its body is still to come."""

    def __init__(self, head, connection):
        first, *rows = head.split("\r\n")
        words = FIRST.fullmatch(first)
        if not words or words[3] == "*" and words[1] != "OPTIONS":
            raise Refusal("malformed-request", NO_FIRST)
        self.method = words[1]
        self.target = words[3]
        self.path, _, query = self.target.partition("?")
        self.query = dict(urllib.parse.parse_qsl(query, keep_blank_values=True)) if query else {}
        """The parameters of the query. Of those with one name the last one counts."""
        self.is_first_version = words[4] == "0"
        self.headers = headers_of(rows)
        self.connection = connection
        if not self.is_first_version and "host" not in self.headers:
            raise Refusal("malformed-request", "there is no Host")
        self.host = words[2] or self.headers.get("host", "")
        """The host by the request's first line, if it has one (RFC 9112, 3.2.2), or else by its header."""
        self.ends = self.is_first_version or "close" in re.split(r"[ \t]*,[ \t]*", self.headers.get("connection", "").lower())
        self.body = None
        self.id = ""
        """What the answer returns as X-Request-Id."""
        self.began = time.monotonic()
        self.caller = None
        """Who sent it (access.py), once that was looked at."""
        self.imprints = []
        """The hashes that it asks to be signed, once they were read."""
        self.second = None
        """The last second in which one of them was signed."""

    def begin_body(self):
        """Sees how long the body is. Raises a Refusal if that is not clear, or an expectation cannot be met."""
        self.body = Body(self.method, self.is_first_version, self.headers, self.connection)

    @property
    def is_over(self):
        """Whether all of it was read, so that another request may follow."""
        return self.body is not None and self.body.is_over


def headers_of(rows):
    """The headers by their names in lower case."""
    if len(rows) > MOST_HEADERS:
        raise Refusal("head-too-large", f"at most {MOST_HEADERS} headers")
    headers = {}
    for row in rows:
        words = HEADER.fullmatch(row)
        if not words:
            raise Refusal("malformed-request", "a header is not NAME: VALUE in printable ASCII")
        name = words[1].lower()
        if name in headers and name in ONCE:
            raise Refusal("malformed-request", f"the header {name} occurs twice")
        headers[name] = words[2].strip()
    return headers


async def read_head(connection):
    """The text of a request's head, or None if the client sends no more. A connection that begins no request in time is closed without an
    answer: the client might take it for the answer to its next request."""
    connection.limit(SECONDS_FOR_HEAD)
    connection.idle[connection] = None
    begun = b""
    try:
        begun = await connection.reader.read(1)
        if begun == b"\r":
            raise Refusal("malformed-request", NO_FIRST)
        head = begun + await connection.reader.readuntil(b"\r\n\r\n")
    except TimeoutError:
        if begun:
            raise
        return None
    except asyncio.IncompleteReadError as rest:
        if not (begun + rest.partial).strip():
            return None
        raise Refusal("malformed-request", "the head ended early, or its lines do not end in CR LF") from None
    except asyncio.LimitOverrunError:
        raise Refusal("head-too-large", f"a head has at most {MOST_HEAD} bytes") from None
    finally:
        connection.idle.pop(connection, None)
    connection.free()
    return head[:-4].decode("latin-1")


async def serve(connection, reply, finish):
    """Answers the requests of a connection by `reply`, which returns an Answer for a Request. `finish` takes the request, or None if it is
    malformed, and the answer, and returns the answer that is sent."""
    ends = False
    while not ends:
        request = None
        try:
            head = await read_head(connection)
            if head is None:
                return
            request = Request(head, connection)
            request.begin_body()
            answer = await reply(request)
        except Refusal as refused:
            answer = refused
        except TimeoutError:
            answer = Refusal("request-timeout", "it took too long")
        answer = finish(request, answer)
        ends = request is None or request.ends or not request.is_over
        await send(connection.writer, answer.head(ends), b"" if request and request.method == "HEAD" else answer.content)
    await linger(connection)


async def linger(connection):
    """Reads and drops further bytes of a client for a moment, so that it reads the last answer before the connection ends."""
    try:
        if connection.writer.can_write_eof():
            connection.writer.write_eof()
        connection.limit(SECONDS_TO_LINGER)
        for _ in range(MOST_TO_LINGER >> 14):
            if not await connection.reader.read(1 << 14):
                return
    except (TimeoutError, OSError):
        pass


async def end(writer):
    """Ends a connection after its client has read everything, or has taken too long."""
    writer.close()
    handle = asyncio.get_running_loop().call_later(SECONDS_FOR_BODY, writer.transport.abort)
    try:
        await writer.wait_closed()
    except OSError:
        pass
    finally:
        handle.cancel()


async def send(writer, head, content):
    """Writes an answer, a piece at a time; a client that takes too long to read it loses the connection."""
    writer.write(head + content[:PIECE])
    if len(content) <= PIECE and not writer.transport.get_write_buffer_size():
        return
    handle = asyncio.get_running_loop().call_later(SECONDS_FOR_BODY + len(content) / BYTES_A_SECOND, writer.transport.abort)
    try:
        for at in range(PIECE, len(content), PIECE):
            await writer.drain()
            writer.write(content[at:at + PIECE])
        await writer.drain()
    finally:
        handle.cancel()
