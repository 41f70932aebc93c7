"""Fetches a file of an HTTP server within limits of time and size. A server may lie, hang or return anything."""
import contextlib
import http.client
import socket
import ssl
import threading
import urllib.parse
from typing import Dict, Iterator, NamedTuple, Optional

CONNECT_SECONDS = 5.0
ALL_SECONDS = 30.0
"""How long a request may take in all."""
PIECE = 1 << 16


class Unknown(Exception):
    """Why nothing is known of a server: it cannot be reached, is slow, or its answers are malformed. That is no fork."""


class Fetched(NamedTuple):
    """An answer. Without content the server has what the ETag names."""

    content: Optional[bytes]
    etag: str


class Server:
    """An HTTP server by its URL. Its connection is kept."""

    def __init__(self, url: str, all_seconds: float = ALL_SECONDS) -> None:
        self.url = url.rstrip("/")
        parts = urllib.parse.urlsplit(url if "//" in url else f"//{url}", scheme="http")
        if parts.scheme not in ("http", "https") or not parts.hostname:
            raise ValueError(f"{url} is not http://HOST:PORT or https://HOST")
        self.parts = parts
        self.path = parts.path.rstrip("/")
        self.all_seconds = all_seconds
        self.connection: Optional[http.client.HTTPConnection] = None

    def connected(self) -> http.client.HTTPConnection:
        if self.connection is None:
            port = self.parts.port
            if self.parts.scheme == "https":
                self.connection = http.client.HTTPSConnection(self.parts.hostname, port, timeout=CONNECT_SECONDS, context=ssl.create_default_context())
            else:
                self.connection = http.client.HTTPConnection(self.parts.hostname, port, timeout=CONNECT_SECONDS)
            self.connection.connect()
        return self.connection

    def close(self) -> None:
        if self.connection is not None:
            self.connection.close()
        self.connection = None

    def get(self, path: str, most: int, etag: str = "", is_fresh: bool = False) -> Optional[Fetched]:
        """The content at a path, or None at status 404. A fresh one passes caches (RFC 9111, 5.2.1.4)."""
        headers = {"If-None-Match": f'"{etag}"'} if etag else {}
        if is_fresh:
            headers.update({"Cache-Control": "no-cache", "Pragma": "no-cache"})
        status, content, tag = self.asked("GET", path, most, headers)
        if status == 304 and etag:
            return Fetched(None, etag)
        if status == 404:
            return None
        if status != 200:
            raise Unknown(f"{path} has status {status}")
        return Fetched(content, tag)

    def post(self, path: str, content: bytes, most: int) -> bytes:
        status, answer, _ = self.asked("POST", path, most, {"Content-Type": "text/plain"}, content)
        if status != 200:
            raise Unknown(f"{path} has status {status}")
        return answer

    def asked(self, method: str, path: str, most: int, headers: Dict[str, str], content: Optional[bytes] = None):
        """The status, content and ETag of an answer. A kept connection that has ended is made again once."""
        for is_last in (self.connection is None, True):
            try:
                return self.once(method, path, most, headers, content)
            except (http.client.RemoteDisconnected, BrokenPipeError, ConnectionResetError) as error:
                self.close()
                if is_last:
                    raise Unknown(str(error) or type(error).__name__) from None
            except (OSError, http.client.HTTPException, ValueError) as error:
                self.close()
                raise Unknown(str(error) or type(error).__name__) from None
        raise Unknown("no answer")

    @contextlib.contextmanager
    def in_time(self, sock: socket.socket) -> Iterator[None]:
        """Ends the connection if the work takes too long, as with a server that sends a byte now and then."""
        late = []

        def end():
            late.append(True)
            with contextlib.suppress(OSError):
                sock.shutdown(socket.SHUT_RDWR)
        timer = threading.Timer(self.all_seconds, end)
        timer.daemon = True
        timer.start()
        try:
            yield
        except (OSError, http.client.HTTPException):
            if late:
                raise ValueError(f"it takes more than {self.all_seconds:g} seconds") from None
            raise
        finally:
            timer.cancel()
        if late:
            raise ValueError(f"it takes more than {self.all_seconds:g} seconds")

    def once(self, method: str, path: str, most: int, headers: Dict[str, str], content: Optional[bytes]):
        connection = self.connected()
        with self.in_time(connection.sock):
            connection.request(method, self.path + path, content, headers)
            answer = connection.getresponse()
            pieces, size = [], 0
            while piece := answer.read1(PIECE):
                pieces.append(piece)
                size += len(piece)
                if size > most:
                    raise ValueError(f"{path} has more than {most} bytes")
            answer.close()
        length = answer.getheader("Content-Length")
        if length is not None and answer.status == 200 and length != str(size):
            raise ValueError(f"{path} is cut off")
        return answer.status, b"".join(pieces), (answer.getheader("ETag") or "").strip('"')
