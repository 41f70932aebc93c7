"""Has hashes signed by the HTTP API of a service (docs/API.md), with Python's standard library alone.

    >>> door = ksi.client.Client("http://127.0.0.1:8080")
    >>> signature = door.sign(ksi.digest(document))
    >>> signature.second, len(signature.content)

It verifies nothing: that is `ksi.verify`, against publications that you trust. A client has one connection, so each thread needs its own."""
import base64
import http.client
import json
import ssl
import time
import typing
import urllib.parse

MOST_HASHES = 1000
"""The most hashes of one request."""
MOST_SIGNATURES = 100
"""The most signatures of one request to extend."""
FIRST_PAUSE, MOST_PAUSE = 1.0, 16.0
"""The bounds of the pause before a request is sent again, if the server names none."""
AGAIN = (429, 503)
"""The statuses after which a request is sent again."""


class Signature(typing.NamedTuple):
    digest: bytes
    """The 32 bytes of the hash that was signed."""
    second: int
    content: bytes
    """The signature file."""
    publication: typing.Optional[int] = None
    """The second of the publication to which it is extended, if it was."""


class Refused(Exception):
    """Why there is no signature: a problem of RFC 9457, or no answer."""

    def __init__(self, status: int, code: str, detail: str, retry_after: float = 0.0) -> None:
        super().__init__(f"{code}: {detail}")
        self.status = status
        """The status of HTTP, or 0 if there was no answer."""
        self.code = code
        """One of the codes of docs/API.md, or `no-answer`, or `status-N` of an answer without a code, as a proxy gives."""
        self.detail = detail
        self.retry_after = retry_after


Result = typing.Union[Signature, Refused]
"""A signature, or the reason why there is none."""


class Client:
    """A client of one door."""

    def __init__(self, url: str, key: typing.Optional[str] = None, timeout: float = 90.0, patience: float = 90.0, context: typing.Optional[ssl.SSLContext] = None) -> None:
        """A door at an http or https URL, and the key that its operator gave you. An answer may take `timeout` seconds. A request that is refused
        with 503 or 429 is sent again for `patience` seconds."""
        parts = urllib.parse.urlsplit(url)
        if parts.scheme not in ("http", "https") or not parts.netloc:
            raise ValueError(f"{url} is not http://HOST or https://HOST")
        self._host = parts.netloc
        self._path = parts.path.rstrip("/")
        self._context = (context or ssl.create_default_context()) if parts.scheme == "https" else None
        self._headers = {"Authorization": f"Bearer {key}"} if key else {}
        self._timeout = timeout
        self._patience = patience
        self._connection: typing.Optional[http.client.HTTPConnection] = None
        self._publications: typing.Tuple[str, bytes] = ("", b"")

    def __enter__(self) -> "Client":
        return self

    def __exit__(self, *_: object) -> None:
        self.close()

    def close(self) -> None:
        if self._connection is not None:
            self._connection.close()
            self._connection = None

    def sign(self, digest: bytes) -> Signature:
        """The signature of a hash of 32 bytes. Raises Refused if there is none."""
        return _one(self.sign_many([digest]))

    def sign_many(self, digests: typing.Iterable[bytes]) -> typing.List[Result]:
        """A signature for each hash of 32 bytes, or the reason why there is none, in the same order."""
        hashes = list(digests)
        if any(len(it) != 32 for it in hashes):
            raise ValueError("a hash has 32 bytes")
        return self._results("/v1/signatures", [it.hex() for it in hashes], MOST_HASHES)

    def lookup(self, digest: bytes) -> typing.Optional[Signature]:
        """The last signature of a hash that the service knows, or None."""
        try:
            return _one([_result(self._json("GET", f"/v1/signatures/{digest.hex()}"))])
        except Refused as reason:
            if reason.code == "signature-unknown":
                return None
            raise

    def extend(self, signature: bytes, to: typing.Optional[int] = None) -> Signature:
        """A signature, extended to the last publication or to that of a second. Raises Refused if it is not."""
        return _one(self.extend_many([signature], to))

    def extend_many(self, signatures: typing.Iterable[bytes], to: typing.Optional[int] = None) -> typing.List[Result]:
        """Each signature, extended, or the reason why it is not, in the same order."""
        contents = [base64.b64encode(it).decode() for it in signatures]
        path = "/v1/extensions" + (f"?to={to}" if to is not None else "")
        return self._results(path, contents, MOST_SIGNATURES)

    def publications(self) -> bytes:
        """The publications file. It is fetched again only if it changed."""
        tag, before = self._publications
        status, headers, content = self._asked("GET", "/v1/publications", None, {"If-None-Match": tag} if tag else {})
        if status == 304:
            return before
        self._publications = headers.get("ETag", ""), content
        return content

    def _results(self, path: str, entries: typing.List[str], most: int) -> typing.List[Result]:
        """The results of entries, by requests of at most this many. If a request is refused, each of its entries has the reason."""
        found: typing.List[Result] = []
        for at in range(0, len(entries), most):
            portion = entries[at:at + most]
            try:
                found += map(_result, self._json("POST", path, json.dumps(portion).encode()))
            except Refused as reason:
                found += [reason] * len(portion)
        return found

    def _json(self, method: str, path: str, content: typing.Optional[bytes] = None) -> typing.Any:
        told = self._asked(method, path, content, {"Content-Type": "application/json"} if content is not None else {})[2]
        try:
            return json.loads(told)
        except ValueError:
            raise Refused(0, "no-answer", "the answer is not JSON") from None

    def _asked(self, method: str, path: str, content: typing.Optional[bytes], headers: typing.Dict[str, str]) -> typing.Tuple[int, typing.Any, bytes]:
        """The answer of the server, which is asked again if it is busy."""
        end = time.monotonic() + self._patience
        pause = FIRST_PAUSE
        while True:
            try:
                return self._once(method, path, content, headers)
            except Refused as reason:
                wait = max(reason.retry_after, pause)
                if reason.status not in AGAIN or time.monotonic() + wait > end:
                    raise
            time.sleep(wait)
            pause = min(MOST_PAUSE, 2 * pause)

    def _once(self, method: str, path: str, content: typing.Optional[bytes], headers: typing.Dict[str, str]) -> typing.Tuple[int, typing.Any, bytes]:
        is_kept = self._connection is not None
        try:
            answer = self._sent(method, path, content, headers)
            told = answer.read()
        except (OSError, http.client.HTTPException) as fault:
            self.close()
            if is_kept:
                # a server ends connections that were not used for a while; a hash that is signed twice harms nobody
                return self._once(method, path, content, headers)
            raise Refused(0, "no-answer", str(fault) or type(fault).__name__) from None
        if answer.status >= 400:
            raise _refusal(answer, told)
        return answer.status, answer.headers, told

    def _sent(self, method: str, path: str, content: typing.Optional[bytes], headers: typing.Dict[str, str]) -> http.client.HTTPResponse:
        if self._connection is None:
            secure = self._context
            self._connection = (http.client.HTTPSConnection(self._host, timeout=self._timeout, context=secure) if secure
                                else http.client.HTTPConnection(self._host, timeout=self._timeout))
        self._connection.request(method, self._path + path, content, {**headers, **self._headers})
        return self._connection.getresponse()


def _one(found: typing.List[Result]) -> Signature:
    it, = found
    if isinstance(it, Refused):
        raise it
    return it


def _result(row: typing.Any) -> Result:
    """The result of an entry of an answer."""
    if "error" in row:
        return _problem(row["error"])
    return Signature(bytes.fromhex(row["hash"]), row["second"], base64.b64decode(row["signature"]), row.get("publication"))


def _problem(told: typing.Any) -> Refused:
    return Refused(told["status"], told["code"], told["detail"], float(told.get("retry_after", 0)))


def _refusal(answer: http.client.HTTPResponse, content: bytes) -> Refused:
    """The reason of a refusal. A proxy in between may give text."""
    try:
        return _problem(json.loads(content))
    except (ValueError, KeyError, TypeError):
        text = answer.headers.get("Retry-After", "")
        return Refused(answer.status, f"status-{answer.status}", content[:200].decode(errors="replace").strip(), float(text) if text.isdigit() else 0.0)
