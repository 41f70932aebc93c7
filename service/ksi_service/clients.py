"""The clients of a door by their keys: a file that has a name, the SHA-256 of a random key, and perhaps a rate for each.

A client sends its key as `Authorization: Bearer KEY`. The file has no key, so whoever reads it cannot use the door."""
import hashlib
import logging
import math
import os
import re
import secrets
import time
from typing import Dict, List, NamedTuple, Optional

from . import files
from .answers import Refusal
from .errors import NeedsOperator
from .watching import Watch

log = logging.getLogger(__name__)

NAME = re.compile(r"[A-Za-z0-9._@-]{1,64}")
ROW = re.compile(r"([A-Za-z0-9._@-]{1,64}) ([0-9a-f]{64})(?: ([0-9]{1,9}(?:\.[0-9]{1,3})?))?")
KEY_BYTES = 32


class BadClients(NeedsOperator):
    """The file of clients is malformed."""


class Row(NamedTuple):
    """A line of the file."""

    name: str
    digest: str
    rate: Optional[float]
    """How many hashes a second the client may have signed or extended, or None for any number."""

    def text(self) -> str:
        return " ".join([self.name, self.digest, *([f"{self.rate:g}"] if self.rate is not None else [])])


class Client:
    """A client, and how much of its rate is left."""

    def __init__(self, row: Row) -> None:
        self.name = row.name
        self.row = row
        self.left = self.most
        self.since = time.monotonic()

    @property
    def most(self) -> float:
        """How many hashes it may have at once after a pause."""
        return max(1.0, self.row.rate or 0.0)

    def take(self, count: int) -> None:
        """Counts hashes. Raises a Refusal if the client is over its rate. A large request after a pause is taken whole, and the next ones wait
        for as long as it is worth."""
        if self.row.rate is None:
            return
        now = time.monotonic()
        self.left = min(self.most, self.left + (now - self.since) * self.row.rate)
        self.since = now
        if self.left < 1:
            wait = (1 - self.left) / self.row.rate if self.row.rate else 3600.0
            raise Refusal("rate-exceeded", f"{self.name} may have {self.row.rate:g} hashes signed or extended a second", Retry_After=str(min(3600, math.ceil(wait))))
        self.left -= count


def digest_of(key: str) -> str:
    return hashlib.sha256(key.encode("latin-1", "replace")).hexdigest()


def rows_in(text: str, path: str) -> List[Row]:
    """The rows of a file. Empty lines and those that begin with # count for nothing."""
    rows = []
    for number, line in enumerate(text.splitlines(), 1):
        if line.strip() and not line.startswith("#"):
            found = ROW.fullmatch(line.strip())
            if not found:
                raise BadClients(f"{path}: line {number} is not NAME SHA-256 [RATE]")
            rows.append(Row(found[1], found[2], float(found[3]) if found[3] else None))
    if len({it.name for it in rows}) < len(rows) or len({it.digest for it in rows}) < len(rows):
        raise BadClients(f"{path} has a name or a key twice")
    return rows


def rows_of(path: str) -> Optional[List[Row]]:
    """The rows of a file, or None if there is no file."""
    content = files.content_of(path)
    return None if content is None else rows_in(content.decode("utf-8", "replace"), path)


class Clients:
    """The clients of a file, which is read again after it changed."""

    def __init__(self, path: str) -> None:
        self.path = path
        self.watch = Watch(path)
        self.by_digest: Dict[str, Client] = {}
        self.are_there = False
        """Whether there is a file. Once there was one, the door stays closed to others, even if the file is lost."""
        self.watch.has_changed()
        self.take(rows_of(path))

    def take(self, rows: Optional[List[Row]]) -> None:
        if rows is None:
            if self.are_there:
                log.error("%s is gone: its clients stay as they were", self.path)
            return
        self.are_there = True
        before = self.by_digest
        self.by_digest = {it.digest: before[it.digest] if it.digest in before and before[it.digest].row == it else Client(it) for it in rows}

    def look(self) -> None:
        """Reads the file again if it changed. If it is malformed, the clients stay as they were."""
        if self.watch.has_changed():
            try:
                self.take(rows_of(self.path))
            except (BadClients, OSError) as fault:
                log.error("%s: the clients stay as they were", fault)

    def of_key(self, key: str) -> Optional[Client]:
        return self.by_digest.get(digest_of(key))


def add(path: str, name: str, rate: Optional[float]) -> str:
    """Adds a client to a file, and returns its key."""
    if not NAME.fullmatch(name):
        raise BadClients(f"'{name}' is no name of a client: it has 1 to 64 letters, digits and . _ @ -")
    rows = rows_of(path) or []
    if any(it.name == name for it in rows):
        raise BadClients(f"{path} has a client {name} already")
    key = secrets.token_urlsafe(KEY_BYTES)
    write(path, [*rows, Row(name, digest_of(key), rate)])
    return key


def remove(path: str, name: str) -> None:
    rows = rows_of(path) or []
    if not any(it.name == name for it in rows):
        raise BadClients(f"{path} has no client {name}")
    write(path, [it for it in rows if it.name != name])


def write(path: str, rows: List[Row]) -> None:
    """Writes the file, which only its user may read."""
    if not os.path.exists(path):
        os.close(os.open(path, os.O_WRONLY | os.O_CREAT, 0o600))
    files.write(path, "".join(f"{it.text()}\n" for it in rows).encode())
