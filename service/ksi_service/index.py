"""Where a machine's record has the signature of each hash: a table of SQLite.

The table has the first eight bytes of a hash, its second, and the file and the byte of the record at which its entry `signed` begins. So it
is small, and nothing depends on it: each row is compared with the record when it is used, and the table can be made again from the record."""
import contextlib
import os
import sqlite3
from typing import Iterable, List, NamedTuple, Optional

from . import files

MOST_FOUND = 16
"""How many rows of one hash are read, the last ones first."""
TABLES = """
CREATE TABLE IF NOT EXISTS places (hash INTEGER, file INTEGER, at INTEGER, second INTEGER, PRIMARY KEY (hash, file, at)) WITHOUT ROWID;
CREATE TABLE IF NOT EXISTS progress (file INTEGER);
"""


class Place(NamedTuple):
    """An entry `signed` of the record."""

    imprint: str
    second: int
    file: int
    at: int


def key_of(imprint: str) -> int:
    return int.from_bytes(bytes.fromhex(imprint[:16]), "big", signed=True)


class Index:
    """The table. Its calls come from one thread at a time. Each raises sqlite3.Error if the table is damaged or cannot be written."""

    def __init__(self, path: str) -> None:
        self.path = path
        self.table: Optional[sqlite3.Connection] = None

    def open(self) -> None:
        """Opens the table, or makes it. After a loss of power it has all rows up to some moment, and its progress."""
        self.table = sqlite3.connect(self.path, check_same_thread=False, isolation_level=None)
        self.table.execute("PRAGMA journal_mode=WAL")
        self.table.execute("PRAGMA synchronous=NORMAL")
        self.table.executescript(TABLES)
        self.progress()

    def close(self) -> None:
        if self.table is not None:
            with contextlib.suppress(sqlite3.Error):
                self.table.close()
            self.table = None

    def remove(self) -> None:
        """Removes a table that is damaged."""
        self.close()
        for end in ("", "-wal", "-shm"):
            files.remove(self.path + end)

    @property
    def opened(self) -> sqlite3.Connection:
        if self.table is None:
            raise sqlite3.ProgrammingError("the table is not open")
        return self.table

    def progress(self) -> int:
        """The first file of the record that may have entries which the table lacks."""
        row = self.opened.execute("SELECT max(file) FROM progress").fetchone()
        return row[0] or 0

    def add(self, places: Iterable[Place], progress: Optional[int] = None) -> None:
        """Adds entries, and notes the progress with them."""
        rows = sorted((key_of(it.imprint), it.file, it.at, it.second) for it in places)
        table = self.opened
        table.execute("BEGIN")
        try:
            table.executemany("INSERT OR IGNORE INTO places VALUES (?, ?, ?, ?)", rows)
            if progress is not None:
                table.execute("DELETE FROM progress")
                table.execute("INSERT INTO progress VALUES (?)", (progress,))
            table.execute("COMMIT")
        except sqlite3.Error:
            if table.in_transaction:
                table.execute("ROLLBACK")
            raise

    def find(self, imprint: str) -> List[Place]:
        """The entries whose hash may be this one, the last one first."""
        found = self.opened.execute("SELECT second, file, at FROM places WHERE hash = ? ORDER BY file DESC, at DESC LIMIT ?", (key_of(imprint), MOST_FOUND))
        return [Place(imprint, *row) for row in found]

    def size(self) -> int:
        return os.path.getsize(self.path)
