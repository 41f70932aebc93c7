"""The store of a log: one SQLite file of mode 600 (docs/FORMATS.md, "Stores of logs").

A log has parts: each is the text between two rotations, whatever the name of its file. A part has blocks. A block is added with its
leaves and its seed before it is signed, so a process that is killed loses nothing."""
import contextlib
import fcntl
import os
import re
import sqlite3
import time
from typing import Iterator, List, NamedTuple, Optional, Sequence, Tuple

from ksi_service import files

from .errors import LogError
from .leaves import SIZE
from .seeds import MODE, SeedFile

SUFFIX = ".ksilog"
APPLICATION, VERSION = 0x4B53494C, 1
"""The numbers in the file's header: `KSIL`, and the version of the tables."""
BUSY_SECONDS = 60
LOCK_SECONDS, LOOK_SECONDS = 600.0, 0.2
"""For how long a command waits for another one that signs the same log, and how often it looks."""
ROTATED = re.compile(r"(?:[.-]\d+)+(?:\.(?:gz|bz2|xz|zst))?$")
"""What a rotation adds to the name of a log."""
TABLES = """
CREATE TABLE parts (part INTEGER PRIMARY KEY, path TEXT NOT NULL, device INTEGER NOT NULL, inode INTEGER NOT NULL, size INTEGER NOT NULL,
    changed INTEGER NOT NULL, begun INTEGER NOT NULL, is_whole INTEGER NOT NULL);
CREATE TABLE blocks (block INTEGER PRIMARY KEY, part INTEGER NOT NULL, first_line INTEGER NOT NULL, lines INTEGER NOT NULL, first_byte INTEGER NOT NULL,
    size INTEGER NOT NULL, is_ended INTEGER NOT NULL, cut INTEGER NOT NULL, root BLOB NOT NULL, digest BLOB NOT NULL, seed BLOB, second INTEGER,
    publication INTEGER, signature BLOB);
CREATE UNIQUE INDEX lines_of_parts ON blocks (part, first_line);
CREATE TABLE leaves (block INTEGER PRIMARY KEY, content BLOB NOT NULL);
CREATE TABLE publications (one INTEGER PRIMARY KEY CHECK (one = 1), content BLOB NOT NULL);
CREATE TABLE cursors (one INTEGER PRIMARY KEY CHECK (one = 1), cursor TEXT NOT NULL);
"""


class Part(NamedTuple):
    """The text of a log between two rotations."""

    part: int
    path: str
    """The path of its file when it was signed last."""
    device: int
    inode: int
    size: int
    changed: int
    """The file's time of its last change then, in nanoseconds."""
    begun: int
    """When its first block was cut."""
    is_whole: bool
    """Whether all of the file was signed then, its last line too."""


class Block(NamedTuple):
    """A block, without its leaves."""

    block: int
    part: int
    first_line: int
    """Counted from 0 in its part."""
    lines: int
    first_byte: int
    size: int
    is_ended: bool
    cut: int
    """When it was cut, in seconds of Unix time."""
    root: bytes
    digest: bytes
    """The SHA-256 of the seed and the block's text."""
    seed: Optional[bytes]
    """None if it is kept in another file."""
    second: Optional[int]
    """The second of its signature, or None if it has none yet."""
    publication: Optional[int]
    """The second of the publication to which the signature is extended, or None."""

    @property
    def end_line(self) -> int:
        return self.first_line + self.lines

    @property
    def end_byte(self) -> int:
        return self.first_byte + self.size


PART, BLOCK = ", ".join(Part._fields), ", ".join(Block._fields)


class Made(NamedTuple):
    """A block that is to be added: all that is computed of it."""

    first_line: int
    lines: int
    first_byte: int
    size: int
    is_ended: bool
    root: bytes
    digest: bytes
    seed: bytes
    leaves: bytes


def name_of(path: str) -> str:
    """The name of a log by that of one of its files: without the number or date of a rotation."""
    name = os.path.basename(path)
    return ROTATED.sub("", name) or name


def path_of(log: str, folder: Optional[str], name: Optional[str]) -> str:
    """The store of a log: next to it, or in a folder at the log's whole path, since logs of several programs have one name. With a name it is
    at that name in the folder, or next to the log."""
    above = os.path.dirname(log)
    if folder:
        above = folder if name else os.path.join(folder, os.path.abspath(above).lstrip("/"))
    return os.path.join(above, (name or name_of(log)) + SUFFIX)


class Store:
    """The store of one log. Its file is made by the first block, and is never seen half made."""

    def __init__(self, path: str, seeds: Optional[str] = None) -> None:
        """Raises LogError if the file is no store. `seeds` is the file of seeds that are kept apart."""
        self.path = path
        self.seeds = SeedFile(seeds) if seeds else None
        is_new = not os.path.exists(path)
        if is_new:
            os.close(os.open(path, os.O_RDWR | os.O_CREAT, MODE))
        self._base = sqlite3.connect(path, timeout=BUSY_SECONDS, isolation_level=None)
        try:
            self._begin(is_new)
        except sqlite3.DatabaseError as fault:
            self._base.close()
            raise LogError(f"{path}: {fault}") from None

    def _begin(self, is_new: bool) -> None:
        self._base.execute("PRAGMA synchronous = FULL")
        # seeds that are moved away leave no copy in free pages
        self._base.execute("PRAGMA secure_delete = ON")
        if self._number("SELECT COUNT(*) FROM sqlite_schema") == 0:
            self._make()
        if self._number("PRAGMA application_id") != APPLICATION:
            raise LogError(f"{self.path} is no store of ksi-log")
        if (version := self._number("PRAGMA user_version")) > VERSION:
            raise LogError(f"{self.path} is of version {version}, which a later ksi-log made")
        if is_new:
            files.sync_folder(os.path.dirname(self.path))

    def _number(self, query: str) -> int:
        return self._base.execute(query).fetchone()[0]

    def _make(self) -> None:
        with self.change():
            # another process may have made them meanwhile
            if self._number("SELECT COUNT(*) FROM sqlite_schema") == 0:
                for it in filter(str.strip, TABLES.split(";")):
                    self._base.execute(it)
                self._base.execute(f"PRAGMA application_id = {APPLICATION}")
                self._base.execute(f"PRAGMA user_version = {VERSION}")

    def __enter__(self) -> "Store":
        return self

    def __exit__(self, *_: object) -> None:
        self._base.close()

    @contextlib.contextmanager
    def change(self) -> Iterator[None]:
        """A transaction."""
        self._base.execute("BEGIN IMMEDIATE")
        try:
            yield
        except BaseException:
            self._base.execute("ROLLBACK")
            raise
        self._base.execute("COMMIT")

    def parts(self) -> List[Part]:
        """The parts, the newest first."""
        return [Part(*row[:-1], bool(row[-1])) for row in self._base.execute(f"SELECT {PART} FROM parts ORDER BY part DESC")]

    def seen(self, part: int, path: str, stat: os.stat_result, is_whole: bool) -> None:
        """Keeps the place of the file of a part, and whether all of it was signed."""
        with self.change():
            self._base.execute("UPDATE parts SET path = ?, device = ?, inode = ?, size = ?, changed = ?, is_whole = ? WHERE part = ?",
                               (path, stat.st_dev, stat.st_ino, stat.st_size, stat.st_mtime_ns, is_whole, part))

    def blocks(self, part: Optional[int] = None, condition: str = "1") -> List[Block]:
        """The blocks, of one part or all of them, that fulfil a condition of SQL."""
        rows = self._base.execute(f"SELECT {BLOCK} FROM blocks WHERE (part = ? OR ? IS NULL) AND {condition} ORDER BY block", (part, part))
        return [Block(*row)._replace(is_ended=bool(row[6])) for row in rows]

    def block_with(self, part: int, line: int) -> Optional[Block]:
        """The block of a line of a part, counted from 0."""
        found = self.blocks(part, f"first_line = (SELECT MAX(first_line) FROM blocks WHERE part = {part} AND first_line <= {line})")
        return found[0] if found and line < found[0].end_line else None

    def last_block(self, part: int) -> Block:
        return self.blocks(part, f"first_line = (SELECT MAX(first_line) FROM blocks WHERE part = {part})")[0]

    def add(self, part: Optional[int], path: str, stat: os.stat_result, made: Made) -> int:
        """Adds a block to a part, or to a new part if there is none yet, and returns the part. The block's seed is on the disk before it."""
        if self.seeds:
            self.seeds.add([(made.root, made.seed)])
        with self.change():
            if part is None:
                part = self._base.execute("INSERT INTO parts (path, device, inode, size, changed, begun, is_whole) VALUES (?, ?, ?, 0, 0, ?, 0)",
                                          (path, stat.st_dev, stat.st_ino, int(time.time()))).lastrowid
            number = self._base.execute(
                "INSERT INTO blocks (part, first_line, lines, first_byte, size, is_ended, cut, root, digest, seed) VALUES (?, ?, ?, ?, ?, ?, ?, ?, ?, ?)",
                (part, made.first_line, made.lines, made.first_byte, made.size, made.is_ended, int(time.time()), made.root, made.digest,
                 None if self.seeds else made.seed)).lastrowid
            self._base.execute("INSERT INTO leaves (block, content) VALUES (?, ?)", (number, made.leaves))
        return part

    def leaves(self, block: int) -> bytes:
        return self._base.execute("SELECT content FROM leaves WHERE block = ?", (block,)).fetchone()[0]

    def first_leaf(self, block: int) -> bytes:
        return self._base.execute("SELECT substr(content, 1, ?) FROM leaves WHERE block = ?", (SIZE, block)).fetchone()[0]

    def signature(self, block: int) -> Optional[bytes]:
        return self._base.execute("SELECT signature FROM blocks WHERE block = ?", (block,)).fetchone()[0]

    def sign(self, rows: Sequence[Tuple[int, bytes, int, Optional[int]]]) -> None:
        """Keeps signatures: the number of each block, its signature, its second, and that of the publication if it is extended."""
        with self.change():
            self._base.executemany("UPDATE blocks SET signature = ?2, second = ?3, publication = ?4 WHERE block = ?1", rows)

    def publications(self) -> Optional[bytes]:
        """The last publications file that was fetched, or None."""
        row = self._base.execute("SELECT content FROM publications").fetchone()
        return row[0] if row else None

    def keep_publications(self, content: bytes) -> None:
        with self.change():
            self._base.execute("INSERT OR REPLACE INTO publications VALUES (1, ?)", (content,))

    def cursor(self) -> Optional[str]:
        """Where the journal was read to, or None."""
        row = self._base.execute("SELECT cursor FROM cursors").fetchone()
        return row[0] if row else None

    def keep_cursor(self, cursor: str) -> None:
        with self.change():
            self._base.execute("INSERT OR REPLACE INTO cursors VALUES (1, ?)", (cursor,))

    def seed(self, block: Block) -> Optional[bytes]:
        """The seed of a block, or None if it is not here."""
        return block.seed or (self.seeds.get(block.root) if self.seeds else None)

    def needed_seed(self, block: Block) -> bytes:
        """The seed of a block. Raises LogError if it is not here."""
        seed = self.seed(block)
        if seed is None:
            here = f"neither in {self.path} nor in {self.seeds.path}" if self.seeds else f"not in {self.path}: --seeds names their file"
            raise LogError(f"the seed of lines {block.first_line + 1} to {block.end_line} of part {block.part} is {here}")
        return seed

    def move_seeds(self, to: str) -> int:
        """Moves all seeds to a file, and returns how many. They are on the disk there before they are removed here."""
        rows = [(it.root, it.seed) for it in self.blocks(condition="seed IS NOT NULL") if it.seed]
        if rows:
            SeedFile(to).add(rows)
            with self.change():
                self._base.execute("UPDATE blocks SET seed = NULL")
        return len(rows)


@contextlib.contextmanager
def held(path: str) -> Iterator[None]:
    """Holds the lock of a store for a command that signs. Raises LogError if another one has it for long."""
    lock = f"{path}.lock"
    with open(lock, "a", opener=lambda name, flags: os.open(name, flags, MODE), encoding="ascii") as file:
        end = time.monotonic() + LOCK_SECONDS
        while True:
            try:
                fcntl.flock(file, fcntl.LOCK_EX | fcntl.LOCK_NB)
                break
            except BlockingIOError:
                if time.monotonic() > end:
                    raise LogError(f"another ksi-log has {lock}") from None
                time.sleep(LOOK_SECONDS)
        yield


def opened(path: str, seeds: Optional[str] = None) -> Store:
    """A store that is there. Raises LogError if it is not."""
    if not os.path.exists(path):
        raise LogError(f"{path} is missing: `ksi-log sign` makes it, and --store names its folder")
    return Store(path, seeds)
