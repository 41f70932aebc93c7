"""The files of trees, each with the place of its signature: `FILE.ksig` next to the file, or at the same path below another folder.

Names are bytes. Symbolic links and whatever has no bytes of its own are passed over with a reason; those that a user names are followed.
Files that end with `.ksig`, or with `.ksig.new` as an interrupted run leaves them, are no documents."""
import os
import stat
from typing import Iterator, List, NamedTuple, Optional, Sequence, Set

from .errors import ServiceError
from .hashing import kind_of

SIGNATURE, UNFINISHED = b".ksig", b".ksig.new"


class BadPaths(ServiceError):
    """The paths cannot be worked on together."""


class Entry(NamedTuple):
    path: bytes
    signature: bytes
    """The place of its signature."""
    passed: str = ""
    """Why it is passed over: its kind."""
    fault: str = ""
    """Why it cannot be read."""
    is_lost: bool = False
    """Whether there is only a signature, and no file."""


class Tree(NamedTuple):
    """A file or a folder that a user named."""

    top: bytes
    signatures: Optional[bytes]
    """The folder for its signatures, if they are not next to the files."""
    is_folder: bool

    def signature_of(self, path: bytes) -> bytes:
        if self.signatures is None:
            return path + SIGNATURE
        name = os.path.relpath(path, self.top) if self.is_folder else os.path.basename(path)
        return os.path.join(self.signatures, name + SIGNATURE)

    def entries(self) -> Iterator[Entry]:
        """All files below, folder by folder, each in the order of names. Then the signatures without a file."""
        if not self.is_folder:
            yield self.alone()
            return
        folders = [self.top]
        while folders:
            folder = folders.pop()
            try:
                with os.scandir(folder) as found:
                    rows = sorted(found, key=lambda it: it.name)
            except OSError as error:
                yield Entry(folder, b"", fault=error.strerror or str(error))
                continue
            below = []
            for row in rows:
                if row.is_dir(follow_symlinks=False):
                    below.append(row.path)
                elif is_document(row.name):
                    yield self.entry(row.path, mode_of(row))
            folders += reversed(below)
            if self.signatures is None:
                yield from lost_next_to(folder, rows)
        if self.signatures is not None:
            yield from self.lost()

    def alone(self) -> Entry:
        try:
            return self.entry(self.top, os.stat(self.top).st_mode)
        except OSError as error:
            signature = self.signature_of(self.top)
            return Entry(self.top, signature, is_lost=os.path.lexists(signature), fault=error.strerror)

    def entry(self, path: bytes, mode: int) -> Entry:
        return Entry(path, self.signature_of(path), passed="" if stat.S_ISREG(mode) or not mode else kind_of(mode))

    def lost(self) -> Iterator[Entry]:
        """The signatures of the other folder whose files are missing."""
        for folder, folders, names in os.walk(self.signatures):
            folders.sort()
            for name in sorted(names):
                path = os.path.join(self.top, os.path.relpath(os.path.join(folder, name), self.signatures)[:-len(SIGNATURE)])
                if name.endswith(SIGNATURE) and not os.path.lexists(path):
                    yield Entry(path, os.path.join(folder, name), is_lost=True)


def is_document(name: bytes) -> bool:
    return not name.endswith((SIGNATURE, UNFINISHED))


def mode_of(row: "os.DirEntry[bytes]") -> int:
    """The mode of a file in a folder, without asking for it if it is a regular one: 0 says so."""
    try:
        return 0 if row.is_file(follow_symlinks=False) else row.stat(follow_symlinks=False).st_mode
    except OSError:
        # it is gone; who opens it finds out
        return 0


def lost_next_to(folder: bytes, rows: Sequence["os.DirEntry[bytes]"]) -> Iterator[Entry]:
    names = {row.name for row in rows}
    for row in rows:
        document = row.name[:-len(SIGNATURE)]
        if row.name.endswith(SIGNATURE) and document and document not in names:
            yield Entry(os.path.join(folder, document), row.path, is_lost=True)


def trees_of(paths: Sequence[bytes], into: Optional[bytes], recursive: bool) -> List[Tree]:
    """The trees of paths. With `into`, several paths have their signatures in folders of their names below it. Raises BadPaths if a folder is
    among them and `recursive` is not set, and OSError if there is no such file."""
    found: List[Tree] = []
    names: Set[bytes] = set()
    for path in outer(paths):
        if path.endswith(SIGNATURE) and os.path.isfile(path):
            # as the shell gives all names of a folder
            path = path[:-len(SIGNATURE)]
            if path in paths or any(it.top == path for it in found):
                continue
            found.append(Tree(path, into, False))
            continue
        is_folder = stat.S_ISDIR(os.stat(path).st_mode)
        if is_folder and not recursive:
            raise BadPaths(f"{os.fsdecode(path)} is a folder: -r takes all files in it")
        name = os.path.basename(os.path.abspath(path))
        if into is not None and name in names:
            raise BadPaths(f"two of the paths have the name {os.fsdecode(name)}, so --into would mix their signatures")
        names.add(name)
        below = None if into is None else os.path.join(into, name) if is_folder and len(paths) > 1 else into
        found.append(Tree(path, below, is_folder))
    return found


def outer(paths: Sequence[bytes]) -> List[bytes]:
    """The paths that are not below another one of them: no file is worked on twice."""
    real = [os.path.realpath(it) for it in paths]
    return [path for at, path in enumerate(paths) if real[at] not in real[:at] and not any(real[at].startswith(it.rstrip(b"/") + b"/") for it in real)]


def entries_of(trees: Sequence[Tree]) -> Iterator[Entry]:
    for tree in trees:
        yield from tree.entries()
