"""The files of a record: a new one each hour, each but the last compressed. One JSON list a line (record.py)."""
import contextlib
import gzip
import hashlib
import itertools
import json
import os
import re
import shutil
import zlib
from typing import Iterator, List, Optional, Tuple

from . import files, packed
from .errors import NeedsOperator


class Broken(NeedsOperator):
    """A record's file is damaged."""


def names(folder) -> List[str]:
    """The files of a record in order. If one is there in both forms, the one that is not compressed counts."""
    try:
        found = {it[:8]: it for it in sorted(os.listdir(folder), reverse=True) if re.fullmatch(r"[0-9]{8}(\.gz)?", it)}
        return [os.path.join(folder, found[it]) for it in sorted(found)]
    except FileNotFoundError:
        return []


def all_names(folder) -> List[str]:
    """The files of a record in order, from the first one on. If one were missing, the next would be taken for another run's."""
    found = names(folder)
    for number, path in enumerate(found, 1):
        if number_of(path) != number:
            raise not_there(folder, number)
    return found


def not_there(folder, number) -> Broken:
    """The reason why a record is not read on."""
    last = discarded(folder)
    if number <= last:
        return Broken(f"the files of {folder} up to {last:08} were removed, since the service ran with --discard: the run is not checked from its start, and their items are lost")
    return Broken(f"{os.path.join(folder, f'{number:08}')} is not there: bring back the files of the record that were moved")


def discard(folder, kept) -> None:
    """Removes all closed files but this many. Which ones is noted before."""
    gone = names(folder)[:-1][:-kept]
    if gone:
        files.write(os.path.join(folder, "discarded"), f"{number_of(gone[-1])}\n".encode())
    for path in gone:
        files.remove(path)


def discarded(folder) -> int:
    """The number of the last file that was discarded, or 0."""
    return int(files.content_of(os.path.join(folder, "discarded")) or 0)


def lines_of(path) -> Iterator[bytes]:
    """The lines of a file, compressed or not. One that is compressed just now has another name then."""
    if not path.endswith(".gz") and not os.path.exists(path) and os.path.exists(f"{path}.gz"):
        path = f"{path}.gz"
    with (gzip.open if path.endswith(".gz") else open)(path, "rb") as lines:
        try:
            yield from lines
        except (EOFError, zlib.error, gzip.BadGzipFile) as fault:
            raise Broken(f"{path} is damaged: {fault}") from None


def entries_of(path, is_last) -> Iterator[Tuple[list, int]]:
    """The entries of a file, each with how many bytes its line has. A crash may have left of the last file's end, which was not synced
    and had no effect, a line that is cut off or has holes: there the entries end."""
    for line in lines_of(path):
        entry = entry_in(line)
        if entry is None:
            if not is_last:
                raise Broken(f"{path} has a line that is no entry")
            return
        yield entry, len(line)


def entry_in(line) -> Optional[list]:
    """The entry that a line is: a list that begins with a word."""
    try:
        entry = json.loads(line) if line.endswith(b"\n") else None
    except ValueError:
        return None
    return entry if isinstance(entry, list) and entry and isinstance(entry[0], str) else None


def line_at(folder, number, at) -> Optional[bytes]:
    """The line that begins at a place of a file, by the place that it had before it was compressed. None if there is no line.
    Raises FileNotFoundError if the file is not there."""
    path = os.path.join(folder, f"{number:08}")
    with contextlib.suppress(FileNotFoundError):
        return packed.line_of_file(path, at)
    try:
        if packed.has_sizes(f"{path}.gz"):
            with open(f"{path}.gz", "rb") as file:
                return packed.line_of_members(file, at)
        with contextlib.closing(lines_of(f"{path}.gz")) as lines:
            return packed.line_of_stream(lines, at)
    except zlib.error as fault:
        raise Broken(f"{path}.gz is damaged: {fault}") from None


def digest_over(path):
    """The running digest over a file that is not closed."""
    running = hashlib.sha256()
    for line in lines_of(path):
        running.update(line)
    return running


def ending_of(path) -> Tuple[str, Optional[str]]:
    """The digest of a file's lines up to its last one, and the digest that its last line states, if it is an entry `ends`."""
    running, last = hashlib.sha256(), b""
    with contextlib.closing(lines_of(path)) as lines:
        for line in lines:
            running.update(last)
            last = line
    entry = entry_in(last)
    return running.hexdigest(), entry[1] if entry and entry[0] == "ends" and len(entry) == 2 else None


def see_end(path, digest) -> None:
    """Raises Broken unless a closed file ends with this digest, and has it."""
    found, stated = ending_of(path)
    if not found == stated == digest:
        raise Broken(f"{path} is not the file that was closed: its lines have the digest {found[:16]}, it ends with {(stated or 'none')[:16]}, and the next file has {digest[:16]}")


def see_digests(folder) -> int:
    """Raises Broken if a closed file is not the one whose digest the next file has. Returns how many have one: older versions wrote none."""
    found, count = all_names(folder), 0
    for path, following in zip(found, found[1:]):
        digest = digest_before(following)
        if digest is not None:
            see_end(path, digest)
            count += 1
        elif ending_of(path)[1] is not None:
            raise Broken(f"{following} does not have the digest with which {path} ends")
    return count


def state_before(path) -> dict:
    """The state with which a file begins."""
    with contextlib.closing(lines_of(path)) as lines:
        entry = entry_in(next(lines, b""))
    return entry[1] if entry and entry[0] == "begins" else {}


def digest_before(path) -> Optional[str]:
    """The digest of the file before, by the first line of a file."""
    return state_before(path).get("digest")


def second_before(path) -> int:
    """The last second of a command to seal before a file."""
    return state_before(path).get("second", 0)


def number_of(path) -> int:
    """The number of a file of a record."""
    return int(os.path.basename(path)[:8])


def free(name) -> str:
    """The name, or if a file has it already, the first free one with a number after it."""
    numbered = (f"{name}.{number}" for number in itertools.count(1))
    return next(it for it in itertools.chain([name], numbered) if not os.path.exists(it))


def cut_off(path, size):
    """Cuts a file off after this many bytes, and keeps the rest in another file. After a crash the rest had no effect. If the disk damaged
    a line in the middle, the rest has everything after it."""
    made = f"{path}.torn.new"
    with open(path, "r+b") as file:
        file.seek(size)
        if not file.peek(1):
            return
        try:
            with open(made, "wb") as rest:
                shutil.copyfileobj(file, rest)
            files.keep(made, free(f"{path}.torn"))
        finally:
            files.remove(made)
        file.truncate(size)


def pack(path, is_over=lambda: False) -> bool:
    """Compresses a file, and removes it once the other is on the disk. It is left as it is if `is_over` returns true before, or the disk is full.
    Returns whether it is compressed."""
    made = f"{path}.gz.new"
    try:
        with open(path, "rb") as whole, open(made, "wb") as squeezed:
            while piece := whole.read(packed.PIECE):
                if is_over():
                    return False
                squeezed.write(packed.member_of(piece))
        files.keep(made, f"{path}.gz")
        files.remove(path)
        return True
    except OSError:
        return False
    finally:
        files.remove(made)


def pack_all(folder) -> int:
    """Compresses all files of a record but the last. Returns how many were not yet."""
    return sum(pack(path) for path in names(folder)[:-1] if not path.endswith(".gz"))
