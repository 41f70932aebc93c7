"""Signs logs: new lines are cut into blocks, each is kept with its seed and leaves, and then its root is signed."""
import collections
import concurrent.futures
import glob
import os
import shlex
import time
from typing import Callable, Deque, Iterator, List, NamedTuple

from . import hashing, parts, programs, seeds
from .doors import Doors
from .errors import LogError, counted, date
from .lines import Cut, Log
from .store import ROTATED, Made, Store, name_of

QUIET_SECONDS = 60.0
"""The last line of a rotated log is signed without its line feed if nothing was written to it for this long."""
AHEAD = 2
"""How many blocks are in memory for each one that is hashed."""
LONG_BLOCK = 10_000
"""Blocks of this many lines are hashed in processes of their own."""
UNREAD = ".zst"
"""The ending of compressed logs that Python cannot read."""


class Signed(NamedTuple):
    """The new lines of one log."""

    first_line: int
    lines: int
    is_unended: bool
    """Whether the last line has no line feed, and was left for later."""


def made_of(cut: Cut, first_line: int, hashes: Callable[[bytes, bytes], List[bytes]]) -> Made:
    """A block with a new seed. The proved program and hashlib have to agree on its root."""
    seed, text = seeds.new(), cut.text
    own, content = hashes(text, seed)
    root = programs.root_of(text, seed)
    if root != own:
        raise LogError(f"ksi_blocks returns another root of a block than its leaves have: {root.hex()}")
    return Made(first_line, len(cut.lines), cut.first_byte, cut.size, cut.is_ended, root, parts.digest_of(seed, text), seed, content)


def blocks_of(log: Log, place: parts.Place, closes: bool) -> Iterator["concurrent.futures.Future[Made]"]:
    """The blocks of a log from a place on, in their order, made by several threads."""
    waiting: "Deque[concurrent.futures.Future[Made]]" = collections.deque()
    with hashing.Hashers() as hashers, concurrent.futures.ThreadPoolExecutor(hashing.WORKERS) as pool:
        line = place.line
        for cut in log.cuts(place.byte):
            if not cut.is_ended and not closes:
                # the last line is still being written
                cut = log.take(cut.first_byte, len(cut.lines) - 1)
            if not cut.lines:
                break
            # a short block is not worth a process
            waiting.append(pool.submit(made_of, cut, line, hashers.hash if len(cut.lines) >= LONG_BLOCK else hashing.hashed))
            line += len(cut.lines)
            if len(waiting) > AHEAD * hashing.WORKERS:
                yield waiting.popleft()
        yield from waiting


def cut_log(store: Store, path: str, closes: bool, is_new: bool) -> Signed:
    """Keeps the new lines of a log in blocks. `closes` says that nothing more is written to it."""
    with Log(path) as log:
        part = parts.continued(store, log, is_new)
        place = parts.next_place(store, log, part) if part else parts.Place(0, 0)
        number, lines, end = part.part if part else None, 0, place.byte
        for future in blocks_of(log, place, closes):
            made = future.result()
            number = store.add(number, os.path.abspath(path), log.stat, made)
            lines, end = lines + made.lines, made.first_byte + made.size
        left = log.take(end, 1)
        if number is not None:
            store.seen(number, os.path.abspath(path), log.stat, not left.lines)
        return Signed(place.line, lines, bool(left.lines) and not left.is_ended)


def sign_waiting(store: Store, doors: Doors) -> str:
    """Has all blocks signed that have no signature yet, and returns their number and second in words. Raises LogError if some have none still."""
    waiting = store.blocks(condition="second IS NULL")
    answers = doors.sign([it.root for it in waiting])
    store.sign([(waiting[place].block, it.content, it.second, None) for place, it in answers.signatures.items()])
    if answers.reasons:
        reason = next(iter(answers.reasons.values()))
        raise LogError(f"{counted(len(answers.reasons), 'block')} of {store.path} without a signature: {reason}. Nothing is lost: sign again, and a later second is proved")
    seconds = sorted({it.second for it in answers.signatures.values()})
    last = f" to {date(seconds[-1])}" if seconds[1:] else ""
    return f"{counted(len(waiting), 'block')}, second {date(seconds[0])}{last}" if seconds else ""


def report(path: str, signed: Signed) -> str:
    """The line that the command prints for a log."""
    if signed.lines:
        text = f"{path}: lines {signed.first_line + 1} to {signed.first_line + signed.lines}"
    elif signed.first_line:
        text = f"{path}: nothing new after line {signed.first_line}"
    else:
        text = f"{path}: no line yet"
    return text + ("; its last line has no line feed yet and is left for later (--closed signs it)" if signed.is_unended else "")


def logs_of(words: List[str]) -> List[str]:
    """The logs that the words of a logrotate script name: paths, or with `sharedscripts` patterns in one word, perhaps in quotes. A pattern matches
    rotated files too."""
    found: List[str] = []
    for word in words:
        for pattern in [word] if is_log(word) else split(word):
            found += [pattern] if is_log(pattern) or not glob.has_magic(pattern) else matching(pattern)
    return list(dict.fromkeys(found))


def split(word: str) -> List[str]:
    """The patterns of a word."""
    try:
        return shlex.split(word)
    except ValueError:
        # a quote that is not closed is a part of a name
        return [word.strip()]


def is_log(path: str) -> bool:
    """Whether there is a log, or a rotated file of it."""
    return os.path.exists(path) or os.path.isdir(os.path.dirname(path) or ".") and bool(rotated_of(path))


def matching(pattern: str) -> List[str]:
    rotated = [it for ending in (".*", "-*") for it in glob.glob(pattern + ending) if ROTATED.search(it)]
    return sorted({*glob.glob(pattern), *(os.path.join(os.path.dirname(it), name_of(it)) for it in rotated)})


def rotated_of(path: str) -> List[str]:
    """The rotated files of a log that can be read, the oldest first."""
    folder, name = os.path.split(path)
    with os.scandir(folder or ".") as entries:
        found = [it for it in entries if it.is_file() and it.name.startswith(name) and not it.name.endswith(UNREAD) and ROTATED.fullmatch(it.name[len(name):])]
    return [it.path if folder else it.name for it in sorted(found, key=lambda it: it.stat().st_mtime_ns)]


def is_known(store: Store, path: str) -> bool:
    """Whether all of a file is signed, by its size and the time of its last change."""
    stat = os.stat(path)
    return any(it.is_whole and parts.is_file_of(it, stat) and (it.size, it.changed) == (stat.st_size, stat.st_mtime_ns) for it in store.parts())


def is_quiet(path: str) -> bool:
    return time.time() - os.stat(path).st_mtime > QUIET_SECONDS


def sign(store: Store, doors: Doors, path: str, *, rotated: bool = False, closed: bool = False, is_new: bool = False) -> Iterator[str]:
    """Signs a log, and its rotated files before it if `rotated` says so. Yields lines to be printed. If one file fails, the others are signed
    before LogError is raised."""
    reasons: List[str] = []
    for it in [*(rotated_of(path) if rotated else []), path]:
        is_rotated = it != path
        try:
            if not (is_rotated and is_known(store, it)):
                yield report(it, cut_log(store, it, is_quiet(it) if is_rotated else closed, is_new))
        except FileNotFoundError as reason:
            # a rotation may leave no log until its program writes again
            reasons += [] if rotated else [f"{it}: {reason.strerror}"]
        except LogError as reason:
            reasons.append(str(reason))
    try:
        when = sign_waiting(store, doors)
        if when:
            yield f"signed {when}: {store.path}"
    except LogError as reason:
        reasons.append(str(reason))
    if reasons:
        raise LogError("\n".join(reasons))
