"""Which part of a store a file is. A rotation changes names, so only the text decides: that of the first line, then that of all blocks."""
import hashlib
import os
from typing import Iterator, List, NamedTuple, Optional, Tuple

from .errors import Changed, LogError, counted
from .leaves import differing, is_line, root_of
from .lines import MARK, Cut, Log
from .store import Block, Part, Store


class Place(NamedTuple):
    """Where the next block of a part begins."""

    line: int
    byte: int


def digest_of(seed: bytes, text: bytes) -> bytes:
    """The digest by which the text of a block is compared again."""
    digest = hashlib.sha256(seed)
    digest.update(text)
    return digest.digest()


def beginning_like(store: Store, log: Log) -> List[Part]:
    """The parts whose first line is that of a log, the newest first. Parts whose seeds are not here cannot be compared."""
    first = log.take(0, 1).lines
    return [it for it in store.parts() if first and begins_with(store, it, first[0])]


def begins_with(store: Store, part: Part, line: bytes) -> bool:
    block = store.block_with(part.part, 0)
    seed = block and store.seed(block)
    return bool(block and seed and is_line(store.first_leaf(block.block), seed, 0, line))


def beside(log: Log, blocks: List[Block]) -> Iterator[Tuple[Block, Cut]]:
    """The blocks of a part, each with as many lines of a log, in order: a change of length in one block is none in the next."""
    place = 0
    for block in blocks:
        cut = log.take(place, block.lines)
        yield block, cut
        place += cut.size


def first_fault(store: Store, log: Log, part: Part) -> Optional[str]:
    """A sentence on the first signed line that the log lacks, or None if it has all of the part."""
    place = 0
    for block in store.blocks(part.part):
        seed, content = store.needed_seed(block), log.content(place, block.size)
        # a line with the mark has another one in its place
        if MARK not in content and digest_of(seed, content) == block.digest:
            place += block.size
            continue
        # line by line: a line is replaced, or the last one has no line feed, or lines were changed
        cut = log.take(place, block.lines)
        if len(cut.lines) != block.lines or digest_of(seed, cut.text) != block.digest:
            return fault_of(store, block, cut)
        place += cut.size
    return None


def has_leaves(store: Store, block: Block) -> bool:
    """Whether the leaves of a block lead to its root."""
    return root_of(store.leaves(block.block)) == block.root


def fault_of(store: Store, block: Block, cut: Cut) -> str:
    """How a block differs from the lines at its place, which are not those that were signed."""
    places = differing(store.leaves(block.block), store.needed_seed(block), cut.lines)
    if places:
        more = f", and {counted(len(places) - 1, 'more line')} of lines {block.first_line + 1} to {block.end_line}" if places[1:] else ""
        return f"line {block.first_line + places[0] + 1} differs from the one that was signed{more}"
    return f"the log ends after line {block.first_line + len(cut.lines)}, and lines up to {block.end_line} were signed"


def next_place(store: Store, log: Log, part: Part) -> Place:
    """Where a part goes on in its log."""
    last = store.last_block(part.part)
    # the last line may have got its line feed since
    return Place(last.end_line, last.end_byte + (not last.is_ended and log.has_feed_at(last.end_byte)))


def continued(store: Store, log: Log, is_new: bool) -> Optional[Part]:
    """The part that a log continues, or None if it is a new one. Raises Changed if a signed line of it was changed; with `is_new` such a log
    is taken for another one."""
    alike = beginning_like(store, log)
    faults = []
    for part in alike:
        fault = first_fault(store, log, part)
        if fault is None:
            return part
        faults.append((part, fault))
    own = next((it for it in store.parts() if is_file_of(it, log.stat)), None)
    if own and own not in alike and log.stat.st_size >= own.size:
        see_seeds(store, own)
        faults.insert(0, (own, "line 1 differs from the one that was signed"))
    faults = [it for it in faults if not is_elsewhere(it[0], log)]
    if is_new or not faults:
        return None
    part, fault = faults[0]
    raise Changed(f"{log.path}: {fault} (part {part.part} of {store.path}). Nothing of it is signed now. If it is another log that begins in the same way: --new")


def see_seeds(store: Store, part: Part) -> None:
    """Raises LogError if the seed of a part's first block is not here."""
    block = store.block_with(part.part, 0)
    if block:
        store.needed_seed(block)


def is_file_of(part: Part, stat: os.stat_result) -> bool:
    return (part.device, part.inode) == (stat.st_dev, stat.st_ino)


def is_elsewhere(part: Part, log: Log) -> bool:
    """Whether the file of a part has another name now, in the same folder as a log: then the log is a new one."""
    if is_file_of(part, log.stat):
        return False
    with os.scandir(os.path.dirname(log.path) or ".") as entries:
        return any(it.inode() == part.inode and is_file_of(part, it.stat()) for it in entries if it.is_file())


def chosen(store: Store, log: Log, number: Optional[int]) -> Part:
    """The part of a log that is to be compared: the one of this number, or the newest that has all its lines, or else one that begins like it or is
    of the same file. Raises LogError if there is none."""
    parts = store.parts()
    if number is not None:
        found = next((it for it in parts if it.part == number), None)
        if found is None:
            raise LogError(f"{store.path} has no part {number}")
        return found
    if not log.take(0, 1).lines:
        raise LogError(f"{log.path} is empty: --part names the part that it should be")
    alike = beginning_like(store, log)
    same = next((it for it in alike if first_fault(store, log, it) is None), None)
    own = [it for it in parts if is_file_of(it, log.stat)]
    found = next((it for it in [same, *alike, *own, *(parts if len(parts) == 1 else [])] if it), None)
    if found is None:
        raise LogError(f"{log.path} begins like no part of {store.path}: --part names one")
    return found
