"""Proves a line: the files of its folder, from the store and the line alone."""
import os
from typing import List, NamedTuple, Optional, Tuple

from . import folders, leaves, parts, programs
from .doors import WAITS, Doors
from .errors import LogError, counted, date
from .lines import Log, recorded
from .store import Block, Part, Store

MOST_LISTED = 10


class Found(NamedTuple):
    """A line of a block."""

    part: Part
    block: Block
    place: int
    """Its place in the block, from 0."""
    line: bytes
    """The line as it is in the log, without its line feed."""


def by_number(store: Store, log: Log, number: int, part: Optional[int]) -> Found:
    """The line of a log with a number, counted from 1. Raises LogError if it is not signed, or not the line that was signed."""
    alike = parts.beginning_like(store, log) if part is None else [parts.chosen(store, log, part)]
    if not alike:
        raise LogError(f"{log.path} begins like no part of {store.path}. If lines are missing: --line FILE has the text of the line; --part names the part")
    for it in alike:
        block = store.block_with(it.part, number - 1)
        line = block and line_at(store, log, block, number - 1 - block.first_line)
        if block and line is not None:
            return Found(it, block, number - 1 - block.first_line, line)
    most = max(store.last_block(it.part).end_line for it in alike)
    raise LogError(f"line {number} of {log.path} is not the one that was signed: `ksi-log audit` has more" if number <= most else f"{log.path} is signed up to line {most}, and not at line {number}")


def line_at(store: Store, log: Log, block: Block, place: int) -> Optional[bytes]:
    """The line of a log at a place of a block, or None if it is not the line of the block."""
    before = log.take(block.first_byte, place)
    if len(before.lines) < place:
        return None
    line = log.line(before.first_byte + before.size)
    if leaves.is_line(store.leaves(block.block), store.needed_seed(block), place, recorded(line)):
        return line
    if not parts.has_leaves(store, block):
        raise LogError(f"the leaves of lines {block.first_line + 1} to {block.end_line} in {store.path} are damaged: only a copy of the store has the proof")
    return None


def containing(log: Log, text: bytes) -> int:
    """The number of the only line that contains a text. Raises LogError if there is none, or more than one."""
    found: List[int] = []
    first = 1
    for cut in log.cuts(0):
        # as they are in the log, since a long line is replaced in a block
        content = log.content(cut.first_byte, cut.size)
        if text in content:
            found += [first + place for place, line in enumerate(content.split(b"\n")) if text in line]
        first += len(cut.lines)
    if len(found) == 1:
        return found[0]
    more = f" and {len(found) - MOST_LISTED} more" if len(found) > MOST_LISTED else ""
    raise LogError(f"{counted(len(found), 'line')} of {log.path} contain this text" + (f": {', '.join(map(str, found[:MOST_LISTED]))}{more}. Choose one with -n" if found else ""))


def by_text(store: Store, text: bytes, number: Optional[int], part: Optional[int]) -> Found:
    """The line with a text, which may end with a line feed that is not the line's. It needs no log, only the leaves and the seed."""
    for line in dict.fromkeys([text, text[:-1] if text.endswith(b"\n") else text]):
        for it in store.parts():
            for block in store.blocks(it.part) if part in (None, it.part) else []:
                place = place_in(store, block, number, recorded(line))
                if place is not None:
                    return Found(it, block, place, line)
    raise LogError(f"no line of {store.path} has this text" + (f" and number {number}" if number else ""))


def place_in(store: Store, block: Block, number: Optional[int], line: bytes) -> Optional[int]:
    """The place of a line in a block, which may be that of the number only, or None if it is not in it."""
    first, end = (0, block.lines) if number is None else (number - 1 - block.first_line, number - block.first_line)
    if first < 0 or end > block.lines:
        return None
    content, seed = store.leaves(block.block), store.needed_seed(block)
    return next((place for place in range(first, end) if leaves.is_line(content, seed, place, line)), None)


def extended(store: Store, doors: Doors, block: Block) -> Tuple[bytes, bytes]:
    """The signature of a block, extended to a publication, and the publications. They are kept in the store."""
    signature, publications = store.signature(block.block), store.publications()
    if signature is None:
        raise LogError(f"the block of lines {block.first_line + 1} to {block.end_line} is not signed yet: ksi-log sign")
    if block.publication is not None and publications is not None:
        return signature, publications
    answers = doors.extend([signature])
    if answers.reasons:
        reason = answers.reasons[0]
        if reason.code in WAITS:
            raise LogError(f"no publication covers second {date(block.second or 0)} of its signature yet: try again after the next one")
        raise LogError(f"its signature is not extended: {reason}")
    publications = doors.publications()
    keep(store, [(block, answers.signatures[0].content)], publications)
    return answers.signatures[0].content, publications


def keep(store: Store, rows: List[Tuple[Block, bytes]], publications: bytes) -> None:
    """Keeps extended signatures that the proved `ksi` accepts for the roots of their blocks. Raises LogError for one that it does not accept."""
    accepted = []
    for block, signature in rows:
        verdict = programs.verified(signature, block.root, publications)
        rests = folders.rests_on(signature, publications)
        if verdict.line != f"accepted {block.second}" or rests is None:
            raise LogError(f"the extended signature of lines {block.first_line + 1} to {block.end_line} of part {block.part} is not accepted: {verdict.line}")
        accepted.append((block.block, signature, block.second or 0, rests.second))
    store.keep_publications(publications)
    store.sign(accepted)


def prove(store: Store, doors: Doors, path: str, out: str, found: Found) -> str:
    """Writes the folder of a line, once `ksi checkline` accepts its files, and returns a sentence."""
    if os.path.lexists(out):
        raise LogError(f"{out} is there already, and is not replaced")
    signature, publications = extended(store, doors, found.block)
    proof = leaves.proof_of(store.leaves(found.block.block), store.needed_seed(found.block), found.place)
    verdict = programs.checked_line(signature, publications, recorded(found.line), proof)
    if verdict.line != f"line accepted {found.block.second}":
        raise LogError(f"ksi checkline does not accept the proof: {verdict.line}")
    number = found.block.first_line + found.place + 1
    about = {"log": os.path.basename(path), "part": found.part.part, "line": number, "lines_of_block": [found.block.first_line + 1, found.block.end_line],
             "signed": found.block.second, "root_of_block": found.block.root.hex()}
    folders.write(out, folders.Folder(found.line, proof, signature, publications, about))
    return f"proved line {number} of {path}: {out}, second {date(found.block.second or 0)}"
