"""What a store has, in words."""
import time
from typing import Iterator

from . import parts
from .errors import LogError, counted, date
from .lines import Log
from .store import Block, Part, Store


def status(store: Store, lists_blocks: bool) -> Iterator[str]:
    """Yields lines on each part, the oldest first, on its blocks if they are to be listed, and on the lines that are in no block yet."""
    found = store.parts()[::-1]
    blocks = store.blocks()
    lines = sum(it.lines for it in blocks)
    yield f"{store.path}: {counted(len(found), 'part')}, {counted(len(blocks), 'block')}, {counted(lines, 'line')}"
    for part in found:
        yield from status_of(store, part)
        if lists_blocks:
            yield from map(line_of, store.blocks(part.part))


def status_of(store: Store, part: Part) -> Iterator[str]:
    blocks = store.blocks(part.part)
    last = blocks[-1]
    yield f"part {part.part}: lines 1 to {last.end_line}, the last block cut at {date(last.cut)}, seen last as {part.path}"
    for count, words in ((sum(it.second is None for it in blocks), "not signed yet: ksi-log sign"),
                         (sum(it.second is not None and it.publication is None for it in blocks), "signed, not extended to a publication yet: ksi-log extend"),
                         (sum(store.seed(it) is None for it in blocks), "with a seed in another file, or with none")):
        if count:
            yield f"  {counted(count, 'block')} {words}"
    yield from open_block(store, part, last.cut)


def line_of(block: Block) -> str:
    """A line on a block."""
    signed = f"signed in second {date(block.second)}" if block.second is not None else "not signed yet"
    extended = f", extended to {date(block.publication)}" if block.publication is not None else ""
    return f"  lines {block.first_line + 1} to {block.end_line}: cut at {date(block.cut)}, {signed}{extended}"


def open_block(store: Store, part: Part, since: int) -> Iterator[str]:
    """A line on the lines after the last block, if the part's file is still at its place."""
    try:
        with Log(part.path) as log:
            if not parts.is_file_of(part, log.stat):
                return
            place = parts.next_place(store, log, part)
            cuts = list(log.cuts(place.byte))
    except (OSError, LogError):
        return
    lines = sum(len(it.lines) for it in cuts)
    if lines:
        ended = "" if cuts[-1].is_ended else ", the last one without a line feed"
        yield f"  open: {counted(lines, 'line')} after line {place.line}{ended}, open to change for up to {max(0, int(time.time()) - since)} seconds"
