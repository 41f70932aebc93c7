"""Compares a whole log with its store, by the proved programs."""
import concurrent.futures
import itertools
from typing import Iterator, List, Optional, Tuple

from ksi_service.elements import Malformed, parts_of

from . import folders, parts, programs
from .errors import Changed, LogError, counted, date
from .hashing import WORKERS
from .lines import Cut, Log, recorded
from .store import Block, Store


def faults_of(store: Store, log: Log, blocks: List[Block]) -> Iterator[str]:
    """A sentence for each block that is not that of the log's lines, by `ksi_blocks block`."""
    def root_of(row: Tuple[Block, Cut]) -> bytes:
        return programs.root_of(row[1].text, seeds[row[0].block]) if row[1].lines else b""

    seeds = {it.block: store.needed_seed(it) for it in blocks}
    rows = parts.beside(log, blocks)
    with concurrent.futures.ThreadPoolExecutor(WORKERS) as pool:
        while portion := list(itertools.islice(rows, WORKERS)):
            for (block, cut), root in zip(portion, pool.map(root_of, portion)):
                if not parts.has_leaves(store, block):
                    yield f"the leaves of lines {block.first_line + 1} to {block.end_line} in the store are damaged"
                elif root != block.root:
                    yield parts.fault_of(store, block, cut)


def refusals_of(store: Store, blocks: List[Block]) -> Iterator[str]:
    """A sentence for each extended signature that `ksi verify` does not accept."""
    publications = store.publications()
    for block in blocks:
        signature = store.signature(block.block)
        if block.publication is None or signature is None:
            continue
        verdict = programs.verified(signature, block.root, publications or b"")
        if verdict.line != f"accepted {block.second}":
            yield f"the signature of lines {block.first_line + 1} to {block.end_line} is not accepted: {verdict.line}"


def audit(store: Store, path: str, number: Optional[int]) -> Iterator[str]:
    """Yields lines on a log and its part of the store. Raises Changed with all differences if there are some."""
    with Log(path) as log:
        part = parts.chosen(store, log, number)
        blocks = store.blocks(part.part)
        faults = [*faults_of(store, log, blocks), *refusals_of(store, blocks)]
        if faults:
            raise Changed("\n".join(f"{path}: {it} (part {part.part} of {store.path})" for it in faults))
        place = parts.next_place(store, log, part)
        unsigned = sum(len(cut.lines) for cut in log.cuts(place.byte))
    yield f"{path}: lines 1 to {place.line} are those that were signed (part {part.part} of {store.path})"
    yield from stated(blocks)
    if unsigned:
        yield f"{counted(unsigned, 'line')} after line {place.line} not signed yet"


def stated(blocks: List[Block]) -> Iterator[str]:
    """Lines on the signatures of blocks."""
    seconds = sorted(it.second for it in blocks if it.second is not None)
    extended = [it for it in blocks if it.publication is not None]
    if seconds:
        yield f"signed in seconds {date(seconds[0])} to {date(seconds[-1])}" if seconds[0] != seconds[-1] else f"signed in second {date(seconds[0])}"
    if extended:
        yield f"{counted(len(extended), 'signature')} verified by publications, the last one of second {date(max(it.publication or 0 for it in extended))}"
    if len(extended) < len(seconds):
        yield f"{counted(len(seconds) - len(extended), 'signature')} not extended to a publication yet: ksi-log extend"
    if len(seconds) < len(blocks):
        yield f"{counted(len(blocks) - len(seconds), 'block')} not signed yet: ksi-log sign"


def locate(store: Store, path: str, folder: str) -> str:
    """Which line of a log the folder of a proof is of, by `ksi_blocks locate`."""
    one = folders.loaded(folder)
    try:
        root = bytes.fromhex(parts_of(one.signature).imprint)
    except Malformed:
        raise LogError(f"{folder} has no signature") from None
    block = next((it for it in store.blocks() if it.root == root), None)
    if block is None:
        raise LogError(f"{folder} is of no block of {store.path}")
    with Log(path) as log:
        cut = log.take(block.first_byte, block.lines)
    ran = programs.located(cut.text, store.needed_seed(block), recorded(one.line), one.proof)
    words = ran.line.split(" ")
    if ran.status or words[0] != "in":
        raise LogError(f"{folder} is of no line of {path}: {ran.line}")
    return f"{folder} is of line {block.first_line + int(words[1]) + 1} of {path}"
