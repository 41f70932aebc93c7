"""Extends the signatures of stores to publications, so that proofs need no service any more."""
import os
from typing import Iterator, List

from .doors import WAITS, Doors
from .errors import LogError, counted
from .proving import keep
from .store import SUFFIX, Store, opened

PORTION = 100
"""How many signatures are extended before they are kept."""


def stores_in(folder: str) -> List[str]:
    """The stores of a folder and of those below. Raises LogError if there are none."""
    found = sorted(os.path.join(at, it) for at, _, names in os.walk(folder) for it in names if it.endswith(SUFFIX))
    if not found:
        raise LogError(f"{folder} has no store: --store names the folder")
    return found


def extend(store: Store, doors: Doors) -> str:
    """Extends all signatures that are not extended yet, and returns a sentence. Raises LogError if a signature is refused, after all others were
    extended."""
    blocks = store.blocks(condition="second IS NOT NULL AND publication IS NULL")
    done, waiting, reasons = 0, 0, []
    for at in range(0, len(blocks), PORTION):
        portion = blocks[at:at + PORTION]
        signatures = [store.signature(it.block) or b"" for it in portion]
        answers = doors.extend(signatures)
        if answers.signatures:
            keep(store, [(portion[place], it.content) for place, it in answers.signatures.items()], doors.publications())
        done += len(answers.signatures)
        waiting += sum(it.code in WAITS for it in answers.reasons.values())
        reasons += [it for it in answers.reasons.values() if it.code not in WAITS]
    if reasons:
        raise LogError(f"{counted(len(reasons), 'signature')} of {store.path} not extended, and {done} extended: {reasons[0]}")
    unsigned = len(store.blocks(condition="second IS NULL"))
    rest = [f"{waiting} that no publication covers yet"] if waiting else []
    rest += [f"{counted(unsigned, 'block')} not signed yet"] if unsigned else []
    return f"{store.path}: {counted(done, 'signature')} extended" + "".join(f", {it}" for it in rest)


def extend_all(paths: List[str], doors: Doors) -> Iterator[str]:
    """Extends the signatures of several stores. Raises LogError at the end if some failed."""
    reasons = []
    for path in paths:
        try:
            with opened(path) as store:
                yield extend(store, doors)
        except LogError as reason:
            reasons.append(str(reason))
    if reasons:
        raise LogError("\n".join(reasons))
