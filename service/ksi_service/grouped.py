"""Entries of the record for many requests at once. Each is the same as one entry for each request, in this order, and shorter:

    ["asked", NODE, SECOND, [NUMBER, HASH, ..]]   as `given` for each line `request NUMBER SECOND HASH`; HASH may be `HASH NAME`
    ["took", NODE, COUNT]                         as `said` with the block `answer number NUMBER`, for the next COUNT requests
    ["handed", TAIL, [STEP, HEAD, ..]]            as `signed` for each STEP, with the signature HEAD + TAIL

So checks read the same steps and signatures as before. Signatures of one round end alike, with the chains above the round."""
from typing import Any, Iterator, List, Optional, Tuple

MOST_SIGNATURES = 1000
"""The most signatures of one entry, so that a lookup reads little."""


def request_of(number: Any, second: Any, imprint: str, name: Optional[str] = None) -> str:
    return f"request {number} {second} {imprint}{f' {name}' if name else ''}"


def answer_to(line: str) -> List[str]:
    """The block of an aggregator that takes a request."""
    return [f"answer number {line.split(' ', 2)[1]}"]


def asked(node: str, second: int, lines: List[str]) -> list:
    """The entry of requests of one second that a node was given."""
    words = [it.split(" ", 3) for it in lines]
    return ["asked", node, second, [row for it in words for row in (int(it[1]), it[3])]]


def pairs(rows: List[Any]) -> Iterator[Tuple[Any, str]]:
    """The elements of a list, two and two."""
    if len(rows) % 2:
        raise ValueError("a list of pairs has half a pair")
    return zip(rows[::2], rows[1::2])


def lines_of(second: int, rows: List[Any]) -> Iterator[str]:
    """The lines of an entry `asked`."""
    return (request_of(number, second, imprint) for number, imprint in pairs(rows))


def handed(rows: List[Tuple[int, str]]) -> list:
    """The entry of signatures by their steps."""
    tail = tail_of([text for _, text in rows])
    cut = len(tail)
    return ["handed", tail, [it for step, text in rows for it in (step, text[:len(text) - cut])]]


def tail_of(texts: List[str]) -> str:
    """The longest end that all texts have."""
    first, last = min(it[::-1] for it in texts), max(it[::-1] for it in texts)
    size = next((at for at, (one, other) in enumerate(zip(first, last)) if one != other), min(len(first), len(last)))
    return first[:size][::-1]


def signatures_of(tail: str, rows: List[Any]) -> Iterator[Tuple[int, str]]:
    """The steps of an entry `handed`, each with its signature."""
    return ((step, head + tail) for step, head in pairs(rows))
