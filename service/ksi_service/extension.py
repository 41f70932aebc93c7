"""Extends signatures: a signature gets the calendar chain to a publication from a core's answers. The proved libksi, or if it is not found
`ksi verify`, has to accept the result before it is returned, so nothing depends on how it is put together here."""
import collections
import functools
import os
import tempfile
from typing import List, NamedTuple, Optional, Tuple

from . import libksi
from .elements import Malformed, extended, parts_of
from .errors import ServiceError
from .plan import Plan
from .proved import Refused, Stopped, ksi
from .verifying import ByLibrary

MOST_CHAINS = 256
"""Of how many seconds the chains are kept."""


class NotExtended(ServiceError):
    """Why a signature is not extended, with a code of answers.py."""

    def __init__(self, code: str, reason: str) -> None:
        super().__init__(reason)
        self.code = code


def wanted(signature, last):
    """The parts of a signature that may be extended to second `last`."""
    try:
        parts = parts_of(signature)
    except Malformed as fault:
        raise NotExtended("malformed-signature", str(fault)) from None
    if parts.second > last:
        raise NotExtended("not-yet-published", f"second {parts.second} is after the last publication, of second {last}")
    return parts


class Chain(NamedTuple):
    """The calendar chain of a second to a publication."""

    root: str
    """The root of the second, in hex."""
    top: str
    """The root of the publication."""
    links: List[Tuple[str, str]]


class Chains:
    """The chains of the last seconds that were asked for. Signatures of one second share theirs, and no chain ever changes."""

    def __init__(self) -> None:
        self.of: "collections.OrderedDict[Tuple[int, int], Chain]" = collections.OrderedDict()

    def get(self, second: int, last: int) -> Optional[Chain]:
        return self.of.get((second, last))

    def add(self, second: int, last: int, chain: Chain) -> None:
        self.of[second, last] = chain
        while len(self.of) > MOST_CHAINS:
            self.of.popitem(last=False)


def asking(parts, last):
    """Yields questions to a core, takes its answers, and returns a function that makes the extension, or None if the core lacks a second."""
    chain = yield from asking_chain(parts.second, last)
    return None if chain is None else making(parts, last, chain)


def asking_chain(second, last):
    """Yields questions to a core, takes its answers, and returns a Chain, or None if the core lacks a second."""
    held = yield f"held {second} 1"
    if held[:1] == ["refused second"]:
        raise NotExtended("other-service", f"second {second} is not one of this service")
    roots = roots_in(held)
    if not roots:
        return None
    chain = yield f"chain {second} {last}"
    if not chain or not chain[0].startswith("published "):
        return None
    return Chain(roots[0][1], chain[0].split(" ")[1], [tuple(row.split(" ")) for row in chain[1:]])


def making(parts, last, chain):
    """A function that makes the extension of a signature by a chain."""
    if parts.root not in (None, chain.root):
        raise NotExtended("other-calendar", f"the cores hold another root for second {parts.second}")
    return lambda: put_together(parts, last, chain.root, chain.top, chain.links)


def roots_in(block):
    """The seconds and roots that a core reports as held."""
    return [(int(row.split(" ")[1]), row.split(" ")[2]) for row in block if row.startswith("root ")]


def put_together(parts, last, root, top, links):
    try:
        return extended(parts, last, root, top, links)
    except Malformed as fault:
        raise NotExtended("malformed-signature", str(fault)) from None


def accepted(make, parts, publications):
    """Makes the extension and returns it if it is accepted against a publications file."""
    content = make()
    library = libksi.library()
    line = line_by_process(content, parts, publications) if library is None else line_by(library, content, parts, publications)
    if line != f"accepted {parts.second}":
        raise NotExtended("not-accepted", line if line.startswith(("refused", "malformed")) else f"ksi verify says {line}")
    return content


def line_by(library, content, parts, publications):
    """The verdict of libksi, which is no process of its own: many signatures are extended at once."""
    return ByLibrary(library, bytes_of(publications, os.stat(publications).st_mtime_ns)).verify(content, bytes.fromhex(parts.imprint)).line


@functools.lru_cache(maxsize=4)
def bytes_of(path, _):
    """A file's bytes since a time."""
    with open(path, "rb") as file:
        return file.read()


def line_by_process(content, parts, publications):
    with tempfile.NamedTemporaryFile(prefix="ksi-extended-") as file:
        file.write(content)
        file.flush()
        try:
            return ksi("verify", file.name, parts.imprint, os.path.abspath(publications))
        except Refused as refused:
            raise NotExtended("not-accepted", str(refused)) from None


def extend_by(core, signature, publications):
    """Extends by a core of a service that is stopped, to the last publication. Returns the signature's parts and the extension."""
    last = publications.last()
    parts = wanted(signature, last)
    work, answer = asking(parts, last), None
    try:
        while True:
            answer = core.ask(work.send(answer))
    except StopIteration as end:
        if end.value is None:
            raise NotExtended("seconds-missing", f"{core.name} lacks a second up to {last}") from None
        return parts, accepted(end.value, parts, publications.path)


def extend_stopped(folder, signature, publications):
    """Extends by a core's file of a service that is stopped: the first one that can be read and holds all seconds."""
    plan, reasons = Plan.read(os.path.join(folder, "plan")), []
    for number in range(plan.cores):
        try:
            with Stopped(folder, f"c{number}") as core:
                return extend_by(core, signature, publications)[1]
        except (NotExtended, Refused) as reason:
            reasons.append(reason)
    raise next((it for it in reasons if isinstance(it, NotExtended)), reasons[0])
