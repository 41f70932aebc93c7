"""The files of `ksi`, as far as the host makes them: elements, publications files, mirrors, journals of one second, and a signature's
extension (docs/FORMATS.md). Nothing here decides whether a signature is good: `ksi verify` does."""
from types import MappingProxyType
from typing import Dict, Iterator, List, Mapping, NamedTuple, Optional, Tuple

MAGIC_PUBLICATIONS, MAGIC_MIRROR = b"KSIPUBLF", b"KSIMIRR1"
MAGICS_JOURNAL = (b"KSIJRNL1", b"KSIJRNL2")
MOST_BODY, MOST_NUMBER = 0xFFFF, 8
"""The most bytes of an element's body, and of one that is a number."""
FORWARD = 0x60
"""The flags non-critical and forward: an unknown element with both is kept by an extension."""


class Malformed(Exception):
    """Bytes are malformed."""


class Element(NamedTuple):
    kind: int
    flags: int
    body: bytes
    spelled: bytes


def read(content: bytes, at=0) -> Iterator[Element]:
    """The elements in bytes, from a place on."""
    while at < len(content):
        long = content[at] & 0x80
        if len(content) - at < (4 if long else 2):
            raise Malformed(f"an element is cut off at {at}")
        flags = content[at] & 0x60
        if long:
            kind, size, head = (content[at] & 0x1F) << 8 | content[at + 1], content[at + 2] << 8 | content[at + 3], 4
        else:
            kind, size, head = content[at] & 0x1F, content[at + 1], 2
        end = at + head + size
        if end > len(content):
            raise Malformed(f"an element is cut off at {at}")
        yield Element(kind, flags, content[at + head:end], content[at:end])
        at = end


def number_of(body: bytes) -> int:
    if len(body) > MOST_NUMBER:
        raise Malformed(f"a number has more than {MOST_NUMBER} bytes")
    return int.from_bytes(body, "big")


def element(kind: int, *parts: bytes) -> bytes:
    body = b"".join(parts)
    if len(body) > MOST_BODY:
        raise Malformed(f"an element would have {len(body)} bytes")
    if kind > 0x1F or len(body) > 0xFF:
        return bytes([0x80 | kind >> 8, kind & 0xFF, len(body) >> 8, len(body) & 0xFF]) + body
    return bytes([kind, len(body)]) + body


def number(kind: int, value: int) -> bytes:
    return element(kind, value.to_bytes((value.bit_length() + 7) // 8, "big"))


def imprint(kind: int, text: str) -> bytes:
    """An imprint by its 64 hex digits."""
    return element(kind, b"\x01" + bytes.fromhex(text))


def publications_file(published: List[Tuple[int, str]], notes: Mapping[int, str] = MappingProxyType({})) -> bytes:
    """The publications file of seconds and their roots in hex, created at the last one's time. Notes, by second, are references."""
    last = published[-1][0] if published else 0
    references = {second: element(0x09, it.encode()) for second, it in notes.items()}
    records = [element(0x703, element(0x10, number(0x02, second), imprint(0x04, root)), references.get(second, b"")) for second, root in published]
    return MAGIC_PUBLICATIONS + element(0x701, number(0x01, 1), number(0x02, last)) + b"".join(records)


def notes_in(content: bytes) -> Dict[int, str]:
    """The references of a publications file, by second."""
    found = {}
    for it in (it for it in read(content, len(MAGIC_PUBLICATIONS)) if it.kind == 0x703):
        parts = list(read(it.body))
        seconds = [number_of(part.body) for data in parts if data.kind == 0x10 for part in read(data.body) if part.kind == 0x02]
        found.update({second: part.body.decode(errors="replace") for part in parts if part.kind == 0x09 for second in seconds})
    return found


def published_in(content: bytes) -> List[Tuple[int, str]]:
    """The seconds of a publications file and their roots in hex."""
    if not content.startswith(MAGIC_PUBLICATIONS):
        raise Malformed("no publications file")
    told = []
    for it in read(content, len(MAGIC_PUBLICATIONS)):
        if it.kind == 0x703:
            parts = {part.kind: part.body for data in read(it.body) if data.kind == 0x10 for part in read(data.body)}
            if not {0x02, 0x04} <= parts.keys():
                raise Malformed("a publication without its parts")
            told.append((number_of(parts[0x02]), parts[0x04][1:].hex()))
    return told


class Parts(NamedTuple):
    """The parts of a signature that the host reads."""
    kept: List[bytes]
    """The bytes that an extension keeps."""
    second: int
    imprint: str
    """The hash that was signed, in hex."""
    root: Optional[str]
    """The root that its calendar chain begins with, in hex."""


def parts_of(signature: bytes) -> Parts:
    """The parts of a signature. Raises Malformed if they are missing. `ksi` reads a signature exactly: this is no check of it."""
    tops = list(read(signature))
    if len(tops) != 1 or tops[0].kind != 0x800:
        raise Malformed("no signature")
    inner = list(read(tops[0].body))
    chains = [{part.kind: part.body for part in read(it.body)} | {-1: sum(part.kind == 0x03 for part in read(it.body))} for it in inner if it.kind == 0x801]
    calendar = [{part.kind: part.body for part in read(it.body)} for it in inner if it.kind == 0x802]
    if not chains or any(it.keys().isdisjoint({0x02}) or 0x05 not in it for it in chains) or any(0x05 not in it for it in calendar):
        raise Malformed("a signature without its parts")
    known = set(range(0x801, 0x807))
    kept = [it.spelled for it in inner if it.kind == 0x801 or it.kind not in known and it.flags == FORWARD]
    lowest = max(chains, key=lambda it: it[-1])
    return Parts(kept, number_of(lowest[0x02]), lowest[0x05][1:].hex(), calendar[0][0x05][1:].hex() if calendar else None)


def extended(parts: Parts, last: int, root: str, top: str, links: List[Tuple[str, str]]) -> bytes:
    """A signature with the calendar chain from its second's root to the root `top` of the calendar to second `last`. A link is
    `left` or `right`, the side of the chain, and the sibling's imprint in hex; the lowest link comes first."""
    chain = [number(0x01, last), number(0x02, parts.second), imprint(0x05, root)]
    chain += [imprint(0x07 if side == "left" else 0x08, beside) for side, beside in links]
    record = element(0x803, element(0x10, number(0x02, last), imprint(0x04, top)))
    return element(0x800, *parts.kept, element(0x802, *chain), record)


def item(text: str, level: int, name: Optional[str] = None) -> bytes:
    """An item of a second, with its imprint in hex."""
    body = b"\x01" + bytes.fromhex(text) + bytes([level])
    return element(0x07, body + name.encode()) if name else element(0x03, body)


def items_file(second: int, root: str, items: List[Tuple[str, int, Optional[str]]]) -> bytes:
    """The journal of one second, with its root and the imprints of its items in hex. It is of version 2 if an item has a name."""
    head = element(0x02, number(0x01, second), imprint(0x02, root), number(0x03, len(items)))
    magic = MAGICS_JOURNAL[any(name for _, _, name in items)]
    return b"".join([magic, number(0x01, second), head, *(item(*it) for it in items), element(0x06)])


def mirror_file(start: int, core: int, rows: List[List[str]]) -> bytes:
    """The mirror of the seconds that a core holds and sealed, from its rows `root T HEX` and `item T HEX LEVEL [NAME]`."""
    roots, lists = [], {}
    for kind, second, text, *rest in rows:
        if kind == "root":
            roots.append(element(0x02, number(0x01, int(second)), imprint(0x02, text)))
        else:
            lists.setdefault(int(second), []).append(item(text, int(rest[0]), *rest[1:]))
    told = [MAGIC_MIRROR, number(0x01, start), *roots]
    for second, items in lists.items():
        told += [element(0x09, number(0x01, second), number(0x02, core), number(0x03, len(items))), *items]
    return b"".join([*told, element(0x06)])


class Head(NamedTuple):
    imprint: str
    """The hash that was signed, in hex."""
    second: int
    calendar_to: Optional[int]
    """The last second of its calendar chain, or None if it has no chain."""
    is_extended: bool
    """Whether it has a publication record."""


def head_of(signature: bytes) -> Head:
    """The statements of a signature, of which none is checked here. Raises Malformed if they are missing."""
    parts = parts_of(signature)
    inner = list(read(next(read(signature)).body))
    chains = [{part.kind: part.body for part in read(it.body)} for it in inner if it.kind == 0x802]
    if chains and 0x01 not in chains[0]:
        raise Malformed("a calendar chain without its last second")
    return Head(parts.imprint, parts.second, number_of(chains[0][0x01]) if chains else None, any(it.kind == 0x803 for it in inner))
