#!/usr/bin/env python3
"""An independent verifier for ksi signatures, with Python's standard library alone. It is not proved: it shows that docs/FORMATS.md
is enough to write one. Its tests compare it with the proved verifier on mangled files (page/test.py).

    verify.py SIGNATURE FILE PUBLICATIONS

Prints `accepted SECOND`, `refused CHECK` (V1 to V15, as ksi does) or `malformed: ..`, and exits with 0, 1 or 2."""
import functools
import hashlib
import sys

MANY = sys.maxsize

class Failed(Exception):
    """A check fails (V1 to V15), or the bytes are not such a file."""

def need(holds, reason):
    if not holds:
        raise Failed(reason)

def elements(data):
    """Each element's kind, whether a reader may skip it, and its body."""
    while data:
        first, long = data[0], data[0] & 0x80
        header = 4 if long else 2
        need(len(data) >= header, "an element is cut off")
        kind = (first & 0x1F) << 8 | data[1] if long else first & 0x1F
        end = header + int.from_bytes(data[2:4] if long else data[1:2], "big")
        need(len(data) >= end, "an element is cut off")
        yield kind, bool(first & 0x40), data[header:end]
        data = data[end:]

def container(data, known, refused=()):
    """The contents of a container's elements by kind. `known` has for each kind a reader of its body, the least and the most number."""
    found = {kind: [] for kind in known}
    for kind, may_skip, body in elements(data):
        need(kind not in refused, f"an element {kind:#x} is not supported")
        need(kind in known or may_skip, f"an unknown element {kind:#x}")
        if kind in known:
            read, _, most = known[kind]
            found[kind].append(read(body))
            need(len(found[kind]) <= most, f"an element {kind:#x} too many")
    for kind, (_, least, _) in known.items():
        need(len(found[kind]) >= least, f"no element {kind:#x}")
    return found

def number(body, most=2**64 - 1):
    value = int.from_bytes(body, "big")
    need(len(body) <= 8 and value <= most, "a number is too large")
    return value

def imprint(body):
    need(len(body) == 33 and body[0] == 1, "not an imprint of SHA-256")
    return body

def raw(body):
    need(1 <= len(body) <= 4096, "a sibling of no bytes, or of more than 4,096")
    return body

time = functools.partial(number, most=2**63 - 1)
correction = functools.partial(number, most=255)

def sibling(body):
    """A link's sibling, whether it is a legacy identifier or metadata, and the level correction."""
    found = container(body, {1: (correction, 0, 1), 2: (imprint, 0, 1), 3: (raw, 0, 1), 4: (raw, 0, 1)})
    siblings = [(it, kind != 2) for kind in (2, 3, 4) for it in found[kind]]
    need(len(siblings) == 1, "a link has exactly one sibling")
    return *siblings[0], sum(found[1])

def links_in(body, read):
    """The links of a chain, the lowest first: whether the own part is the left one, and the sibling."""
    links = [(kind == 7, *read(it)) for kind, _, it in elements(body) if kind in (7, 8)]
    need(len(links) <= 63, "more than 63 links")
    return links

def chain(body):
    links = {7: (sibling, 0, MANY), 8: (sibling, 0, MANY)}
    found = container(body, {2: (time, 1, 1), 3: (number, 1, MANY), 4: (bytes, 0, 1), 5: (imprint, 1, 1), 6: (number, 1, 1), **links})
    need(found[6] == [1], "another algorithm than SHA-256")
    return found[2][0], found[3], found[5][0], links_in(body, sibling)

def calendar_chain(body):
    found = container(body, {1: (time, 1, 1), 2: (time, 0, 1), 5: (imprint, 1, 1), 7: (imprint, 0, MANY), 8: (imprint, 0, MANY)})
    return found[1][0], (found[2] + found[1])[0], found[5][0], links_in(body, lambda it: (imprint(it),))

def record(body):
    data = container(body, {0x10: (bytes, 1, 1), 9: (bytes, 0, MANY), 10: (bytes, 0, MANY)})[0x10][0]
    found = container(data, {2: (time, 1, 1), 4: (imprint, 1, 1)})
    return found[2][0], found[4][0]

def signature(data):
    all_elements = list(elements(data))
    need(len(all_elements) == 1 and all_elements[0][0] == 0x800, "not one signature element")
    found = container(all_elements[0][2], {0x801: (chain, 1, 16), 0x802: (calendar_chain, 0, 1), 0x803: (record, 0, 1)}, (0x804, 0x805, 0x806))
    return sorted(found[0x801], key=lambda it: -len(it[1])), found[0x802], found[0x803]

def publications(data):
    need(data[:8] == b"KSIPUBLF", "not a publications file")
    header = functools.partial(container, known={1: (number, 1, 1), 2: (time, 1, 1), 3: (bytes, 0, 1)})
    return container(data[8:], {0x701: (header, 1, 1), 0x703: (record, 0, MANY)}, (0x702, 0x704))[0x703]

def join(is_left, own, other, level):
    parts = own + other if is_left else other + own
    return b"\1" + hashlib.sha256(parts + bytes([level])).digest()

def climb(chains):
    """V4, V5: the imprint that the chains lead to."""
    tops, level = [], 0
    for _, _, own, links in chains:
        for is_left, other, _, correction in links:
            level += correction + 1
            need(level <= 255, "V4")
            own = join(is_left, own, other, level)
        tops.append(own)
    need(all(below == it[2] for below, it in zip(tops, chains[1:])), "V5")
    return tops[-1]

def second_of(links, last):
    """V10: the second that the turns of the links, from the top, select from 0 to the publication's."""
    first, leaves = 0, last + 1
    for is_left, _ in reversed(links):
        need(leaves > 1, "V10")
        split = 1 << (leaves - 1).bit_length() - 1
        first, leaves = (first, split) if is_left else (first + split, leaves - split)
    need(leaves == 1, "V10")
    return first

def verify(signature_file, digest, publications_file):
    """Returns the second of an accepted signature. `digest` is the document's SHA-256."""
    published, (chains, calendar, own_record) = publications(publications_file), signature(signature_file)
    need(chains[0][2] == b"\1" + digest, "V1")
    need(all(below[1][:-1] == above[1] for below, above in zip(chains, chains[1:])), "V2")
    shapes = [int("1" + "".join(str(int(it[0])) for it in reversed(links)), 2) for _, _, _, links in chains]
    need(all(it[1][-1] == shape for it, shape in zip(chains, shapes)), "V3")
    root = climb(chains)
    need(all(it[0] == chains[0][0] for it in chains), "V6")
    need(not any(is_raw and not is_left and other[0] == 1 for it in chains for is_left, other, is_raw, _ in it[3]), "V15")
    need(calendar, "V7")
    last, second, top, links = calendar[0]
    need(top == root, "V8")
    need(top != b"\1" + bytes(32), "V9")
    need(second_of(links, last) == second == chains[0][0], "V11")
    for is_left, other in links:
        top = join(is_left, top, other, 0xFF)
    need(all(it == (last, top) for it in own_record), "V12")
    roots = [hash for at, hash in published if at == last]
    need(roots, "V13")
    need(roots[0] == top, "V14")
    return second

def main(words):
    if len(words) != 3:
        return "verify.py SIGNATURE FILE PUBLICATIONS"
    signature_file, document, publications_file = (open(it, "rb").read() for it in words)
    try:
        print("accepted", verify(signature_file, hashlib.sha256(document).digest(), publications_file))
    except Failed as failed:
        is_check = str(failed).startswith("V")
        print("refused" if is_check else "malformed:", failed)
        return 1 if is_check else 2

if __name__ == "__main__":
    sys.exit(main(sys.argv[1:]))
