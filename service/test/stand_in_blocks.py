"""stand_in_blocks.py COMMAND WORD ..: `ksi_blocks` (block, line), `ksi checkline` and `ksi verify`, for tests where they are not built: by hashlib
and examples/verify.py (docs/FORMATS.md, "Masked blocks of lines")."""
import hashlib
import os
import sys

HERE = os.path.dirname(os.path.abspath(__file__))
sys.path[:0] = [os.path.dirname(HERE), os.path.join(os.path.dirname(os.path.dirname(HERE)), "examples")]
import verify  # noqa: E402
from ksi_service.elements import element, number, read  # noqa: E402

ZERO = b"\x01" + bytes(32)


def content_of(path):
    with open(path, "rb") as file:
        return file.read()


def hashed(*parts):
    return b"\x01" + hashlib.sha256(b"".join(parts)).digest()


def leaf(mask, line):
    return hashed(mask, hashed(line), b"\x01")


def block_of(log, seed_file):
    """The masks and the leaves of a log's lines."""
    seed, masks, leaves = bytes.fromhex(content_of(seed_file).decode().strip()), [], []
    for line in content_of(log).removesuffix(b"\n").split(b"\n"):
        masks.append(hashed(leaves[-1] if leaves else ZERO, seed))
        leaves.append(leaf(masks[-1], line))
    return masks, leaves


def tree_of(items, level):
    if len(items) == 1:
        return items[0], level, [[]]
    half = 1 << (len(items) - 1).bit_length() - 1
    (left, low, lefts), (right, high, rights) = tree_of(items[:half], level), tree_of(items[half:], level)
    top = max(low, high) + 1
    return hashed(left, right, bytes([top])), top, [[*it, (True, right, top - low - 1)] for it in lefts] + [[*it, (False, left, top - high - 1)] for it in rights]


def block(log, seed):
    leaves = block_of(log, seed)[1]
    return f"block {len(leaves)} {tree_of(leaves, 1)[0][1:].hex()}"


def line(log, seed, k, out):
    masks, leaves = block_of(log, seed)
    links = tree_of(leaves, 1)[2][int(k)]
    rows = [element(0x07 if is_left else 0x08, *([number(0x01, correction)] if correction else []), element(0x02, other)) for is_left, other, correction in links]
    with open(out, "wb") as file:
        file.write(b"KSILINE1" + element(0x01, masks[int(k)]) + b"".join(rows))
    return f"line {k}"


def checkline(signature, publications, line_file, proof):
    rows = list(read(content_of(proof), 8))
    node, level = leaf(rows[0].body, content_of(line_file)), 1
    for it in rows[1:]:
        parts = {part.kind: part.body for part in read(it.body)}
        level += int.from_bytes(parts.get(0x01, b""), "big") + 1
        node = hashed(*((node, parts[0x02]) if it.kind == 0x07 else (parts[0x02], node)), bytes([level]))
    return verdict(signature, node[1:], publications, "line ")


def verdict(signature, digest, publications, begun=""):
    try:
        return f"{begun}accepted {verify.verify(content_of(signature), digest, content_of(publications))}"
    except verify.Failed as failed:
        return f"refused {failed}"


def verified(signature, digest, publications):
    return verdict(signature, bytes.fromhex(digest), publications)


if __name__ == "__main__":
    said = {"block": block, "line": line, "checkline": checkline, "verify": verified}[sys.argv[1]](*sys.argv[2:])
    print(said)
    sys.exit(said.startswith("refused"))
