"""stand_in_lines.py NAME WORD ..: a `ksi` or `ksi_blocks` for tests where the proved ones are not built. It is written from docs/FORMATS.md
("Masked blocks of lines") by recursion, and verifies by examples/verify.py.

    ksi verify SIGNATURE HASH PUBLICATIONS          ksi_blocks block LOG SEEDFILE
    ksi checkline SIGNATURE PUBLICATIONS LINE PROOF ksi_blocks line LOG SEEDFILE K OUT
                                                    ksi_blocks locate LOG SEEDFILE LINE PROOF"""
import hashlib
import importlib.util
import os
import sys

TOP = os.path.dirname(os.path.dirname(os.path.dirname(os.path.abspath(__file__))))
ZERO = b"\1" + bytes(32)


def module_at(path):
    spec = importlib.util.spec_from_file_location("module", os.path.join(TOP, path))
    module = importlib.util.module_from_spec(spec)
    sys.dont_write_bytecode = True
    spec.loader.exec_module(module)
    return module


def imprint(*parts):
    return b"\1" + hashlib.sha256(b"".join(parts)).digest()


def lines_of(log):
    lines = log.split(b"\n")
    return lines[:-1] if lines[-1] == b"" else lines


def masks_and_leaves(lines, seed):
    masks, leaves = [], [ZERO]
    for line in lines:
        masks.append(imprint(leaves[-1], seed))
        leaves.append(imprint(masks[-1], imprint(line), b"\1"))
    return masks, leaves[1:]


def split(count):
    return 1 << (count - 1).bit_length() - 1


def node(leaves):
    """The root of a tree over leaves, and its level."""
    if len(leaves) == 1:
        return leaves[0], 1
    (left, one), (right, two) = node(leaves[:split(len(leaves))]), node(leaves[split(len(leaves)):])
    level = max(one, two) + 1
    return imprint(left, right, bytes([level])), level


def links(leaves, k):
    """The links from leaf k: whether it is on the left, the sibling, and the correction of the level. And the level at the end."""
    if len(leaves) == 1:
        return [], 1
    cut = split(len(leaves))
    is_left = k < cut
    below, level = links(leaves[:cut] if is_left else leaves[cut:], k if is_left else k - cut)
    sibling, other = node(leaves[cut:] if is_left else leaves[:cut])
    top = max(level, other) + 1
    return [*below, (is_left, sibling, top - level - 1)], top


def proof_file(mask, found):
    text = b"KSILINE1" + bytes([1, 33]) + mask
    for is_left, sibling, correction in found:
        body = (bytes([1, 1, correction]) if correction else b"") + bytes([2, 33]) + sibling
        text += bytes([7 if is_left else 8, len(body)]) + body
    return text


def root_by(line, proof):
    """The imprint that a line and its proof lead to."""
    own, level, at = imprint(proof[10:43], imprint(line), b"\1"), 1, 43
    while at < len(proof):
        kind, body = proof[at], proof[at + 2:at + 2 + proof[at + 1]]
        correction = body[2] if body[0] == 1 else 0
        level += correction + 1
        parts = (own, body[-33:]) if kind == 7 else (body[-33:], own)
        own, at = imprint(*parts, bytes([level])), at + 2 + proof[at + 1]
    return own


def verdict(signature, digest, publications):
    verifier = module_at("examples/verify.py")
    try:
        return f"accepted {verifier.verify(signature, digest, publications)}", 0
    except verifier.Failed as failed:
        chain = verifier.signature(signature)[0][0]
        last = verifier.signature(signature)[1]
        more = {"V1": f" {chain[2][1:].hex()} {digest.hex()}", "V13": f" {last[0][0]}" if last else ""}.get(str(failed), "")
        return f"refused {failed}{more}", 1


def content_of(path):
    with open(path, "rb") as file:
        return file.read()


def block(log, seed, *words):
    lines = lines_of(log)
    if not lines:
        return "refused B3", 1
    if len(lines) > 65536:
        return "refused B5", 1
    long = [(k, len(line)) for k, line in enumerate(lines) if len(line) > 8000]
    if long:
        return f"refused B6 {long[0][0]} {long[0][1]}", 1
    masks, leaves = masks_and_leaves(lines, seed)
    root = node(leaves)[0]
    return over(words, lines, masks, leaves, root) if words else (f"block {len(lines)} {root[1:].hex()}", 0)


def over(words, lines, masks, leaves, root):
    """The command `line` or `locate` over a block."""
    if words[0].isdigit():
        k = int(words[0])
        if k >= len(lines):
            return f"refused B4 {k} {len(lines)}", 1
        with open(words[1], "wb") as file:
            file.write(proof_file(masks[k], links(leaves, k)[0]))
        return f"line {k}", 0
    line, proof = content_of(words[0]), content_of(words[1])
    if root_by(line, proof) != root:
        return f"refused B2 {root_by(line, proof)[1:].hex()} {root[1:].hex()}", 1
    return f"in {next(k for k in range(len(lines)) if lines[k] == line and proof[10:43] == masks[k])}", 0


def run(name, command, *words):
    if name == "ksi_blocks" and command in ("block", "line", "locate"):
        return block(content_of(words[0]), bytes.fromhex(content_of(words[1]).decode().strip()), *words[2:])
    if (name, command) == ("ksi", "verify"):
        return verdict(content_of(words[0]), bytes.fromhex(words[1]), content_of(words[2]))
    if (name, command) == ("ksi", "checkline"):
        signature, publications, line, proof = map(content_of, words)
        said, status = verdict(signature, root_by(line, proof)[1:], publications)
        return f"line {said}" if status == 0 else said, status
    return "words refused", 2


if __name__ == "__main__":
    text, ended = run(*sys.argv[1:])
    print(text)
    sys.exit(ended)
