"""stand_in_roots.py root|extend|extend-all|front ..: a `ksi_roots` for tests where the proved one is not built, by hashlib.

It reads a folder of calendar files (docs/FORMATS.md, "Calendar files") and refuses files that are missing, cut, of another plan, or that do
not follow each other."""
import os
import struct
import sys

from calendar_tree import Tree

sys.path.insert(0, os.path.dirname(os.path.dirname(os.path.abspath(__file__))))
from ksi_service.elements import Malformed, element, extended, number, parts_of  # noqa: E402

HEAD = struct.Struct(">8s33sQQI")


def refuse(line):
    print(line)
    sys.exit(1)


def tree_of(folder, last):
    """The calendar of the files in a folder, at least to a second."""
    names = sorted((it for it in os.listdir(folder) if it.isdigit()), key=int)
    start, roots, plan = None, [], None
    for name in names:
        with open(os.path.join(folder, name), "rb") as file:
            content = file.read()
        magic, digest, first, given, count = HEAD.unpack_from(content)
        start, plan = (first, digest) if start is None else (start, plan)
        begin = max(first, 4096 * given)
        if magic != b"KSIROOT1" or (first, digest) != (start, plan) or given != int(name) or len(content) != 61 + 33 * count or begin != start + len(roots):
            refuse(f"refused R {name}")
        roots += [content[at:at + 33] for at in range(61, len(content), 33)]
    if start is None or not start <= last < start + len(roots):
        refuse(f"refused R second {last}")
    return Tree(start, roots)


def write(path, content):
    with open(path, "wb") as file:
        file.write(content)


class Refused(Exception):
    """Why a signature is not extended."""


def extension_of(tree, path, last):
    """The second of a signature, and its extension."""
    with open(path, "rb") as file:
        try:
            parts = parts_of(file.read())
        except Malformed:
            raise Refused("malformed 2") from None
    if not tree.start <= parts.second <= last:
        raise Refused(f"refused L second {parts.second}")
    links = [(side, beside[1:].hex()) for side, beside in tree.chain(parts.second, last)]
    return parts.second, extended(parts, last, tree.roots[parts.second - tree.start][1:].hex(), tree.root(last)[1:].hex(), links)


def extend(tree, path, last, out):
    """Saves a signature that is extended, and returns its line."""
    second, content = extension_of(tree, path, last)
    write(out, content)
    return f"extended {second} {last}"


def extend_all(tree, names, last, out):
    """Prints a line for each name, and returns the status."""
    done = 0
    for number_of_name, name in enumerate(names, 1):
        try:
            line = extend(tree, name, last, os.path.join(out, os.path.basename(name)))
            done += 1
        except Refused as why:
            line = str(why)
        print(number_of_name, line)
    print(f"extended {done} of {len(names)}")
    return 0 if done == len(names) else 1


def lines_of(path):
    with open(path, encoding="utf-8") as file:
        return file.read().splitlines()


def front_of(tree, older, newer):
    return b"KSIFRNT1" + number(0x01, older) + number(0x02, newer) + b"".join(element(0x03, it) for it in tree.front(older, newer))


def main(name, folder, *words):
    if name == "root":
        print(f"root {tree_of(folder, int(words[0])).root(int(words[0]))[1:].hex()}")
    elif name == "front":
        write(words[2], front_of(tree_of(folder, int(words[1])), int(words[0]), int(words[1])))
        print("front")
    elif name == "extend":
        try:
            print(extend(tree_of(folder, int(words[1])), words[0], int(words[1]), words[2]))
        except Refused as why:
            refuse(why)
    elif name == "extend-all":
        sys.exit(extend_all(tree_of(folder, int(words[1])), lines_of(words[0]), int(words[1]), words[2]))
    else:
        sys.exit(2)


if __name__ == "__main__":
    main(*sys.argv[1:])
