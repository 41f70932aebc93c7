"""stand_in_ksi.py verify SIGNATURE HASH PUBLICATIONS: a `ksi` for tests where the proved one is not built. It verifies signatures of a hash that
is alone in its second, by hashlib: then the second's root is the hash itself."""
import os
import sys

from calendar_tree import ZERO, join

sys.path.insert(0, os.path.dirname(os.path.dirname(os.path.abspath(__file__))))
from ksi_service.elements import number_of, parts_of, published_in, read  # noqa: E402


def verdict(signature, imprint, publications):
    parts = parts_of(signature)
    calendar = next((it for it in read(next(read(signature)).body) if it.kind == 0x802), None)
    if calendar is None:
        return "refused V7"
    rows = [(it.kind, it.body) for it in read(calendar.body)]
    last, root = number_of(dict(rows)[0x01]), dict(rows)[0x05]
    if parts.imprint != imprint or root != b"\x01" + bytes.fromhex(imprint) or root == ZERO:
        return "refused V1"
    second, count, node = 0, last + 1, root
    sides = [kind == 0x07 for kind, _ in rows if kind in (0x07, 0x08)]
    for kind, beside in rows:
        if kind in (0x07, 0x08):
            node = join(node, beside) if kind == 0x07 else join(beside, node)
    for is_left in reversed(sides):
        left = 1 << (count - 1).bit_length() - 1
        second, count = (second, left) if is_left else (second + left, count - left)
    if (count, second) != (1, parts.second):
        return "refused V10"
    found = next((root for published, root in published_in(publications) if published == last), None)
    if found is None:
        return f"refused V13 {last}"
    return f"accepted {second}" if node[1:].hex() == found else "refused V14"


def content_of(path):
    with open(path, "rb") as file:
        return file.read()


if __name__ == "__main__":
    if sys.argv[1] != "verify":
        sys.exit(2)
    line = verdict(content_of(sys.argv[2]), sys.argv[3], content_of(sys.argv[4]))
    print(line)
    sys.exit(not line.startswith("accepted"))
