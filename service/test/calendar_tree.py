"""The calendar tree by hashlib, for stand-ins and tests: its root, the chain from a second to it, and the consistency proof (front)."""
import functools
import hashlib

ZERO = b"\x01" + bytes(32)


def join(left, right):
    return b"\x01" + hashlib.sha256(left + right + b"\xff").digest()


def split(count):
    """The greatest power of two below a number."""
    return 1 << (count - 1).bit_length() - 1


@functools.lru_cache(None)
def zeros(height):
    """The tree of 2^height seconds before the plan."""
    return ZERO if height == 0 else join(zeros(height - 1), zeros(height - 1))


class Tree:
    """The calendar of a plan's first second and the imprints from it on."""

    def __init__(self, start, roots):
        self.start, self.roots = start, roots
        self.known = {}

    def node(self, first, count):
        """The tree of some seconds."""
        if first + count <= self.start and count & count - 1 == 0:
            return zeros(count.bit_length() - 1)
        if count == 1:
            return self.roots[first - self.start]
        if (first, count) not in self.known:
            left = split(count)
            self.known[first, count] = join(self.node(first, left), self.node(first + left, count - left))
        return self.known[first, count]

    def root(self, last):
        """The root of the seconds from 0 to one."""
        return self.node(0, last + 1)

    def chain(self, second, last):
        """The links from a second to the root, the lowest first: `left` or `right`, the side of the second, and the other part."""
        links, first, count = [], 0, last + 1
        while count > 1:
            left = split(count)
            if second < first + left:
                links.append(("left", self.node(first + left, count - left)))
                count = left
            else:
                links.append(("right", self.node(first, left)))
                first, count = first + left, count - left
        return links[::-1]

    def front(self, older, newer):
        """The consistency proof of the calendar to `older` in that to `newer` (RFC 9162, 2.1.4)."""
        def parts(first, size, count, is_given):
            if size == count:
                return [] if is_given else [self.node(first, count)]
            left = split(count)
            if size <= left:
                return parts(first, size, left, is_given) + [self.node(first + left, count - left)]
            return parts(first + left, size - left, count - left, False) + [self.node(first, left)]
        return parts(0, older + 1, newer + 1, True)
