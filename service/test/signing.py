"""A door that signs without nodes: each request is a second with a tree of its hashes, in a calendar of calendar_tree.py. And a module for
libksi: the library of crates/ksi_c if it is built, otherwise a stand-in."""
import asyncio
import atexit
import hashlib
import os
import shutil
import socket
import subprocess
import sys
import tempfile

import doored
import stands
from calendar_tree import Tree
from ksi_service import houses, libksi
from ksi_service.access import Access
from ksi_service.answers import Refusal
from ksi_service.door import Door
from ksi_service.elements import element, extended, imprint, number, parts_of, publications_file

TOP = os.path.dirname(os.path.dirname(stands.HERE))
START = 1_700_000_000
ARCHIVE = os.path.join(TOP, "crates", "ksi_c", "out", "libksi_c.a")


def environment():
    """The variables by which a process finds the library or the stand-in."""
    if not os.path.exists(ARCHIVE) or not shutil.which("cc"):
        return {"PYTHONPATH": os.path.join(stands.HERE, "stand_in_python")}
    room = tempfile.mkdtemp(prefix="ksi-library-")
    atexit.register(shutil.rmtree, room, ignore_errors=True)
    shared = os.path.join(room, "libksi.so.1")
    subprocess.run(["cc", "-shared", "-o", shared, "-Wl,--whole-archive", ARCHIVE, "-Wl,--no-whole-archive"], check=True)
    return {"PYTHONPATH": os.path.join(TOP, "lang", "python"), "KSI_LIBRARY": shared}


ENVIRONMENT = environment()
os.environ.update(ENVIRONMENT)
sys.path.append(ENVIRONMENT["PYTHONPATH"])
libksi.library.cache_clear()


def free_ports(count):
    """Ports of the loopback on which nothing listens."""
    sockets = [socket.socket() for _ in range(count)]
    for it in sockets:
        it.bind(("127.0.0.1", 0))
    found = [it.getsockname()[1] for it in sockets]
    for it in sockets:
        it.close()
    return found


def joined(left, right, level):
    return b"\x01" + hashlib.sha256(left + right + bytes([level])).digest()


def tree_of(items, level=0):
    """The root and its level of a list of imprints of a level, and for each the links up to it: whether it is the left part, the other part,
    and the correction of the level."""
    if len(items) == 1:
        return items[0], level, [[]]
    half = 1 << (len(items) - 1).bit_length() - 1
    (left, low, left_links), (right, high, right_links) = tree_of(items[:half], level), tree_of(items[half:], level)
    level = max(low, high) + 1
    links = [[*it, (True, right, level - low - 1)] for it in left_links] + [[*it, (False, left, level - high - 1)] for it in right_links]
    return joined(left, right, level), level, links


def chain_of(second, digest, links):
    shape = int("1" + "".join(str(int(it[0])) for it in reversed(links)), 2)
    rows = [element(0x07 if is_left else 0x08, *([number(0x01, correction)] if correction else []), element(0x02, other)) for is_left, other, correction in links]
    return element(0x801, number(0x02, second), number(0x03, shape), imprint(0x05, digest), number(0x06, 1), *rows)


class Signing(doored.House):
    """Signs each request in a second of its own."""

    def __init__(self):
        self.roots = []
        self.listed = []
        self.requests = []
        self.pause = 0.0
        self.refuses = set()
        self.lies = {}
        self.trees = {}

    @property
    def last(self):
        return START + len(self.roots) - 1

    async def sign(self, imprints, is_gone, name=None):
        self.requests.append(len(imprints))
        if self.pause:
            await asyncio.sleep(self.pause)
        root, _, all_links = tree_of([b"\x01" + bytes.fromhex(it) for it in imprints])
        self.roots.append(root)
        second = self.last
        calendar = self.tree_to(second).chain(second, second)
        rows = [imprint(0x07 if side == "left" else 0x08, other[1:].hex()) for side, other in calendar]
        tail = element(0x802, number(0x01, second), number(0x02, second), imprint(0x05, root[1:].hex()), *rows)
        found = []
        for it, links in zip(imprints, all_links):
            if it in self.refuses:
                found.append(Refusal("not-signed", "no second took the request", Retry_After="1"))
            else:
                found.append(houses.Signed(it, self.lies.get(it) or element(0x800, chain_of(second, it, links), tail), second))
        return found

    def tree_to(self, last):
        if last not in self.trees:
            self.trees[last] = Tree(START, self.roots[:last - START + 1])
        return self.trees[last]

    def publish(self):
        """Publishes the calendar to a second after the last one that signed."""
        self.roots.append(b"\x01" + bytes(32))
        self.listed.append((self.last, self.tree_to(self.last).root(self.last)[1:].hex()))
        return publications_file(self.listed)

    @property
    def published(self):
        return publications_file(self.listed) if self.listed else None

    async def extend(self, contents, to):
        if not self.listed:
            raise Refusal("nothing-published", "nothing was published yet")
        last = self.listed[-1][0] if to is None else to
        return [self.extended(it, last) for it in contents]

    def extended(self, content, last):
        parts = parts_of(content)
        if parts.second > last:
            return Refusal("not-yet-published", f"second {parts.second} is after {last}")
        tree = self.tree_to(last)
        links = [(side, other[1:].hex()) for side, other in tree.chain(parts.second, last)]
        made = extended(parts, last, self.roots[parts.second - START][1:].hex(), tree.root(last)[1:].hex(), links)
        return houses.Extended(parts.imprint, self.lies.get(parts.imprint) or made, parts.second, last)


class Signed(doored.Doored):
    """A test with a door that signs, and a temporary folder."""

    def setUp(self):
        super().setUp()
        self.room = tempfile.mkdtemp(prefix="ksi-test-")
        self.addCleanup(shutil.rmtree, self.room)
        self.tree = os.path.join(self.room, "tree")
        os.mkdir(self.tree)

    async def open(self, most):
        self.house = Signing()
        door = Door(self.house, most, access=Access(host_names=["x"]))
        await door.begin("127.0.0.1", 0)
        return door

    @property
    def url(self):
        return "%s:%d" % self.address

    def at(self, *names):
        return os.path.join(self.room, *names)

    def file(self, name, content=b"I owe you one."):
        path = os.path.join(os.fsencode(self.tree), os.fsencode(name))
        os.makedirs(os.path.dirname(path), exist_ok=True)
        with open(path, "wb") as file:
            file.write(content)
        return path

    def run_command(self, *words, status=0):
        """Runs the command as a process: standard output and standard error."""
        ran = subprocess.run([sys.executable, stands.COMMAND, *words], capture_output=True, check=False, cwd=self.room, env={**os.environ, **ENVIRONMENT, "KSI_SERVICE": self.at("none")})
        told = (ran.stdout + ran.stderr).decode("utf-8", "backslashreplace")
        self.assertEqual(ran.returncode, status, told[:5000])
        return told
