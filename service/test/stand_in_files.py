"""The files of facts of stand_in.py: a line each, or records, in the form of the proved programs' files (marks.py)."""
import fcntl
import hashlib
import os
import sys

KINDS = {"sealed", "held", "promised", "voted", "tried", "closed", "answered"}
"""The first words of facts."""
MAGICS = {"c": b"KSINODE1", "a": b"KSIROUN1"}
SIZES = {"c": 18, "a": 20}


def fail(word):
    print(f"failed {word}", flush=True)
    sys.exit(1)


def locked(path):
    file = open(path, "a+b", buffering=0)
    try:
        fcntl.flock(file, fcntl.LOCK_EX | fcntl.LOCK_NB)
    except OSError:
        fail("file")
    file.seek(0)
    return file


class Lines:
    """A file with a line for each fact."""

    def __init__(self, file, content):
        self.file = file
        rows = content.splitlines(keepends=True)
        if rows and not rows[-1].endswith(b"\n"):
            # a full disk left half of it
            file.truncate(len(content) - len(rows[-1]))
            del rows[-1]
        self.facts = [row.decode("ascii", "replace").split() for row in rows]
        if any(fact[0] not in KINDS for fact in self.facts):
            fail("file")

    def add(self, fact):
        self.file.write((" ".join(fact) + "\n").encode())


class Records:
    """A file of records, in the form of a proved node's. Each has a commit byte, the length of its content, and a fact."""

    def __init__(self, file, content, header):
        self.file = file
        self.facts = []
        self.size = len(header)
        if not content:
            content = header + b"\0"
            file.write(content)
        if content[:len(header)] != header:
            fail("file")
        while content[self.size:self.size + 1] == b"\1":
            self.take(content)

    def take(self, content):
        end = self.size + 5 + int.from_bytes(content[self.size + 1:self.size + 5], "big")
        fact = content[self.size + 5:end].decode("ascii", "replace").split()
        if len(content) <= end or not fact or fact[0] not in KINDS:
            fail("file")
        self.facts.append(fact)
        self.size = end

    def add(self, fact):
        content = " ".join(fact).encode()
        record = b"\1" + len(content).to_bytes(4, "big") + content
        os.pwrite(self.file.fileno(), record + b"\0", self.size)
        self.size += len(record)


def header(plan, name):
    """The bytes before the first commit byte, as many as a proved node's file has."""
    with open(plan, "rb") as file:
        digest = hashlib.sha256(file.read()).digest()
    return (MAGICS[name[0]] + name.encode() + digest)[:SIZES[name[0]]]


def opened(plan, name, path, has_records):
    """A file of facts. An empty one gets the form that is asked for; another keeps its form."""
    file = locked(path)
    content = file.read()
    # an append would go to the end, whatever the place
    fcntl.fcntl(file, fcntl.F_SETFL, fcntl.fcntl(file, fcntl.F_GETFL) & ~os.O_APPEND)
    if content[:8] in MAGICS.values() or has_records and not content:
        return Records(file, content, header(plan, name))
    file.seek(0, os.SEEK_END)
    return Lines(file, content)
