"""Flips bits in files of nodes that are stopped, and puts the files back later. No node may go on with a flipped bit before the end of its facts."""
import fcntl
import os
import shutil

SHARE = 0.1
"""How often a bit of a node's file is flipped before the node starts."""
FLIPPED, BELIEVED = "bits flipped in files of stopped nodes", "flipped bits that were believed"
"""The notes on a flipped bit, and on a node that went on with one: no run may have that."""


def copy_of(folder, name):
    """Where a node's file is kept while it has a flipped bit: not on the disk of the folder, which may be full."""
    return f"{os.path.abspath(folder)}.{name}.whole"


def flip(path, copy, end, dice):
    """Flips a bit of the first bytes of a file, up to this place, after a copy was made."""
    shutil.copyfile(path, f"{copy}.new")
    os.replace(f"{copy}.new", copy)
    with open(path, "r+b") as file:
        at = dice.randrange(end)
        file.seek(at)
        byte = file.read(1)[0]
        file.seek(at)
        file.write(bytes([byte ^ 1 << dice.randrange(8)]))


def put_back(path, copy):
    """Puts a file back, in place: another name could be that of a file that is being forgotten."""
    with open(copy, "rb") as whole, open(path, "r+b") as file:
        shutil.copyfileobj(whole, file)
        file.truncate()
    os.remove(copy)


def put_all_back(folder):
    """Puts back all files of a folder over which no service runs."""
    for name in sorted(os.listdir(folder)):
        copy = copy_of(folder, name[:-len(".facts")])
        if name.endswith(".facts") and os.path.exists(copy):
            put_back(os.path.join(folder, name), copy)


def is_free(path):
    """Whether no process has a node's file."""
    with open(path, "r+b") as file:
        try:
            fcntl.flock(file, fcntl.LOCK_EX | fcntl.LOCK_NB)
        except OSError:
            return False
        return True


class Flips:
    """The flipped bits of a service's files. At most one node has one at a time: the others go on without it."""

    def __init__(self, host, notes, dice):
        self.host = host
        self.notes = notes
        self.dice = dice
        self.calm = False
        """Whether no more bits are flipped."""
        for node in host.nodes.values():
            node.on_ready = self.noting(node, node.on_ready)

    def copy(self, node):
        return copy_of(os.path.dirname(node.path), node.name)

    def noting(self, node, on_ready):
        """Notes if a node is ready although its file has a flipped bit."""
        def work(name):
            if os.path.exists(self.copy(node)):
                self.notes.add(BELIEVED)
            on_ready(name)
        return work

    def before_start(self, node, state):
        """Puts a node's file back if it has a flipped bit, or flips one now and then. Returns whether it has one."""
        if not os.path.exists(node.path) or not is_free(node.path):
            return False
        if os.path.exists(self.copy(node)):
            put_back(node.path, self.copy(node))
            return False
        if self.may_flip(node, state) and self.dice.random() < SHARE:
            flip(node.path, self.copy(node), state.mark.place, self.dice)
            self.notes.add(FLIPPED)
            return True
        return False

    def may_flip(self, node, state):
        """Whether the record has a mark of the file, and the others can go on without the node until its host starts again."""
        others = self.host.left_out.keys() | {it.name for it in self.host.nodes.values() if os.path.exists(self.copy(it))}
        may_lack = self.host.plan.may_sign(set(self.host.plan.names()) - others - {node.name}) and not others
        return not self.calm and state.mark is not None and state.before is None and state.facts > 0 and may_lack
