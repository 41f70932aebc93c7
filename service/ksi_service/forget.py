"""Lets nodes forget old seconds, by the proved `ksi_serve --forget`: those of a stopped service, and one of a running service (resting.py).

Which rounds of an aggregator may go: each signature that was handed out was on the record before. A host that starts again drives no
second before the last one that it let a core seal, and asks for no request that it took before. So nobody asks for a signature of an
earlier second.

A core keeps the root of a second alone. The items that it sealed have to be in a closed file of the record before, since audits need
them (items.py), and nobody may wait for its response. Its votes go, so it takes no part in a vote on such a second any more: it answers
`refused forgotten`, and a core that lacks the second is sent the root.

A crash at any place leaves a folder that starts. Until the entry `forgot` is on the record, the file of facts is the old one, and the
new one has another name, which nothing reads and the next time removes. From the entry on both counts of facts are right, until
the node reports by `ready` which it found: the old file, or the new one, which is synced before it takes the old one's name. A start
syncs the folder before a node adds to the file."""
import asyncio
import logging
import os
import shutil
import subprocess
import tempfile
import time

from . import cuts, files
from .errors import NeedsOperator, ServiceError
from .marks import end_of
from .plan import Plan
from .programs import program
from .proved import Refused
from .record import Record
from .storing import LostFacts
from .watched import see_at_rest

log = logging.getLogger(__name__)

LOOK_SECONDS = 0.2
"""How often is looked whether `ksi_serve --forget` has ended."""


class NotForgotten(ServiceError):
    """Why a node forgets nothing now. It may the next time."""


def cores_forget(plan_path):
    """Whether the program lets cores forget: one of before refuses each core. It is tried over a file without facts."""
    with tempfile.TemporaryDirectory(prefix="ksi-forget-") as room:
        shutil.copy(plan_path, os.path.join(room, "plan"))
        words = [program("ksi_serve"), "--forget", os.path.join(room, "plan"), "c0", room, "c0.facts", "0", "c0.forgetting"]
        told = subprocess.run(words, stdin=subprocess.DEVNULL, capture_output=True, text=True, check=False)
    return told.stdout.strip() != "failed node"


class Older(NeedsOperator):
    """The program of the nodes does not have the rule of cores that forgot."""


def see_program(folder, state):
    """Raises Older if a core forgot by the record, and the program does not let cores forget: it would vote again on seconds whose
    votes are gone, and two roots for one second would be possible."""
    forgot = [name for name, node in sorted(state.nodes.items()) if name[0] == "c" and node.has_forgotten]
    if forgot and not cores_forget(os.path.join(folder, "plan")):
        raise Older(f"{' '.join(forgot)} forgot seconds, and this ksi_serve is of a version whose cores forget none: install the newer one again")


class Left:
    """The compacted file of a node that forgets the seconds before a given one. It has another name until it replaces the old file."""

    def __init__(self, folder, name, before, meanwhile=lambda: None):
        self.folder, self.name, self.before = folder, name, before
        self.path = os.path.join(folder, f"{name}.facts")
        self.made = os.path.join(folder, f"{name}.forgetting")
        files.remove(self.made)
        words = [program("ksi_serve"), "--forget", os.path.join(folder, "plan"), name, folder, f"{name}.facts", str(before), f"{name}.forgetting"]
        self.left, self.found = self.counts(words, name, meanwhile)
        """How many facts it has, and how many the old file."""
        self.mark = end_of(self.made)

    def counts(self, words, name, meanwhile):
        with subprocess.Popen(words, stdin=subprocess.DEVNULL, stdout=subprocess.PIPE, stderr=subprocess.DEVNULL, text=True) as run:
            while True:
                try:
                    text = run.communicate(timeout=LOOK_SECONDS)[0].strip()
                    break
                except subprocess.TimeoutExpired:
                    meanwhile()
        said = text.split(" ")
        if run.returncode or said[::2] != ["left", "of"]:
            self.drop()
            raise Refused(run.returncode, f"ksi_serve --forget of {name}: {text or run.returncode}")
        return int(said[1]), int(said[3])

    def is_less(self):
        return self.left < self.found

    def entry(self, name, mark):
        """The entry of the record, with the marks of both files."""
        return ["forgot", name, self.found, self.left, mark, self.mark]

    def keep(self, place):
        """Puts it in the old one's place. Not before the record, or who else counts facts, has both counts. The old one is kept under
        another name, by the place of the entry in the record, for the check of the hour; if that fails the hour is not checked by itself."""
        try:
            cuts.keep(self.folder, self.name, place, self.before)
        except OSError as reason:
            log.warning("the file of %s from before it forgot is not kept: %s", self.name, reason.strerror)
        files.keep(self.made, self.path)

    def drop(self):
        files.remove(self.made)


def forget(folder, seconds_ago, say=print):
    """Forgets seconds so long ago of a service that is stopped, of each node one after the other. Says how much is left of each file."""
    asyncio.run(forget_all(folder, seconds_ago, say))


async def forget_all(folder, seconds_ago, say):
    plan = Plan.read(os.path.join(folder, "plan"))
    record = Record(os.path.join(folder, "record"), plan.text())
    try:
        before = max(0, min(record.state.second, int(time.time()) - seconds_ago))
        for name in names_of(folder, plan):
            if name[0] == "c":
                await forget_one(folder, name, min(before, await closed_before(record)), record, say)
            else:
                await forget_one(folder, name, before, record, say)
    finally:
        await record.close()


def names_of(folder, plan):
    """The nodes of a folder that may forget, the aggregators first."""
    kinds = "ac" if cores_forget(os.path.join(folder, "plan")) else "a"
    return [name for kind in kinds for name in plan.names() if name[0] == kind and os.path.exists(os.path.join(folder, f"{name}.facts"))]


async def closed_before(record):
    """The second before which all that cores sealed is in closed files of the record: the last file is closed, if it has some of it."""
    if record.state.sealed_since is not None:
        await record.cut()
    return record.state.closed_before()


async def forget_one(folder, name, before, record, say):
    new = Left(folder, name, before)
    try:
        state = record.node(name)
        if not state.may_have(new.found):
            raise LostFacts(f"{name} acknowledged {state.facts or 0} facts and has {new.found}: if its host was killed, start and stop it first")
        see_at_rest(name, new.path, state, new.found)
        if not new.is_less():
            say(f"{name} has nothing to forget")
            return
        sizes = os.path.getsize(new.made), os.path.getsize(new.path)
        place = record.place
        record.add(new.entry(name, state.mark_at(new.found)))
        await record.flush()
        new.keep(place)
        say(f"{name} keeps {new.left} of {new.found} facts, {sizes[0]} of {sizes[1]} bytes")
    finally:
        new.drop()


async def forget_between(folder, node, before):
    """Forgets the seconds before this one, of a node of a running service whose process has ended. Returns how many facts are left, and
    how many there were."""
    in_thread = lambda work, *words: asyncio.get_running_loop().run_in_executor(None, work, *words)
    new = await in_thread(Left, folder, node.name, before)
    try:
        state = node.record.node(node.name)
        if not state.may_have(new.found):
            raise NotForgotten("its process ended within a line")
        if new.is_less():
            place = node.record.place
            node.record.add(new.entry(node.name, state.mark_at(new.found)))
            await on_disk(node.record)
            await in_thread(new.keep, place)
        return new.left, new.found
    finally:
        new.drop()


async def on_disk(record):
    """Waits until all that was added is on the disk."""
    there = []
    record.after(lambda: there.append(True))
    while not there:
        if record.ended:
            raise NotForgotten("the record is not written any more")
        await asyncio.sleep(0.002)
