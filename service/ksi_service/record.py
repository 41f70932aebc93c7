"""The record of a run: the lines that each node was given, and its answers. An entry is on the disk before it has an effect.

It is a folder of files, cut from time to time, each but the last compressed. One JSON list a line:

    ["given", NODE, LINE, MESSAGE]     the line was given to the node. MESSAGE is [STEP, PLACE] if another node of this record sent it:
                                       the PLACEth message of that step. It is [MACHINE, STEP, PLACE] if a node of another machine
                                       sent it, by the step of that machine's record; else null
    ["said", NODE, BLOCK, MARK]        the node's answer to the first line that it had not answered yet. MARK is there if the step
                                       stored a fact: where the facts of the node's file end, and a digest (marks.py)
    ["ready", NODE, RECORDS, UNSAID, MARK]   the node's process was started and found this many facts; of the lines that it had not
                                       answered the first UNSAID happened before it ended, and the others did not
    ["signed", STEP, TEXT]             the signature, in hex, that was handed out for the request of this step
    ["asked", ..], ["took", ..], ["handed", ..]   the same as `given`, `said` and `signed`, for many requests at once (grouped.py)
    ["forgot", NODE, FOUND, LEFT, MARK, MARK]   the node's process has ended; the file with LEFT facts replaces the one with FOUND facts
    ["retired", SECOND, DIGEST]        from here on no core is given a line about a later second: the plan of this digest follows
                                       (succession.py). Each file after it has this entry again as its second line
    ["freed", SECOND, DIGEST]          that plan never begins (never.py): the retirement counts no more
    ["begins", STATE]                  the first line of a file: the `State` at this place
    ["ends", DIGEST]                   the last line of a file before the last: the SHA-256 of the lines before it, in hex. STATE of
                                       the next file has it too, so each digest is over all hours before

Records of the former service over Redis have these entries, which are only read:

    ["did", NODE, NUMBER, ID, LINE, FROM, BLOCK]   the node took the line with this ID; FROM is null, or NODE ID PLACE of the line
                                                   that it was sent for; NUMBER is the entry's in the node's log. After the block
                                                   may be how many of its messages were not sent
    ["restarted", NODE, NUMBER, AGAIN, FOUND]      the node's process was started and found FOUND facts; AGAIN is 0 at its first start

Steps are numbered from 0 in the order of the record: a block that is no refusal, a line that happened and was never answered, and
a restart, which is each start of a node but its first. Questions, which change nothing, are not recorded."""
import asyncio
import concurrent.futures
import hashlib
import json
import os
from collections import deque
from dataclasses import dataclass, field
from typing import Callable, Deque, Dict, Iterator, List, NamedTuple, Optional, Tuple

from . import files, grouped
from .hours import Broken, all_names, cut_off, digest_over, discard, discarded, entries_of, names, pack, second_before, see_end
from .marks import Mark, mark_in
from .messages import last_second_to_core
from .storing import MAY_STORE, Votes, cores_of, may_store, word

QUESTIONS = {"sign", "chain", "held"}
"""The first words of lines that ask a node for its data, and change nothing."""


SOON = 0.25
"""Entries that are not urgent are written at whole multiples of this many seconds of the loop's time, or before with an urgent one."""
LAST_SECONDS = 5
"""How long a record that is closed waits for files to be compressed."""


def next_time(now):
    """The next time at which entries that are not urgent are written."""
    return (now // SOON + 1) * SOON


def is_refusal(block):
    return block[0].startswith("refused ")


def is_stored(block):
    return len(block) > 1 and block[1] == "stored"


class Given(NamedTuple):
    """A line that a node was given and did not answer yet."""
    line: str
    message: Optional[list]
    stores: bool
    """Whether its step may store a fact."""


@dataclass
class NodeState:
    """The state of one node by the record."""
    facts: Optional[int] = None
    """How many facts it acknowledged; none before its first start."""
    unanswered: Deque[Given] = field(default_factory=deque)
    before: Optional[int] = None
    """How many facts its file has if it is still the one from before a forgetting; None after the node was started with the new one."""
    votes: Votes = field(default_factory=Votes)
    """The votes that its process was given."""
    mark: Optional[Mark] = None
    """The end of its file's facts; none in a record of before marks."""
    mark_before: Optional[Mark] = None
    """The end of the file from before a forgetting."""
    has_forgotten: bool = False
    """Whether it ever forgot something."""

    def acknowledged(self):
        """How many facts its file may have if no unanswered line happened: the last count first."""
        return [self.facts or 0, *([] if self.before is None else [self.before])]

    def mark_at(self, found) -> Optional[Mark]:
        """The end of the acknowledged facts in a file with this many, if the record has it."""
        return self.mark_before if found == self.before else self.mark

    def may_have(self, found):
        return found in self.acknowledged()


def node_of(facts, lines, before=None, votes=None, mark=None, mark_before=None, has_forgotten=False):
    """The state of a node as the first entry of a file has it. Files of before do not have whether each line may store, and no votes."""
    unanswered = deque(Given(line, message, stores[0] if stores else may_store(line)) for line, message, *stores in lines)
    return NodeState(facts, unanswered, before, Votes.of(votes), mark_in(mark), mark_in(mark_before), has_forgotten)


class Retired(NamedTuple):
    """The cores of a machine retired."""
    second: int
    """The last second that they are given lines about."""
    digest: str
    """Which plan follows: `name_of` of succession.py."""


@dataclass
class Step:
    """One event of the run: a line that a node took, with its block, or None if the reply was lost. A restart has no line."""
    node: str
    line: Optional[str]
    message: Optional[list]
    block: Optional[List[str]]


@dataclass
class Signed:
    """A signature that was handed out for the request of a step."""
    step: int
    text: str


class State:
    """The state after the entries of a record."""

    def __init__(self):
        self.steps = 0
        self.second = 0
        """How many steps there were, and the last second of a command to seal."""
        self.nodes: Dict[str, NodeState] = {}
        self.seen: Dict[str, str] = {}
        """The last entry of each node's own log."""
        self.sent: Dict[str, list] = {}
        """By NODE ID of a line whose messages are in transfer: its step, and how many of them did not come yet."""
        self.plan: Optional[str] = None
        """The plan of the run, if its files have it."""
        self.cores = 1
        """How many cores the plan has."""
        self.heard: Dict[str, int] = {}
        """By machine, how many steps its record is known to have had, by the lines that came from there."""
        self.retired: Optional[Retired] = None
        """The last second of the plan for this machine's cores, if they retired."""
        self.freed: Optional[str] = None
        """The plan to which they had retired, if that never begins."""
        self.knows_latest = True
        """Whether `latest` counts every line of the vote from the first one on. Version 0.1.0 did not note it."""
        self.clock: Optional[dict] = None
        """Whether the host checked this machine's clock, and within which bound."""
        self.forgotten = 0
        """How many acknowledged facts aggregators were started without, in the part of the record that was read or added."""
        self.forgotten_by_cores = 0
        """The same for cores."""
        self.latest = 0
        """The last second of a line of the vote."""
        self.closed = 0
        """The seconds before this one were in the vote before the last file began, and each sealing of them that was given by then was
        answered."""
        self.sealed_since: Optional[int] = None
        """The least second of a command to seal in the last file."""
        self.digest: Optional[str] = None
        """The digest at the end of the file before, if it has one."""
        self.is_at_end = False
        """Whether the last file has its last line."""
        self.is_of_before = False
        """Whether a version whose cores forget nothing began the last file."""

    def node(self, name):
        found = self.nodes.get(name)
        if found is None:
            found = self.nodes[name] = NodeState()
        return found

    def take(self, entry) -> List[object]:
        """Takes an entry, and returns the steps and signatures that it completes."""
        try:
            kind, *rest = entry
            self.is_at_end = False
            told = list(getattr(self, "take_" + kind)(*rest))
        except (AttributeError, IndexError, KeyError, TypeError, ValueError):
            raise Broken(f"the record has an entry that cannot be there: {text_of(entry)[:200].strip()}") from None
        self.steps += sum(isinstance(it, Step) for it in told)
        return told

    def take_given(self, name, line, message):
        node = self.node(name)
        node.unanswered.append(Given(line, message, node.votes.would_store(line, self.cores)))
        node.votes.count(line)
        if message is not None and len(message) == 3:
            machine, step, _ = message
            self.heard[machine] = max(self.heard.get(machine, 0), step + 1)
        if line.startswith("seal "):
            second = int(line.split(" ")[1])
            self.second = max(self.second, second)
            self.latest = max(self.latest, second)
            self.sealed_since = min(second, self.sealed_since or second)
        elif line.startswith(("synod ", "ballot ")):
            self.latest = max(self.latest, last_second_to_core(line))
        return []

    def take_said(self, name, block, mark=None):
        node = self.node(name)
        line, message, _ = node.unanswered.popleft()
        if node.facts is not None:
            node.facts += is_stored(block)
        if is_stored(block):
            node.mark = mark_in(mark)
        return [] if is_refusal(block) else [Step(name, line, message, block)]

    def take_asked(self, name, second, rows):
        self.node(name).unanswered.extend(Given(line, None, False) for line in grouped.lines_of(second, rows))
        return []

    def take_took(self, name, count):
        node = self.node(name)
        lines = [node.unanswered.popleft().line for _ in range(count)]
        return [Step(name, line, None, grouped.answer_to(line)) for line in lines]

    def take_handed(self, tail, rows):
        return [Signed(step, text) for step, text in grouped.signatures_of(tail, rows)]

    def take_ready(self, name, facts, unsaid, mark=None):
        node = self.node(name)
        told = [Step(name, it.line, it.message, None) for it in (node.unanswered.popleft() for _ in range(unsaid))]
        node.unanswered.clear()
        node.votes = Votes()
        if node.facts is not None:
            told.append(Step(name, None, None, None))
        if node.before is not None:
            self.count_forgotten(name, node.before - facts)
        node.facts = facts
        node.before = None
        node.mark = mark_in(mark)
        node.mark_before = None
        return told

    def count_forgotten(self, name, facts):
        if name[0] == "c":
            self.forgotten_by_cores += facts
        else:
            self.forgotten += facts

    def take_forgot(self, name, found, left, mark_found=None, mark_left=None):
        """The file had the acknowledged facts: so no unanswered line happened."""
        node = self.node(name)
        node.facts = left
        node.before = found
        node.mark = mark_in(mark_left)
        node.mark_before = mark_in(mark_found)
        node.has_forgotten = True
        node.unanswered.clear()
        return []

    def take_retired(self, second, digest):
        """A machine retires once."""
        if self.retired not in (None, (second, digest)):
            raise ValueError(digest)
        self.retired = Retired(second, digest)
        return []

    def take_freed(self, second, digest):
        if self.retired != (second, digest):
            raise ValueError(digest)
        self.retired = None
        self.freed = digest
        return []

    def take_ends(self, digest):
        self.digest = digest
        self.is_at_end = True
        return []

    def closed_before(self) -> int:
        """The second before which all that cores sealed is in files before the last, and nothing of it in the last one."""
        return self.closed if self.sealed_since is None else min(self.closed, self.sealed_since)

    def take_signed(self, step, text):
        return [Signed(step, text)]

    def take_did(self, name, number, identity, line, sender, block, lost=0):
        self.seen[name] = number
        node = self.node(name)
        node.facts = (node.facts or 0) + (word(line) in MAY_STORE if block is None else is_stored(block))
        message = self.came(sender) if sender else None
        sends = sum(row.startswith("send ") for row in block or []) - lost
        if sends:
            self.sent[f"{name} {identity}"] = [self.steps, sends]
        if line.startswith("seal "):
            self.second = max(self.second, int(line.split(" ")[1]))
        return [Step(name, line, message, block)]

    def came(self, sender):
        """The message that came, by its step and place. Each comes once: its addressee's host has acknowledged it."""
        key, place = sender.rsplit(" ", 1)
        sent = self.sent[key]
        sent[1] -= 1
        if not sent[1]:
            del self.sent[key]
        return [sent[0], int(place)]

    def take_restarted(self, name, number, again, found=None):
        self.seen[name] = number
        if found is not None:
            node = self.node(name)
            self.forgotten += max(0, (node.facts or 0) - found)
            node.facts = found
        return [Step(name, None, None, None)] if again else []

    def take_begins(self, state):
        self.steps = state["steps"]
        self.second = state["second"]
        self.latest = state.get("latest", self.second)
        self.is_of_before = "latest" not in state
        self.knows_latest = state.get("knows_latest", state["steps"] == 0)
        self.seen = state["seen"]
        self.sent = state["sent"]
        self.of_plan(state.get("plan"))
        self.heard = state.get("heard", {})
        self.clock = state.get("clock")
        self.digest = state.get("digest")
        self.freed = state.get("freed")
        self.nodes = {name: node_of(*rest) for name, *rest in state["nodes"]}
        self.begin_file()
        return []

    def of_plan(self, plan):
        self.plan = plan
        self.cores = cores_of(plan)

    def begin_file(self):
        """The next entries are in a new file."""
        unanswered = [int(it.line.split(" ")[1]) for node in self.nodes.values() for it in node.unanswered if it.line.startswith("seal ")]
        self.closed = min([self.latest, *unanswered])
        self.sealed_since = None
        self.is_at_end = False

    def begins(self):
        """The entry from which `take` makes this state."""
        nodes = [[name, it.facts, list(it.unanswered), it.before, it.votes.told(), it.mark, it.mark_before, it.has_forgotten] for name, it in self.nodes.items()]
        return ["begins", {"steps": self.steps, "second": self.second, "latest": self.latest, "knows_latest": self.knows_latest, "nodes": nodes, "seen": self.seen, "sent": self.sent, "plan": self.plan,
                           "heard": self.heard, "clock": self.clock, "digest": self.digest, **({"freed": self.freed} if self.freed else {})}]


def told(folder) -> Iterator[object]:
    """The steps of a record and the signatures that were handed out, in order."""
    state, found = State(), all_names(folder)
    for path in found:
        for entry, _ in entries_of(path, path == found[-1]):
            if entry[0] != "begins":
                yield from state.take(entry)


def last_state(folder) -> Tuple[State, int]:
    """The state at the end of a record, by its last file, and how many bytes of that file are whole lines."""
    state, whole = State(), 0
    for path in names(folder)[-1:]:
        for entry, size in entries_of(path, True):
            state.take(entry)
            whole += size
    return state, whole


ENCODER = json.JSONEncoder(separators=(",", ":"))


def text_of(entry):
    return ENCODER.encode(entry) + "\n"


class Waiting(NamedTuple):
    """An entry that waits for its group, and the effect that it has after that."""
    text: str
    effect: Optional[Callable[[], None]]
    first: bool


class Record:
    """A record that grows. Entries are written and synced in groups; then the effects that wait for them happen."""

    def __init__(self, folder, plan=None, clock=None):
        self.folder = folder
        self.bytes = 0
        self.failed = False
        self.soon = False
        self.closing = False
        self.ended = False
        """Whether entries are not written any more, until the record is closed: a write failed, a cut failed, or it is to end."""
        self.waiting = []
        self.wanted = asyncio.Event()
        self.flushing: Optional[asyncio.Task] = None
        """The last group that is being written."""
        self.groups = 0
        """How many groups came to the disk."""
        self.syncs = 0
        """How many of them had entries, and so cost a sync."""
        self.on_synced: Callable[[int], None] = lambda steps: None
        """Called in the writer's thread with the number of steps that are on the disk, before any of them has an effect."""
        self.on_retired: Callable[[int, str], None] = lambda second, digest: None
        """Called there once it is on the disk that the cores retired, also before that has an effect."""
        self.retiring: Optional[Retired] = None
        """The retirement that the group which is being written has, or one before it."""
        self.writer = concurrent.futures.ThreadPoolExecutor(1)
        self.packer = concurrent.futures.ThreadPoolExecutor(1)
        self.packing: List[concurrent.futures.Future] = []
        self.discard = 0
        """All closed files but this many are removed; none if it is 0."""
        self.clock = clock
        self.at = 0
        """The byte of the last file at which the next entry will begin."""
        files.make_folder(folder)
        self.recall(plan)

    def recall(self, plan):
        """Reads the last file, cuts it off after its last whole line, and goes on there. A run has one plan, if one is given."""
        found = names(self.folder)
        for path in found[-1:]:
            files.drop_cache(path)
        self.state, whole = last_state(self.folder)
        if None not in (plan, self.state.plan) and plan != self.state.plan:
            raise Broken(f"{self.folder} is of another plan than the one next to it: bring that plan back")
        knows_plan = plan is None or plan == self.state.plan
        self.state.of_plan(plan or self.state.plan)
        if not found or found[-1].endswith(".gz") or self.state.is_at_end:
            self.open_next(len(found) and int(os.path.basename(found[-1])[:8]))
        else:
            cut_off(found[-1], whole)
            self.number = int(os.path.basename(found[-1]))
            self.at = whole
            self.file = open(found[-1], "ab", buffering=0)
            self.running = digest_over(found[-1])
            if not knows_plan or self.state.is_of_before:
                # which votes may store depends on the plan, and whoever reads a file again has it from the file's first line; and a host
                # whose cores forget nothing must not go on after cores forgot: it does not read a file that begins as this one does
                self.next_file()
        self.pack_all()

    def open_next(self, number):
        """Begins the file after this one."""
        path = os.path.join(self.folder, f"{number + 1:08}")
        self.state.clock = self.clock
        # a host of before knows no such entry, and ends: it would give retired cores lines
        content = "".join(map(text_of, [self.state.begins(), *([["retired", *self.state.retired]] if self.state.retired else [])])).encode()
        files.write(path, content)
        self.state.begin_file()
        self.state.is_of_before = False
        self.number = number + 1
        self.at = len(content)
        self.file = open(path, "ab", buffering=0)
        self.running = hashlib.sha256(content)

    def end_file(self):
        """Writes the last line of the file: the digest of all lines before it."""
        entry = ["ends", self.running.hexdigest()]
        self.state.take(entry)
        self.append(text_of(entry).encode())

    async def see_last_hour(self):
        """Raises Broken if the file before this one is not the one that was closed. It may be long, and is read beside other work."""
        before = [it for it in names(self.folder) if int(os.path.basename(it)[:8]) == self.number - 1]
        if before and self.state.digest:
            await asyncio.get_running_loop().run_in_executor(self.packer, see_end, before[0], self.state.digest)

    def node(self, name):
        return self.state.node(name)

    def add(self, entry, effect=None, urgent=True, first=False):
        """Adds an entry, with the effect that it has after it is on the disk. Returns how many steps there were before. An entry that is
        not urgent waits for others to be written with it. Of the effects of one group, those that are `first` come first."""
        before = self.state.steps
        self.state.take(entry)
        text = text_of(entry)
        self.at += len(text)
        self.waiting.append(Waiting(text, effect, first))
        if urgent:
            self.wanted.set()
        elif not self.soon:
            self.soon = True
            loop = asyncio.get_running_loop()
            loop.call_at(next_time(loop.time()), self.write_soon)
        return before

    @property
    def place(self):
        """The number of the file, and the byte, at which the next entry will begin."""
        return self.number, self.at

    def write_soon(self):
        if self.waiting:
            self.wanted.set()

    def after(self, effect, first=False):
        """Has an effect after all entries so far are on the disk."""
        self.waiting.append(Waiting("", effect, first))
        self.wanted.set()

    def write(self, content, steps):
        self.append(content)
        self.on_synced(steps)
        if self.retiring is not None:
            self.on_retired(*self.retiring)

    def append(self, content):
        self.bytes += len(content)
        self.syncs += 1
        self.running.update(content)
        rest = memoryview(content)
        try:
            while rest:
                rest = rest[self.file.write(rest):]
            os.fdatasync(self.file.fileno())
        except OSError as fault:
            raise files.named(fault, self.file.name) from None

    async def flush(self):
        """Writes and syncs the waiting entries, and then lets their effects happen. It goes on even if its caller is cancelled: of two
        groups the second may not be on the disk without the first."""
        self.flushing = asyncio.create_task(self.flush_now())
        await asyncio.shield(self.flushing)

    async def flush_now(self):
        """After a failure nothing has an effect any more."""
        waiting = self.waiting
        steps = self.state.steps
        self.retiring = self.state.retired
        self.waiting = []
        self.soon = False
        content = "".join(it.text for it in waiting).encode()
        if self.failed:
            return
        if content:
            try:
                await asyncio.get_running_loop().run_in_executor(self.writer, self.write, content, steps)
            except BaseException:
                self.failed = True
                raise
        self.groups += 1
        for it in sorted(waiting, key=lambda it: not it.first):
            if it.effect is not None:
                it.effect()

    @property
    def writes(self):
        """Whether a group is being written."""
        return self.flushing is not None and not self.flushing.done()

    async def run(self, cut_every=3600.0):
        """Writes entries as they are added, and cuts the record at this interval."""
        loop = asyncio.get_running_loop()
        cut_at = loop.time() + cut_every
        try:
            while True:
                await self.wanted.wait()
                self.wanted.clear()
                await self.flush()
                if loop.time() >= cut_at:
                    await self.cut()
                    cut_at = loop.time() + cut_every
        finally:
            self.ended = True

    async def cut(self):
        """Begins a new file; the one before is compressed in its own time."""
        while self.waiting or self.writes:
            await (asyncio.wait([self.flushing]) if self.writes else self.flush())
        self.next_file()
        self.pack_all()

    def next_file(self):
        """Ends the file, and begins the one after it."""
        before = self.file
        if not self.state.is_at_end:
            self.end_file()
        self.open_next(self.number)
        before.close()

    def pack_all(self):
        """Compresses all files but the last, also those for which there was no room before."""
        self.packing = [it for it in self.packing if not it.done()]
        for path in names(self.folder)[:-1]:
            if not path.endswith(".gz"):
                self.packing.append(self.packer.submit(pack, path, lambda: self.closing))
        if self.discard:
            self.packing.append(self.packer.submit(discard, self.folder, self.discard))

    def lost(self) -> dict:
        """For the counters, if closed files were discarded: how many, and the second before which no items are in the others."""
        last = discarded(self.folder)
        return {"files_discarded": last, "no_items_before": second_before(names(self.folder)[0])} if last else {}

    async def close(self):
        """Writes the waiting entries after the group that is being written, and closes the file after its writer has ended. A file that takes
        too long to compress is left to the next start."""
        if self.flushing is not None:
            # its caller got the failure, or was cancelled
            await asyncio.gather(self.flushing, return_exceptions=True)
        try:
            while self.waiting:
                await self.flush()
        finally:
            self.writer.shutdown()
            self.file.close()
            concurrent.futures.wait(self.packing, LAST_SECONDS)
            self.closing = True
            self.packer.shutdown(cancel_futures=True)
