"""The run of a record as a schedule, replayed by the proved `ksi`: its journal has to have each signature that was handed out, byte for
byte, and each publication.

A schedule numbers messages in the order in which they were sent, and requests in the order in which they were accepted. If the block of
a step was lost, its messages are not on the record: a replay of the schedule up to that step counts them."""
import os
from dataclasses import dataclass, field
from typing import Dict, Iterable, List, NamedTuple, Sequence, Set, Tuple, Union

from . import files
from .elements import number_of, published_in, read
from .folders import Folders
from .proved import ksi
from .publications import Publications
from .record import Signed, Step
from .retrace import Differs

MOST_EVENTS = 1_000_000
"""The most events of a schedule."""
ISSUED = 0x04
"""The kind of a journal's element that has a number and its signature."""
PUBLISHED = 0x05
"""The kind of one that has a second and its root."""
MOST_BYTES = 67_108_864
"""The most bytes of a journal that `ksi` reads."""
MAGIC = 8
"""The bytes before a journal's elements."""


@dataclass
class Schedule:
    """The events of a run."""
    plan: str
    events: List[str] = field(default_factory=list)
    sent: int = 0
    first: List[int] = field(default_factory=list)
    """For each step, the number of the first message that it sent."""
    requests: int = 0
    numbers: Dict[int, int] = field(default_factory=dict)
    """The number of the request that a step accepted."""
    closed: Set[Tuple[str, str]] = field(default_factory=set)
    """The aggregators and seconds whose rounds are closed."""

    def text(self) -> str:
        """A schedule in which a request has a name is of version 2, whatever the plan is."""
        has_names = any(it.startswith("request ") and it.count(" ") == 4 for it in self.events)
        plan = self.plan.replace("ksi-schedule 1\n", "ksi-schedule 2\n", 1) if has_names else self.plan
        return plan + "".join(f"{it}\n" for it in self.events)

    def add(self, step: Step, sends_of_unsaid) -> None:
        """Adds a step. If its reply was lost, `sends_of_unsaid` returns how many messages there are by then."""
        if len(self.events) == MOST_EVENTS:
            raise Differs(f"the run has more than {MOST_EVENTS} steps, the most that a schedule has: only ksi_retrace compares it")
        self.first.append(self.sent)
        self.events.append(self.event_of(step))
        if step.line is not None and step.block is None:
            self.sent = sends_of_unsaid(self)
        else:
            self.sent += sum(row.startswith("send ") for row in step.block or [])

    def event_of(self, step: Step) -> str:
        if step.line is None:
            return f"restart {step.node}"
        if step.message is not None:
            at, place = step.message
            return f"deliver {self.first[at] + place}"
        words = step.line.split(" ")
        if words[0] == "request":
            if self.accepted(step, words[2]):
                self.numbers[len(self.events)] = self.requests
                self.requests += 1
            return " ".join(["request", step.node[1:], *words[2:]])
        if words[0] == "close":
            self.closed.add((step.node, words[1]))
        return " ".join([words[0], step.node[1:], *words[1:]])

    def accepted(self, step: Step, second: str) -> bool:
        """Whether the aggregator took a request: by its answer, or if that was lost, by its round, which was open or closed."""
        if step.block is None:
            return (step.node, second) not in self.closed
        return step.block[0].startswith("answer number ")


def schedule_of(plan: str, run: Iterable[object], sends_of_unsaid) -> Tuple[Schedule, Dict[int, str]]:
    """The schedule of a run, and by their numbers in it the requests whose signatures were handed out."""
    schedule, handed = Schedule(plan), {}
    for it in run:
        if isinstance(it, Signed):
            handed[schedule.numbers[it.step]] = it.text
        else:
            schedule.add(it, sends_of_unsaid)
    return schedule, handed


def issued_in(journal: bytes) -> Dict[int, bytes]:
    """The signatures of a journal by their numbers."""
    told_of = {}
    for it in read(journal, MAGIC):
        if it.kind == ISSUED:
            number, signature = read(it.body)
            told_of[number_of(number.body)] = signature.body
    return told_of


def published_by(journal: bytes) -> List[Tuple[int, str]]:
    """The publications of a journal: seconds and their roots in hex."""
    told_of = []
    for it in read(journal, MAGIC):
        if it.kind == PUBLISHED:
            second, root = read(it.body)
            told_of.append((number_of(second.body), root.body[1:].hex()))
    return told_of


class Counts(NamedTuple):
    """The counts of values that were compared and found equal."""
    events: int
    signatures: int
    signed: int
    """How many of the signatures were taken from the journal by `ksi sign` too."""
    publications: int


def replay(folder: Union[str, Sequence[str]], out: str, samples: int, say=print) -> Counts:
    """Replays the run of a folder, or of the folders of all machines, into OUT/schedule and OUT/journal. Raises Differs if a signature
    or a publication differs. If `ksi` reads a journal of that size, some of the signatures are taken from it by `ksi sign` too, and
    the publications by `ksi publish`. Reports and returns the counts."""
    folders = Folders(folder)
    os.makedirs(out, exist_ok=True)
    at = lambda name: os.path.abspath(os.path.join(out, name))

    def counts(schedule):
        files.write(at("schedule"), schedule.text().encode())
        return dict(zip(*[iter(ksi("replay", at("schedule"), at("journal")).split(" "))] * 2))
    with open(folders.plan_path, encoding="ascii") as file:
        schedule, handed = schedule_of(file.read(), folders.entries(), lambda so_far: int(counts(so_far)["messages"]))
    said = counts(schedule)
    if (int(said["events"]), int(said["messages"])) != (len(schedule.events), schedule.sent):
        raise Differs(f"the run has {len(schedule.events)} events and {schedule.sent} messages, its replay {said['events']} and {said['messages']}")
    journal = files.content_of(at("journal"))
    compare(handed, issued_in(journal))
    is_read = len(journal) <= MOST_BYTES
    chosen = sorted(handed)[::max(1, -(-len(handed) // samples))] if is_read else []
    for number in chosen:
        ksi("sign", at("journal"), str(number), at("signature"))
        compare({number: handed[number]}, {number: files.content_of(at("signature"))})
    files.remove(at("signature"))
    published = published_by_ksi(at("journal"), at("publications")) if is_read else published_by(journal)
    counts_of = Counts(len(schedule.events), len(handed), len(chosen), compare_publications(folders, published))
    say("ksi replay of the run, %d events, makes all of its signatures (%d, of which ksi sign gave %d) and publications (%d), byte for byte" % counts_of)
    return counts_of


def compare(handed: Dict[int, str], issued: Dict[int, bytes]) -> None:
    for number, text in handed.items():
        if issued.get(number) != bytes.fromhex(text):
            raise Differs(f"the signature of request {number} that was handed out is not that of its replay")


def published_by_ksi(journal: str, made: str) -> List[Tuple[int, str]]:
    """The publications of a journal's file, by `ksi publish`."""
    ksi("publish", journal, made)
    return published_in(files.content_of(made))


def compare_publications(folders: Folders, published: List[Tuple[int, str]]) -> int:
    """Checks that all publications of the service are among those of the run's replay. Returns how many there are."""
    told_of = set().union(*(Publications(path).published for path in folders.paths))
    missing = told_of - set(published)
    if missing:
        raise Differs(f"the publication of second {min(missing)[0]} is not that of the run's replay")
    return len(told_of)
