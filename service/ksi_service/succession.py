"""A plan ends, and the next one begins: succession.

The cores of a machine *retire* at a second E by an entry of the record: from then on, also after restarts, this host gives them no line
about a later second. The hosts of the next plan, whose first second is E + 1, give their cores no line before they have kept, on their own
disks, that machines with a majority of the cores of the plan before retired at E to this very plan. Each machine reports that of itself
alone, over its own authenticated connection. No second after E is then decided in the plan before: by the law
`nothing_is_held_after_the_last_second` of crates/ksi_laws_succession, if the hosts keep to this. docs/SERVICE.md has the steps ("Years").

Machines report it by this message, which is no line of a node:

    ["retired", {"of": NAME, "second": E, "next": NAME, "plan": TEXT, "machines": TEXT, "ended": BOOL, "known": [MACHINE ..]}]

`of` and `next` are names of plans (plans.py), `plan` and `machines` the files of the next plan, `ended` whether the machine's host of
the plan before has ended, and `known` the machines of which the sender knows that they retired. It has `lost`, `print` and `alone` too
if the next plan follows in one of these ways (`Before`)."""
import asyncio
import dataclasses
import logging
import os
import time
from typing import Any, Dict, NamedTuple, Optional, Set

from .errors import NeedsOperator
from .inbox import number_in
from .messages import last_second_to_core
from .never import Never
from .plans import Before, Content, Lost, content_in, folder_of, keep_retirements, name_of, retirements_in, write_folder
from .record import Retired
from .storing import LostFacts

log = logging.getLogger(__name__)

LOOK_SECONDS = 0.1
SAY_SECONDS = 1.0
"""How often a machine reports that it retired, and how often it answers another one that does not know it."""
AHEAD_SECONDS = 86_400
"""How long before its last second a plan is succeeded without a command, if it is long enough for that."""
CALM_SECONDS = 3600
"""For how long the clocks of a majority have to be right before that."""
SAY_BELOW_SECONDS = 10.0
"""How often it reports that to gateways."""
OTHERS_SECONDS = 4.0
"""How long a host that has all seconds waits for other machines that lack some."""
STUCK_SECONDS = 60.0
"""After this time without a majority after the last second, a host leaves seconds undecided."""
BEGUN = "begun without a majority"
"""The words for a plan that follows although a majority of the cores before was lost (lost.py)."""
NEEDS = 2
"""The version of the protocol between machines that has succession."""


class NotRetired(NeedsOperator):
    """Why this machine's cores do not retire. The host goes on."""


class HasFacts(NotRetired):
    """A core was given a line of the vote about a later second."""


class NoPart(NeedsOperator):
    """The plan was succeeded by one in which this machine has no part."""


class Said(NamedTuple):
    """What another machine reports: that it retired."""

    second: int
    name: str
    content: Content
    ended: bool
    way: Before


class Succession:
    """What a host knows of the plan before its own, and of the plan after it."""

    def __init__(self, host) -> None:
        self.host = host
        self.before: Optional[Before] = Before.read(host.folder)
        self.content = Content(host.plan, host.places.text())
        self.origin = self.before.origin if self.before else ""
        self.name = name_of(host.plan, host.places.nodes, self.origin)
        self.never = Never(self)
        self.kept: Set[str] = retirements_in(host.folder) if self.before else set()
        """The machines of the plan before that retired to this plan. The folder has them."""
        self.is_begun = self.may_be_begun()
        """Whether cores may be given lines."""
        self.heard: Dict[str, Said] = {}
        """By machine of this plan, what it reported last of the plan after."""
        self.grows_as = ""
        """The name that the only machine of this plan has in a plan of several, if it was started with the files of that."""
        self.way = Before(self.content, self.origin)
        """How the plan after follows, once this machine's cores retired."""
        self.following: Optional[str] = None
        """The folder of the plan after, once this machine's cores retired."""
        self.followed: Set[str] = set()
        """The machines of this plan that retired to the plan after. Its folder has them."""
        self.is_reported = False
        """Whether it is on the disk that this machine's cores retired, so that others may know it."""
        self.answered: Dict[str, float] = {}
        self.said_below = float("-inf")
        self.finished: Optional[float] = None
        self.minority_since: Optional[float] = None
        self.calm_since: Optional[float] = None
        """Since when the clocks of a majority are right."""
        self.logged: Set[str] = set()
        self.over: asyncio.Future = asyncio.get_running_loop().create_future()
        """Done once this host is to end: its result is the folder of the plan after."""
        if self.retired is not None:
            self.recall(self.retired)

    @property
    def retired(self) -> Optional[Retired]:
        return self.host.record.state.retired

    @property
    def me(self) -> str:
        return self.host.places.me

    @property
    def former(self) -> Dict[str, str]:
        """The machines of the plan before that have no part in this one, with their addresses."""
        if self.before is None or not self.before.content.machines:
            return {}
        return {machine: address for machine, address in self.before.content.addresses.items() if machine not in self.host.places.nodes}

    # what cores may be given

    def may_take(self, name: str, text: str) -> bool:
        """Whether a node may be given a line. A core is given nothing before the plan is begun, and nothing about a second after the one
        at which it retired."""
        if name[0] != "c":
            return True
        if not self.is_begun:
            return False
        if self.retired is None:
            return True
        second = last_second_to_core(text)
        return second is not None and second <= self.retired.second

    def may_be_begun(self) -> bool:
        """Whether this plan is a first one, or the folder has retirements of enough machines of the plan before."""
        return self.before is None or not self.never.is_mine and self.before.is_over(self.kept)

    def last_of(self, machine: str) -> int:
        """The last second that the cores of a machine lead."""
        if machine == self.me:
            return self.host.last_second
        said = self.heard.get(machine)
        return said.second if said else self.host.plan.last_second

    # retiring

    def retire(self, content: Content, of: Optional[Before] = None) -> Retired:
        """Lets this machine's cores retire, or raises NotRetired with the reason. Between the look at what the cores were given and the
        entry nothing else runs."""
        way = Before(self.content, self.origin, *((of.lost, of.printed, of.alone) if of else ()))
        retired = Retired(content.plan.start - 1, name_of(content.plan, content.nodes, way.origin))
        if self.retired == retired:
            return retired
        self.see_plan(content, of, retired.digest)
        self.see_cores(retired)
        folder = folder_of(self.host.folder, content.plan.start, retired.digest)
        write_folder(folder, content, way)
        self.way = way
        self.following = folder
        self.followed = retirements_in(folder)
        self.host.record.add(["retired", *retired], self.report)
        log.warning("this machine's cores retire at second %d to the plan %s", retired.second, retired.digest[:16])
        return retired

    def see_plan(self, content: Content, of: Optional[Before], name: str) -> None:
        """Raises NotRetired unless a plan may succeed this one."""
        plan, last = self.host.plan, content.plan.start - 1
        others = [it.name for it in self.host.trusted.values() if it.is_there and it.protocol < NEEDS]
        for fault, reason in (
            (self.retired is not None, f"the cores of this machine retired to another plan, {self.retired.digest[:16] if self.retired else ''}, and retire once"),
            (not self.is_begun, "this plan is not begun yet"),
            (name in self.never.names, "this machine recorded that it never starts that plan"),
            (of is not None and of.name != self.name, "the plan that is brought is to succeed another plan than this one"),
            (not plan.start <= last <= plan.last_second, f"the next plan has to begin after one of this plan's seconds, {plan.start} to {plan.last_second}, and begins at {content.plan.start}"),
            (bool(self.content.machines) and not content.machines, "a plan of several machines is not succeeded by a plan of one machine without a name"),
            (not self.content.machines and bool(content.machines) and not self.may_grow(content, of),
             "a plan of one machine is succeeded by one of several if `ksi-service plan .. --alone NAME` wrote that, and if this service was started with --machines and the files of NAME"),
            (self.host.carrier is not None and not self.host.carrier.may_succeed, "over Redis no plan succeeds another: run the machines over HTTPS first"),
            (bool(others), f"{' '.join(others)} run an older version of the protocol, which does not know succession: upgrade first"),
        ):
            if fault:
                raise NotRetired(reason)

    def may_grow(self, content: Content, of: Optional[Before]) -> bool:
        """Whether the only machine of this plan is one of a plan of several, and has its certificate there."""
        return of is not None and of.alone == self.grows_as != "" and self.grows_as in content.nodes

    @property
    def name_after(self) -> str:
        """The name of this machine in the plan after."""
        return self.me or self.grows_as if self.way.alone else self.me

    def see_cores(self, retired: Retired) -> None:
        """Raises HasFacts unless every fact of this machine's cores is about a second up to the last.

        A fact is about the second of the line that stored it, and only lines of the vote store facts of cores. The record has each line
        before the core, and counts the last second of all of them, also of those that a core forgot or did not answer."""
        state = self.host.record.state
        if not state.knows_latest:
            raise NotRetired("the record was begun by a version that did not note which seconds its cores were asked about: begin a new plan")
        waiting = [last_second_to_core(it.line) for name in self.host.cores for it in state.node(name).unanswered]
        if state.latest > retired.second or any(it is None or it > retired.second for it in waiting):
            raise HasFacts(f"the cores of this machine were asked about second {state.latest}, which is after {retired.second}: choose a later first second for the next plan")

    def report(self) -> None:
        """It is on the disk that the cores retired: others may know it."""
        if self.retired is None:
            # they are free by now
            return
        self.is_reported = True
        self.keep_following(self.me)

    def recall(self, retired: Retired) -> None:
        """The cores retired before this start. A killed host may not have synced that."""
        os.fdatasync(self.host.record.file.fileno())
        self.following = folder_of(self.host.folder, retired.second + 1, retired.digest)
        before = Before.read(self.following)
        content = content_in(self.following) if before else None
        if content is None or before.name != self.name or name_of(content.plan, content.nodes, before.origin) != retired.digest:
            raise Lost(f"the cores of this machine retired to the plan {retired.digest[:16]}, and {self.following} does not have it: bring that folder back")
        self.way = before
        self.followed = retirements_in(self.following)
        self.report()

    def forget_following(self) -> None:
        """The cores are free: the plan to which they retired never begins."""
        self.way = Before(self.content, self.origin)
        self.following = None
        self.followed = set()
        self.is_reported = False
        self.finished = None

    def keep_following(self, machine: str) -> None:
        """Keeps in the folder of the plan after that a machine retired to it."""
        if machine not in self.followed:
            keep_retirements(self.following, self.followed | {machine})
            self.followed.add(machine)

    # without a command

    def see_end(self) -> None:
        """Lets this machine's cores retire without a command, if the end that was agreed on for its plans is near. The next plan follows from
        this one, so that all machines derive the same one."""
        after = self.host.succeed_after
        last = min(self.host.plan.start + after - 1, self.host.plan.last_second)
        self.note_clocks()
        calm = self.calm_since is not None and time.monotonic() - self.calm_since >= min(CALM_SECONDS, after // 4)
        if after and calm and self.retired is None and last - min(AHEAD_SECONDS, after // 2) <= self.host.now() < last:
            try:
                self.retire(self.derived(last + 1))
            except NotRetired as reason:
                self.log_once(f"no plan follows without a command: {reason}")

    def note_clocks(self) -> None:
        """Notes since when this machine's clock and those of a majority are right."""
        view = self.host.view
        right = [machine for machine in (self.me, *self.host.trusted) if not view.is_off(machine) and (machine == self.me or self.host.peers[machine].is_there)]
        if self.me not in right or not self.host.plan.is_majority(self.content.count_cores(right)):
            self.calm_since = None
        elif self.calm_since is None:
            self.calm_since = time.monotonic()

    def derived(self, start: int) -> Content:
        """The plan that follows without a command: the same nodes on the same machines."""
        return Content.of(dataclasses.replace(self.host.plan, start=start).text(), self.content.machines)

    # reports of other machines

    def take(self, machine: str, fields: Dict[str, Any]) -> None:
        """Takes the report of another machine. Raises ValueError, TypeError or KeyError if it is malformed."""
        second, name = number_in(fields["second"]), str(fields["next"])
        if self.before is not None and (fields["of"], name, second) == (self.before.name, self.name, self.host.plan.start - 1):
            self.keep(machine)
        elif fields["of"] == self.name and machine in self.host.trusted and name not in self.never.names:
            if self.me in fields["known"] and self.retired is None:
                self.host.fail(LostFacts(f"{machine} knows that the cores of this machine retired at second {second}, and the record does not have it: bring back the folder's last state"))
                return
            way = Before(self.content, self.origin).by(fields)
            content = self.content_of(machine, fields, second, name, way)
            self.heard[machine] = Said(second, name, content, bool(fields["ended"]), way)
            if self.me in way.lost:
                self.host.fail(NoPart(f"{machine} reports that the plan {name[:16]} follows from second {second + 1} on, {BEGUN}, and that this machine was named as lost. It takes no part any more"))
                return
            self.follow(machine)

    def content_of(self, machine: str, fields: Dict[str, Any], second: int, name: str, way: Before) -> Content:
        said = self.heard.get(machine)
        content = said.content if said and said.name == name else Content.of(str(fields["plan"]), str(fields["machines"]))
        if content.plan.start != second + 1 or name_of(content.plan, content.nodes, way.origin) != name:
            raise ValueError("not the plan of this name")
        return content

    def keep(self, machine: str) -> None:
        """Keeps that a machine of the plan before retired to this plan, before anything depends on it."""
        machine = self.before.machine_of(machine)
        if machine not in self.kept and self.before.content.cores_of(machine):
            keep_retirements(self.host.folder, self.kept | {machine})
            self.kept.add(machine)
            self.is_begun = self.may_be_begun()
            log.info("%s retired at second %d to this plan%s", machine, self.host.plan.start - 1, ": it may begin" if self.is_begun else "")

    def follow(self, machine: str) -> None:
        """Keeps another machine's retirement if this one retired to the same plan. If a majority of the cores without this machine's
        retired to one plan, this machine's retire too."""
        said = self.heard[machine]
        alike = [it for it, other in self.heard.items() if other.name == said.name]
        if self.retired is not None and self.retired.digest == said.name:
            if self.is_reported:
                self.keep_following(machine)
        elif self.retired is not None:
            self.log_once(f"{machine} retired at second {said.second} to the plan {said.name[:16]}, and this machine to {self.retired.digest[:16]}")
        elif self.host.plan.is_majority(self.content.count_cores(alike)):
            self.follow_majority(said)
        else:
            self.log_once(f"{machine} retired at second {said.second} to the plan {said.name[:16]}: this machine retires by `ksi-service succeed`, or after a majority")

    def follow_majority(self, said: Said) -> None:
        """A majority retired: this machine's cores can decide nothing after that second any more."""
        try:
            self.retire(said.content, said.way)
        except HasFacts as reason:
            self.host.fail(NotRetired(f"a majority of the cores retired at second {said.second}, and this machine's do not: {reason}. It takes no part any more"))
        except NotRetired as reason:
            self.log_once(f"a majority of the cores retired at second {said.second} to the plan {said.name[:16]}: {reason}")

    def log_once(self, text: str) -> None:
        if text not in self.logged:
            self.logged.add(text)
            log.warning("%s", text)

    # reports of this machine

    def fields(self) -> Optional[Dict[str, Any]]:
        """The report of this machine: of this plan, or else of the plan before."""
        if self.retired is not None and self.is_reported:
            content = content_in(self.following)
            return {"of": self.name, "second": self.retired.second, "next": self.retired.digest, "plan": content.plan.text(), "machines": content.machines, "ended": False, "known": sorted(self.followed), **self.way.ways}
        return self.fields_of_before()

    def fields_of_before(self) -> Optional[Dict[str, Any]]:
        if self.before is None or self.host.places.is_gateway or self.before.machine_of(self.me) not in self.kept:
            return None
        return {"of": self.before.name, "second": self.host.plan.start - 1, "next": self.name, "plan": self.content.plan.text(), "machines": self.content.machines, "ended": True, "known": sorted(self.kept), **self.before.ways}

    def answer(self, machine: str) -> None:
        """Reports to a machine of the plan before, or to one that lacks retirements, that this machine retired to this plan."""
        fields = self.fields_of_before()
        now = time.monotonic()
        if fields is not None and now - self.answered.get(machine, float("-inf")) >= SAY_SECONDS:
            self.answered[machine] = now
            self.host.send(machine, ["retired", fields])

    def see_other_plan(self, machine: str) -> None:
        """A machine runs another plan. It may be the one before, if the machine was away."""
        if self.before is not None and machine in self.before.content.nodes:
            self.answer(machine)

    async def run(self) -> None:
        """Reports to the other machines, retires at the agreed end, and notes when this host is to end."""
        said = seen = float("-inf")
        while True:
            if time.monotonic() - seen >= SAY_SECONDS:
                seen = time.monotonic()
                self.see_end()
            if self.retired is not None and self.is_reported:
                if time.monotonic() - said >= SAY_SECONDS:
                    said = time.monotonic()
                    self.say()
                for machine in [it for it, other in self.heard.items() if other.name == self.retired.digest]:
                    self.keep_following(machine)
                if not self.over.done() and self.may_end():
                    self.over.set_result(self.following)
            await asyncio.sleep(LOOK_SECONDS)

    def say(self) -> None:
        """Reports to the other machines; to gateways less often, since the files are large. A gateway has no core, and nobody needs its report."""
        fields = self.fields()
        machines = [] if self.host.places.is_gateway else list(self.host.trusted)
        if time.monotonic() - self.said_below >= SAY_BELOW_SECONDS:
            self.said_below = time.monotonic()
            machines += self.host.links.names
        for machine in machines:
            self.host.send(machine, ["retired", fields])

    # the end of this host

    def is_followed(self) -> bool:
        """Whether the folder of the plan after has retirements of enough machines."""
        return self.way.is_over(self.followed) and (self.retired is None or self.retired.digest not in self.never.names)

    def may_end(self) -> bool:
        """Whether this host is to end: the plan after may begin, and there is nothing left to do for this one, or nothing that can be done."""
        if not self.is_followed() or self.host.now() <= self.retired.second + 1:
            return False
        if not self.has_all():
            return bool(self.way.lost) or self.is_stuck()
        self.finished = self.finished or time.monotonic()
        return not self.others_lack() or time.monotonic() - self.finished > OTHERS_SECONDS

    def has_all(self) -> bool:
        """Whether this machine's cores hold all seconds up to the last, and this machine has published it."""
        last = self.retired.second
        return not self.host.cores or self.host.published() == last and all(it.next > last for it in self.host.cores.values())

    def others_lack(self) -> bool:
        """Whether another machine is there whose cores lack seconds."""
        return any(second <= self.retired.second for it in self.host.peers.values() if it.is_there for second in it.next.values())

    def is_stuck(self) -> bool:
        """Whether no majority decides this plan's seconds any more: the hosts of too many machines have ended, or are away for long."""
        ended = [machine for machine, said in self.heard.items() if said.ended]
        if not self.host.plan.is_majority(self.host.plan.cores - self.content.count_cores(ended)):
            return self.leaves_undecided("the other machines' hosts of this plan have ended")
        if self.host.view.is_majority():
            self.minority_since = None
            return False
        self.minority_since = self.minority_since or time.monotonic()
        return time.monotonic() - self.minority_since > STUCK_SECONDS and self.leaves_undecided(f"no majority of its cores was there for {STUCK_SECONDS:.0f} seconds")

    def leaves_undecided(self, reason: str) -> bool:
        first = min((it.next for it in self.host.cores.values()), default=self.retired.second)
        log.warning("this machine leaves its plan without all of the seconds %d to %d, or without their publication: %s", first, self.retired.second, reason)
        return True

    def counters(self) -> Dict[str, Any]:
        """For `status`: who retired to which plan."""
        found: Dict[str, Any] = {"plan_name": self.name[:16]}
        if self.before is not None:
            found["plan_before"] = self.before.name[:16]
            found["retired_to_this"] = " ".join(sorted(it or self.before.alone or "this" for it in self.kept)) or "none"
            if self.before.lost:
                found["begun"] = f"{BEGUN}: {' '.join(self.before.lost)} lost after the print of {self.before.printed}"
        retirements = {machine: f"{said.second}:{said.name[:16]}" for machine, said in sorted(self.heard.items())}
        if self.retired is not None:
            retirements[self.me or "this"] = f"{self.retired.second}:{self.retired.digest[:16]}"
        if retirements:
            found["retired"] = retirements
        return {**found, **self.never.counters()}
