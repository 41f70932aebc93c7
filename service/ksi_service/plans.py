"""A plan after another one: the files of a plan that succeeds another, their names, and where its folder is.

The data folder of a plan has the folder of the next plan in `plans/START-DIGEST`, and later plans next to that one. The folder of a plan that
succeeds another has three files more than the first plan's:

    machines       the machines of this plan, unless it has one machine
    succeeds       the plan before: its file, its machines, the origin of that plan, and how this one follows if not in the usual way
    retirements    which machines of the plan before retired to this plan

Once a host has ended for good since its plan was succeeded, its folder has the file `next` with the path of the next plan's folder."""
import hashlib
import json
import os
import re
from dataclasses import dataclass
from functools import cached_property
from typing import Any, Dict, Iterable, List, Optional, Set, Tuple

from . import files
from .errors import NeedsOperator, ServiceError
from .hours import Broken
from .places import Places, machines_in, see_nodes, without_gateways
from .plan import Plan

FOLDER = re.compile(r"[0-9]{1,12}-[0-9a-f]{8}")
MOST_PLANS = 1000

Nodes = Dict[str, Tuple[str, ...]]
"""The nodes of each machine. The only machine of a plan has no name."""


class NotNext(NeedsOperator):
    """A plan may not succeed this one here."""


class Lost(NeedsOperator):
    """The folder of the next plan is not there."""


def name_of(plan: Plan, nodes: Nodes, before: str) -> str:
    """The name of a plan: a digest of its file, of its machines with their nodes, and of the origin of the plan that it succeeds (`Before`),
    or of no name. Addresses and gateways may change and are no part of it. Two plans with the same file on other machines have different names: their cores
    have the same numbers and are other cores."""
    rows = sorted([machine, list(its)] for machine, its in without_gateways(nodes).items())
    return hashlib.sha256(json.dumps(["ksi-plan", plan.text(), rows, before]).encode()).hexdigest()


@dataclass(frozen=True)
class Content:
    """The two files of a plan."""

    plan: Plan
    machines: str
    """The text of the file of machines. It is empty for a plan of one machine."""

    @cached_property
    def nodes(self) -> Nodes:
        return machines_in(self.machines, "the file of machines")[1] if self.machines else Places.alone(self.plan).nodes

    @property
    def addresses(self) -> Dict[str, str]:
        return machines_in(self.machines, "the file of machines")[0]

    def cores_of(self, machine: str) -> Set[str]:
        return {it for it in self.nodes.get(machine, ()) if it[0] == "c"}

    def count_cores(self, machines: Iterable[str]) -> int:
        """How many cores these machines have together."""
        return sum(len(self.cores_of(it)) for it in machines)

    @classmethod
    def of(cls, plan: str, machines: str) -> "Content":
        """Raises NotNext unless the texts are those of a plan and its machines."""
        try:
            made = cls(Plan.parsed(plan, "the plan"), machines)
            if made.plan.text() != plan:
                raise Broken("the file of the plan has other lines than `ksi-service plan` writes")
            see_nodes(made.nodes, made.plan, "the file of machines")
            return made
        except ServiceError as reason:
            raise NotNext(str(reason)) from None


@dataclass(frozen=True)
class Before:
    """The plan that a folder's plan succeeds, and how."""

    content: Content
    before: str
    """The origin of that plan: `origin` of the plan before it, or no name."""
    lost: Tuple[str, ...] = ()
    """Its machines that are lost, if the plan after it begins without a majority (lost.py)."""
    printed: str = ""
    """Then its last print, as a line."""
    alone: str = ""
    """The name that its only machine has in the plan after, if that plan has several."""

    @cached_property
    def name(self) -> str:
        return name_of(self.content.plan, self.content.nodes, self.before)

    @property
    def ways(self) -> Dict[str, Any]:
        """How the plan after follows, if not in the usual way."""
        fields = {"lost": list(self.lost), "print": self.printed, "alone": self.alone}
        return {name: it for name, it in fields.items() if it}

    @cached_property
    def origin(self) -> str:
        """The part of the next plan's name that is about this plan: its name, or a digest of the name and of the unusual way."""
        return hashlib.sha256(json.dumps(["ksi-origin", self.name, self.ways], sort_keys=True).encode()).hexdigest() if self.ways else self.name

    def machine_of(self, machine: str) -> str:
        """The name that a machine of the plan after had in this one."""
        return "" if machine and machine == self.alone else machine

    def is_over(self, retired: Iterable[str]) -> bool:
        """Whether the machines that retired are enough for the plan after to begin: they have a majority of the cores, or all that are
        not lost."""
        if self.lost:
            return {it for it in self.content.nodes if self.content.cores_of(it)} <= {*retired, *self.lost}
        return self.content.plan.is_majority(self.content.count_cores(retired))

    def text(self) -> str:
        return json.dumps({"plan": self.content.plan.text(), "machines": self.content.machines, "before": self.before, **self.ways}, indent=1) + "\n"

    def by(self, fields: Dict[str, Any]) -> "Before":
        """This plan with the way in the fields of a file or a message. Raises TypeError if they are malformed."""
        return Before(self.content, self.before, tuple(sorted(str(it) for it in fields.get("lost", ()))), str(fields.get("print", "")), str(fields.get("alone", "")))

    @classmethod
    def parsed(cls, text: str) -> "Before":
        try:
            fields = json.loads(text)
            return cls(Content.of(fields["plan"], fields["machines"]), str(fields["before"])).by(fields)
        except (AttributeError, KeyError, TypeError, ValueError):
            raise NotNext("the file `succeeds` is damaged: bring it back") from None

    @classmethod
    def read(cls, folder: str) -> Optional["Before"]:
        """The plan before that of a folder, or None if its plan is a first one."""
        content = files.content_of(os.path.join(folder, "succeeds"))
        return None if content is None else cls.parsed(content.decode("ascii", "replace"))


def content_in(folder: str) -> Content:
    """The plan of a folder and its machines."""
    texts = [files.content_of(os.path.join(folder, name)) for name in ("plan", "machines")]
    if texts[0] is None:
        raise NotNext(f"{os.path.join(folder, 'plan')}: no such file; `ksi-service plan` writes it")
    return Content.of(*((it or b"").decode("ascii", "replace") for it in texts))


def data_folder(folder: str) -> str:
    """The data folder of a plan's folder: that of the first plan."""
    folder = os.path.abspath(folder)
    above = os.path.dirname(folder)
    return os.path.dirname(above) if FOLDER.fullmatch(os.path.basename(folder)) and os.path.basename(above) == "plans" else folder


def folder_of(folder: str, start: int, name: str) -> str:
    """The folder of the plan that succeeds a folder's plan."""
    return os.path.join(data_folder(folder), "plans", f"{start}-{name[:8]}")


def write_folder(path: str, content: Content, before: Before) -> None:
    """Makes the folder of a plan that succeeds another. The plan is the last of its files: a folder without it was interrupted."""
    files.make_folder(path)
    files.write(os.path.join(path, "succeeds"), before.text().encode())
    if content.machines:
        files.write(os.path.join(path, "machines"), content.machines.encode())
    files.write(os.path.join(path, "plan"), content.plan.text().encode())


def retirements_in(folder: str) -> Set[str]:
    """The machines of the plan before that retired to a folder's plan, as far as the folder has it."""
    content = files.content_of(os.path.join(folder, "retirements"))
    try:
        return set() if content is None else {str(it) for it in json.loads(content)}
    except (TypeError, ValueError):
        raise NotNext(f"{os.path.join(folder, 'retirements')} is damaged: bring it back") from None


def keep_retirements(folder: str, machines: Set[str]) -> None:
    """They are on the disk afterwards."""
    files.write(os.path.join(folder, "retirements"), json.dumps(sorted(machines)).encode() + b"\n")


def point_to(folder: str, following: str) -> None:
    """Notes that the host of a folder has ended for good, and which folder follows."""
    path = os.path.relpath(os.path.abspath(following), os.path.abspath(folder))
    files.write(os.path.join(folder, "next"), f"{path}\n".encode())


def chain_of(folder: str) -> List[str]:
    """A folder and those of the plans that follow, as far as hosts have ended for good."""
    found = [folder]
    while (content := files.content_of(os.path.join(found[-1], "next"))) is not None and len(found) < MOST_PLANS:
        following = os.path.normpath(os.path.join(found[-1], content.decode("ascii", "replace").strip()))
        if not os.path.exists(os.path.join(following, "plan")):
            raise Lost(f"{following} is not there, and {found[-1]} has ended: bring that folder back")
        found.append(following)
    return found


def newest(folder: str) -> str:
    """The folder of the last plan that was begun over a folder."""
    return chain_of(folder)[-1]
