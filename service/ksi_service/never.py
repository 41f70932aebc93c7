"""A next plan that got no majority is given up: its hosts record that they never start it. Then the machines that retired to it are free.

A machine that retired votes no more, and retires once. So machines that retired to different plans may leave each of them without a
majority. `succeed --never` asks every machine of such a plan that has a core whether it holds enough retirements to begin. If none does, it has each of
them record that it never starts the plan, in a file `never` of the plan's folder. With that of all of them, no core of the plan is ever
given a line, so the machine that asks may vote again and retire anew. If one of them does not answer, nothing changes.

Between machines go `["never", {"of": NAME, "next": NAME, "start": SECOND, "record": BOOL}]`, the question, and
`["nevered", {"next": NAME, "record": BOOL, "held": BOOL}]`, the answer, in which `held` is whether the machine holds enough retirements.
`["freed", {"next": NAME}]` tells the machines of the old plan that the sender's retirement no longer counts."""
import asyncio
import glob
import logging
import os
import re
from typing import Any, Dict, List, Optional, Set, Tuple

from . import files
from .errors import NeedsOperator
from .inbox import number_in
from .plans import Before, Content, folder_of, name_of

log = logging.getLogger(__name__)

NAME = "never"
ANSWER_SECONDS, AGAIN_SECONDS = 10.0, 0.5
"""How long answers are waited for, and how often a question is sent meanwhile."""
DIGEST = re.compile("[0-9a-f]{64}")
MOST_NAMES = 64
"""How many plans a machine gives up."""


class NotGivenUp(NeedsOperator):
    """Why a plan is not given up."""


def is_never(folder: Optional[str]) -> bool:
    """Whether a plan's folder says that its host never starts it."""
    return folder is not None and os.path.exists(os.path.join(folder, NAME))


def record(folder: str, name: str) -> None:
    """It is on the disk afterwards."""
    files.make_folder(folder)
    files.write(os.path.join(folder, NAME), f"{name}\n".encode())


def recorded(folder: str) -> Set[str]:
    """The plans that the host of a folder gave up."""
    found = glob.glob(os.path.join(os.path.dirname(folder_of(folder, 0, "")), "*", NAME))
    return {(files.content_of(it) or b"").decode("ascii", "replace").strip() for it in found}


class Never:
    """Plans that are given up, as the host of one machine knows them."""

    def __init__(self, succession) -> None:
        self.succession = succession
        self.host = succession.host
        self.is_mine = is_never(self.host.folder)
        """Whether this host's own plan is given up."""
        self.names = recorded(self.host.folder)
        """The plans after this one that are given up."""
        self.told: Dict[Tuple[str, bool, str], bool] = {}
        """By plan, kind of question and machine: whether it holds enough retirements."""

    # the side that answers

    def holds(self, of: str, name: str) -> bool:
        """Whether this machine holds enough retirements for a plan to begin, or cannot say that it does not."""
        it = self.succession
        if it.name == name:
            return it.is_begun
        if it.name == of:
            return it.retired is not None and it.retired.digest == name and it.is_followed()
        return it.before is None or it.before.name != of

    def record(self, of: str, name: str, start: int) -> None:
        """Records that this machine never starts a plan."""
        if self.succession.name == name:
            record(self.host.folder, name)
            self.is_mine = True
            self.succession.is_begun = False
            log.warning("this plan is given up: it never begins")
        else:
            record(folder_of(self.host.folder, start, name), name)
            self.names.add(name)
            log.warning("this machine never starts the plan %s", name[:16])

    def asked(self, machine: str, fields: Dict[str, Any]) -> None:
        """Another machine asks."""
        of, name, start = str(fields["of"]), str(fields["next"]), number_in(fields["start"])
        if machine not in self.host.outbox.queues or not DIGEST.fullmatch(name) or len(self.names) >= MOST_NAMES:
            raise ValueError("not a machine of this plan, or not a plan's name")
        held = self.holds(of, name)
        if fields["record"] and not held:
            self.record(of, name, start)
        self.host.send(machine, ["nevered", {"next": name, "record": bool(fields["record"]), "held": held}])

    # the side that asks

    def answered(self, machine: str, fields: Dict[str, Any]) -> None:
        self.told[str(fields["next"]), bool(fields["record"]), machine] = bool(fields["held"])

    async def give_up(self, content: Content, way: Optional[Before]) -> str:
        """Has all machines of a plan record that they never start it, and frees this machine if it retired to it. Returns the plan's
        name. Raises NotGivenUp if nothing changed."""
        it = self.succession
        made = Before(it.content, it.origin, *((way.lost, way.printed, way.alone) if way else ()))
        name = name_of(content.plan, content.nodes, made.origin)
        # a machine without a core gives no core a line
        others = [machine for machine in content.nodes if machine != it.me and content.cores_of(machine)]
        if not self.host.peers:
            raise NotGivenUp("a plan of one machine is followed by its own retirement alone, which nothing takes back")
        if self.holds(it.name, name):
            raise NotGivenUp("this machine holds retirements of a majority: the plan begins")
        know(self.host, {machine: address for machine, address in content.addresses.items() if machine in others})
        for is_record in (False, True):
            self.see(await self.ask(others, name, content.plan.start, is_record), others, is_record)
            if is_record:
                # the retirements that this machine holds may have become enough meanwhile
                if self.holds(it.name, name):
                    raise NotGivenUp("this machine holds retirements of a majority by now: the plan may begin")
                self.record(it.name, name, content.plan.start)
        self.free(name)
        return name

    async def ask(self, machines: List[str], name: str, start: int, is_record: bool) -> Dict[str, bool]:
        """The answers of machines, within some seconds."""
        question = {"of": self.succession.name, "next": name, "start": start, "record": is_record}
        keys = {machine: (name, is_record, machine) for machine in machines}
        for key in keys.values():
            self.told.pop(key, None)
        end = asyncio.get_running_loop().time() + ANSWER_SECONDS
        while not all(key in self.told for key in keys.values()) and asyncio.get_running_loop().time() < end:
            for machine in (it for it, key in keys.items() if key not in self.told):
                self.host.send(machine, ["never", question])
            await asyncio.sleep(AGAIN_SECONDS)
        return {machine: self.told[key] for machine, key in keys.items() if key in self.told}

    def see(self, answers: Dict[str, bool], machines: List[str], is_record: bool) -> None:
        """Raises NotGivenUp unless all machines answered, and none holds enough retirements."""
        changed = "some of the others recorded that they never start it: ask again" if is_record else "nothing changed"
        silent = [it for it in machines if it not in answers]
        holders = [it for it in machines if answers.get(it)]
        if silent:
            raise NotGivenUp(f"{' '.join(silent)} does not answer, and has to record that it never starts that plan: {changed}")
        if holders:
            raise NotGivenUp(f"{' '.join(holders)} holds retirements of a majority, or runs that plan: {changed}")

    def free(self, name: str) -> None:
        """Frees this machine's cores, if they retired to a plan that never begins."""
        it = self.succession
        if it.retired is None or it.retired.digest != name:
            return
        log.warning("this machine's cores are free: their retirement at second %d counts no more", it.retired.second)
        self.host.record.add(["freed", *it.retired])
        it.forget_following()
        for machine in self.host.peers:
            self.host.send(machine, ["freed", {"next": name}])

    def freed(self, machine: str, fields: Dict[str, Any]) -> None:
        """Another machine of this plan is free."""
        said = self.succession.heard.get(machine)
        if said is not None and said.name == fields["next"]:
            del self.succession.heard[machine]

    def counters(self) -> Dict[str, Any]:
        """For `status`."""
        found: Dict[str, Any] = {"never": "this plan is given up: it never begins"} if self.is_mine else {}
        return {**found, **({"given_up": " ".join(sorted(it[:16] for it in self.names))} if self.names else {})}


def know(host, addresses: Dict[str, str]) -> None:
    """Lets the host talk to further machines."""
    for machine in addresses.keys() - host.outbox.queues.keys():
        host.carrier.add(machine, addresses[machine])
        host.outbox.add(machine)
