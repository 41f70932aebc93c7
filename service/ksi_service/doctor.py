"""Looks at a service's folder, whether or not the service runs, and says for each thing whether it is well, and what to do if it is not."""
import os
import time
from typing import Any, Callable, Dict, Iterator, List, NamedTuple, Optional

from . import anchors, clocks, files, hours, plans, programs
from .calendar_files import BadFile, plan_name, roots_in
from .errors import ServiceError
from .left import free_bytes, seconds_left
from .plan import SECONDS, Plan
from .progress import size_of
from .publications import Publications
from .verdicts import date
from .version import PROTOCOL, version

OK, SOON, WRONG = "ok", "soon", "wrong"
"""Well; needs somebody before long; needs somebody now."""
DAY = 86_400
FEW_DAYS = 14
"""How long the room on the disk and the plan should last at least."""
LEAST_BYTES = 1 << 30
OLD_ANCHOR_DAYS = 2
PROGRAMS = ("ksi", "ksi_serve", "ksi_roots", "ksi_print")


class Finding(NamedTuple):
    state: str
    name: str
    text: str
    remedy: str = ""

    @property
    def line(self) -> str:
        return f"{self.state:6} {self.name:13} {self.text}{f': {self.remedy}' if self.remedy else ''}"


class Patient:
    """A service's folder."""

    def __init__(self, folder: str, status: Optional[Dict[str, Any]] = None) -> None:
        self.folder = folder
        self.newest = plans.newest(folder)
        """The folder of the plan that runs, or ran last."""
        self.status = status
        """The counters of the service, if it runs."""

    def findings(self) -> Iterator[Finding]:
        for look in (self.service, self.programs, self.clock, self.disk, self.files, self.plan, self.peers, self.anchor):
            yield from guarded(look)

    def service(self) -> Iterator[Finding]:
        if self.status is not None:
            ready = self.status.get("ready")
            yield Finding(OK if ready else WRONG, "service", f"runs, version {self.status.get('version')}" + ("" if ready else ", and takes no requests"), "" if ready else f"see {os.path.join(self.folder, 'log')}, or the journal")
        elif files.is_held(self.folder):
            yield Finding(SOON, "service", "the folder is in use, and no door is open", "wait until the service has started, or the other command has ended")
        else:
            yield Finding(WRONG, "service", "does not run", f"ksi-service start {self.folder}")

    def programs(self) -> Iterator[Finding]:
        absent = programs.missing(PROGRAMS)
        yield Finding(WRONG, "programs", absent) if absent else Finding(OK, "programs", f"{', '.join(PROGRAMS)} are there; ksi-service is version {version()}")

    def clock(self) -> Iterator[Finding]:
        if self.status is not None and self.status.get("clock", {}).get("fault"):
            yield Finding(WRONG, "clock", self.status["clock"]["fault"])
            return
        report = clocks.kernel_report()
        fault = clocks.ClockCheck(report=lambda: report).fault()
        checked = self.status is None or self.status.get("clock", {}).get("checked", True)
        if fault and not checked:
            yield Finding(SOON, "clock", "runs with --clock-unchecked, and the kernel reports that the clock is not synchronised", "start chrony or another time service")
        elif fault:
            text, _, remedy = fault.partition(": ")
            yield Finding(WRONG, "clock", text, remedy)
        else:
            yield Finding(OK, "clock", f"synchronised, by the kernel's estimate to {report.error:.3f} s")

    def disk(self) -> Iterator[Finding]:
        free = free_bytes({"data": self.folder})["data"]
        grows = bytes_a_day(os.path.join(self.newest, "record"))
        days = free / grows if grows else None
        text = f"{size_of(free)} free" + (f"; the record grows by {size_of(grows)} a day, so the room lasts {days:,.0f} days" if days is not None else "")
        is_low = free < LEAST_BYTES or days is not None and days < FEW_DAYS
        yield Finding(WRONG if free < LEAST_BYTES else SOON if is_low else OK, "disk", text, "make room, or move closed files of the record elsewhere (SERVICE.md, \"The record, and disks\")" if is_low else "")

    def files(self) -> Iterator[Finding]:
        """The files that have a check sum, or a form that shows damage."""
        folder = os.path.join(self.newest, "record")
        closed = hours.names(folder)[:-1]
        digests = hours.see_digests(folder) if closed and hours.discarded(folder) == 0 else 0
        for path in closed if not digests else closed[digests:]:
            for _ in hours.lines_of(path):
                pass
        plan = Plan.read(os.path.join(self.newest, "plan"))
        roots = calendar_files_of(self.newest, plan)
        count = len(Publications(self.folder).published)
        yield Finding(OK, "files", f"the plan, {count} publications, {len(closed)} closed files of the record ({digests} by their digests) and {roots} calendar files are whole")

    def plan(self) -> Iterator[Finding]:
        plan = Plan.read(os.path.join(self.newest, "plan"))
        left = self.status["plan_seconds_left"] if self.status and "plan_seconds_left" in self.status else seconds_left(plan.start + SECONDS - 1, time.time())
        text = f"ends {date(plan.start + SECONDS - 1)}, in {left / DAY:.1f} days"
        if left == 0:
            yield Finding(WRONG, "plan", "is over", "start the service: the next plan follows by itself; or ksi-service succeed (SERVICE.md, \"Years\")")
        elif left < FEW_DAYS * DAY:
            yield Finding(SOON, "plan", text, "the next plan follows by itself, unless the service runs with --succeed-after 0; or ksi-service succeed (SERVICE.md, \"Years\")")
        else:
            yield Finding(OK, "plan", text)

    def peers(self) -> Iterator[Finding]:
        if self.status is None or "machines" not in self.status:
            return
        versions = self.status.get("versions", {})
        for name, state in self.status["machines"].items():
            told = versions.get(name, "unknown")
            if state == "refused":
                yield Finding(WRONG, "machine", f"{name} is refused: its protocol is no neighbour of {PROTOCOL}", "upgrade by one version at a time")
            elif state != "there":
                yield Finding(WRONG, "machine", f"{name} is away since {self.status.get('silent_seconds', {}).get(name, '?')} s", "see its host and the network between")
            elif told != version():
                yield Finding(SOON, "machine", f"{name} has version {told}, and this machine {version()}", "end the upgrade on all machines")
            else:
                yield Finding(OK, "machine", f"{name} is there, version {told}")

    def anchor(self) -> Iterator[Finding]:
        last = Publications(self.folder).last()
        if last is None:
            yield Finding(SOON, "publications", "nothing was published yet", "wait for the first publication (--publish-every)")
            return
        found = anchors.last_in(os.path.join(self.folder, "anchored"))
        if found is None:
            yield Finding(SOON, "anchor", "no publication was kept outside by --on-publication", "start with --on-publication COMMAND, or print `ksi-service publications --print` and run a mirror")
            return
        second, when = found
        days = (time.time() - when) / DAY
        text = f"the publication of second {second} ({date(second)}), kept {date(int(when))}"
        is_old = days > OLD_ANCHOR_DAYS and second < last
        yield Finding(WRONG if is_old else OK, "anchor", text, f"{days:.0f} days ago, and {last} is published since: see why --on-publication fails (log)" if is_old else "")


def guarded(look: Callable[[], Iterator[Finding]]) -> List[Finding]:
    """The findings of a look, or the reason why it failed."""
    try:
        return list(look())
    except (ServiceError, OSError) as fault:
        reason = f"{fault.filename}: {fault.strerror}" if isinstance(fault, OSError) and fault.filename else str(fault)
        return [Finding(WRONG, look.__name__, reason, "bring it back from a backup of this folder, and never start an older folder (SERVICE.md, \"Backup, restore, upgrade\")" if look.__name__ == "files" else "")]


def bytes_a_day(folder: str) -> float:
    """How many bytes a day the closed files of a record have, by their times. 0 if there are too few to say."""
    found = [os.stat(it) for it in hours.names(folder)[:-1]]
    passed = found[-1].st_mtime - found[0].st_mtime if len(found) > 1 else 0.0
    return sum(it.st_size for it in found[1:]) / passed * DAY if passed > 0 else 0.0


def calendar_files_of(folder: str, plan: Plan) -> int:
    """How many calendar files a folder has. Raises Broken if one is damaged."""
    name = plan_name(os.path.join(folder, "plan"), plan.start)
    below = os.path.join(folder, "calendar")
    numbers = sorted(int(it) for it in os.listdir(below) if it.isdigit()) if os.path.isdir(below) else []
    for number in numbers:
        path = os.path.join(below, str(number))
        try:
            roots_in(files.content_of(path) or b"", name, number)
        except BadFile as fault:
            raise hours.Broken(f"{path}: {fault}") from None
    return len(numbers)
