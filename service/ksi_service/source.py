"""A source of a mirror: a service's HTTP server, or another mirror. Its view is a folder of the calendar files that it serves. Files that are
the mirror's own are links to these."""
import hashlib
import json
import os
import shutil
from typing import Any, Dict, List, Optional, Set, Tuple

from . import files
from .calendar_files import IMPRINT, MOST_FILE, SECONDS, BadFile, Calendar, PlanName, first_difference, numbers_between, packed, roots_in
from .elements import Malformed, published_in
from .fetching import Server, Unknown
from .plan import SECONDS as MOST_SECONDS

MOST_LIST, MOST_PUBLICATIONS = 1 << 20, 64 << 20
AGREES, UNKNOWN, FAULTY, FORK = "agrees", "unknown", "faulty", "fork"
"""What a source does: it agrees, or nothing is known of it, or its roots do not give its publications, or it shows another calendar."""
STATES = (AGREES, UNKNOWN, FAULTY, FORK)

Published = Tuple[int, str]


def plans_in(content: bytes) -> List[Tuple[PlanName, int]]:
    """The calendars of a listing, each with the first second that it lacks. Raises Unknown if it is malformed."""
    try:
        found = [(PlanName(it["plan"], it["start"]), it["next"]) for it in json.loads(content)["calendars"]]
    except (ValueError, KeyError, TypeError, RecursionError):
        raise Unknown("its list of calendars is malformed") from None
    for plan, after in found:
        is_plan = isinstance(plan.digest, str) and len(plan.digest) == 64 and not set(plan.digest) - set("0123456789abcdef")
        if not is_plan or type(plan.start) is not int or type(after) is not int or not 0 <= plan.start <= after <= plan.start + MOST_SECONDS < 1 << 63:
            raise Unknown("its list of calendars is malformed")
    return found


class Source:
    def __init__(self, server: Server, is_door: bool, folder: str) -> None:
        self.server = server
        self.url = server.url
        self.is_door = is_door
        """Whether the mirror takes roots from it. From another mirror it takes none."""
        self.folder = folder
        self.state = UNKNOWN
        self.reason = "not asked yet"
        self.next = 0
        """The first second that its view lacks."""
        self.full_to = 0
        """The files below this number are there and full."""
        self.turn = 0
        """Counts looks, to fetch one full file after the other again."""
        self.listed: List[PlanName] = []
        """The plans that it lists."""
        self.found: List[Published] = []
        """The publications of all plans in its list."""
        self.published: List[Published] = []
        """Those of the plan that the mirror follows."""
        self.is_later = False
        """Whether it published something of a later plan."""
        self.list = b""
        """Its publications file."""
        self.etag = ""
        self.judged = float("-inf")
        """When it was last judged."""
        self.is_there = False
        """Whether the last look at it succeeded."""
        self.own: Set[int] = set()
        """The files of its view that are no links."""

    def set(self, state: str, reason: str = "") -> bool:
        """Notes a state. Returns whether it is another one."""
        is_new = (state, reason) != (self.state, self.reason)
        self.state = state
        self.reason = reason
        return is_new

    # fetching

    def find_plan(self, wanted: Optional[PlanName], after: int = -1) -> Tuple[PlanName, int]:
        """The plan that the mirror follows, or the first one that begins after a second, with the first second that the source lacks."""
        fetched = self.server.get("/v1/calendar", MOST_LIST, is_fresh=True)
        if fetched is None:
            raise Unknown("it serves no calendar")
        found = plans_in(fetched.content or b"")
        self.listed = [it for it, _ in found]
        chosen = [it for it in found if it[0] == wanted or wanted is None and it[0].start > after]
        if not chosen:
            raise Unknown(f"it has no calendar of the plan {wanted.digest}" if found and wanted else "it serves no calendar yet")
        return min(chosen, key=lambda it: it[0].start)

    def look(self, calendar: Calendar, is_fresh: bool = False) -> None:
        """Fetches its publications and the files that its view lacks; if fresh, all of them past caches. Raises Unknown if it cannot."""
        plan = calendar.plan
        _, after = self.find_plan(plan)
        self.fetch_publications(is_fresh)
        self.choose(plan)
        end = (after - 1) // SECONDS + 1 if after > plan.start else plan.first_file()
        if is_fresh:
            self.leave_out(plan, end)
        try:
            os.makedirs(self.folder, exist_ok=True)
            for number in self.wanted(plan, end):
                self.fetch_file(calendar, number, is_fresh)
            last = self.file_roots(calendar, end - 1) if end > plan.first_file() else b""
            self.next = plan.first_of(end - 1) + len(last) // IMPRINT if last else plan.start
        except BadFile as fault:
            raise Unknown(f"a calendar file of it is malformed: {fault}") from None

    def wanted(self, plan: PlanName, end: int) -> List[int]:
        """The files to fetch: those that are not full yet, and in turn one that is, since nobody but a liar would change it."""
        first = max(self.full_to, plan.first_file())
        full = first - plan.first_file()
        self.turn += 1
        return [*([plan.first_file() + self.turn % full] if full and first <= end else []), *range(first, end)]

    def leave_out(self, plan: PlanName, end: int) -> None:
        """Begins to fetch all files again, and drops those that the source no longer has."""
        self.full_to = plan.first_file()
        for name in os.listdir(self.folder) if os.path.isdir(self.folder) else []:
            if not name.isdigit() or int(name) >= end:
                files.remove(os.path.join(self.folder, name))
        self.own = {it for it in self.own if it < end}

    def choose(self, plan: PlanName) -> None:
        """Chooses the publications of a plan: those of the others are not of its calendar."""
        after = min((it.start for it in self.listed if it.start > plan.start), default=plan.start + MOST_SECONDS)
        self.published = sorted(it for it in self.found if plan.start <= it[0] < after)
        self.is_later = any(second >= after for second, _ in self.found)

    def fetch_publications(self, is_fresh: bool) -> None:
        fetched = self.server.get("/publications", MOST_PUBLICATIONS, "" if is_fresh else self.etag, is_fresh)
        if fetched is None:
            self.forget_publications()
            return
        if fetched.content is None:
            return
        try:
            found = published_in(fetched.content)
            if any(len(root) != 64 for _, root in found):
                raise Malformed("a root is no imprint")
        except (Malformed, IndexError):
            raise Unknown("its publications file is malformed") from None
        self.found = found
        self.list = fetched.content
        self.etag = fetched.etag

    def fetch_file(self, calendar: Calendar, number: int, is_fresh: bool) -> None:
        plan, full = calendar.plan, calendar.plan.full(number) * IMPRINT
        have = self.file_roots(calendar, number)
        own = calendar.served(number)
        etag = digest_of_roots(plan, number, have) if have else own.digest if own else ""
        fetched = self.server.get(f"/v1/calendar/{plan.digest}/{number}", MOST_FILE, etag, is_fresh)
        if fetched is None:
            raise Unknown(f"it does not serve calendar file {number}")
        if fetched.content is not None:
            roots = roots_in(fetched.content, plan, number)
            if have and not is_fresh and roots != have:
                if len(roots) < len(have) and first_difference(roots, have) is None:
                    # a cache returned an older one
                    return
                if first_difference(roots, have) is not None:
                    fetched = self.server.get(f"/v1/calendar/{plan.digest}/{number}", MOST_FILE, "", True)
                    roots = roots_in(fetched.content if fetched else b"", plan, number)
            have = self.keep(calendar, number, roots)
        elif not have:
            have = calendar.file_roots(number)
            self.keep(calendar, number, have)
        if len(have) == full and number == max(self.full_to, plan.first_file()):
            self.full_to = number + 1

    def keep(self, calendar: Calendar, number: int, roots: bytes) -> bytes:
        """Puts a file into the view: a link if it is a full file of the mirror with the same roots."""
        path, made = self.path(number), self.path(number) + ".new"
        is_full = len(roots) == calendar.plan.full(number) * IMPRINT
        files.remove(made)
        if is_full and number < calendar.number and calendar.file_roots(number) == roots:
            os.link(calendar.path(number), made)
            self.own.discard(number)
        else:
            with open(made, "wb") as file:
                file.write(packed(calendar.plan, number, roots))
            self.own.add(number)
        os.replace(made, path)
        return roots

    # the view

    def path(self, number: int) -> str:
        return os.path.join(self.folder, str(number))

    def file_roots(self, calendar: Calendar, number: int) -> bytes:
        """The imprints of a file of the view, or none if it is not there."""
        content = files.content_of(self.path(number))
        return roots_in(content, calendar.plan, number) if content else b""

    def first_difference(self, calendar: Calendar) -> Optional[int]:
        """The first second whose root here is another one than the mirror's."""
        for number in sorted(self.own):
            roots = self.file_roots(calendar, number)
            place = first_difference(roots, calendar.file_roots(number))
            if place is not None:
                return calendar.plan.first_of(number) + place
            if number < calendar.number and len(roots) == calendar.plan.full(number) * IMPRINT:
                # it is compared once
                self.keep(calendar, number, roots)
        return None

    def roots_between(self, calendar: Calendar, first: int, last: int) -> bytes:
        """The imprints of some seconds."""
        return b"".join(self.file_roots(calendar, number)[begin * IMPRINT:end * IMPRINT] for number, begin, end in numbers_between(calendar.plan, first, last))

    def clear(self) -> None:
        """Forgets the view. It is fetched again."""
        if self.folder:
            shutil.rmtree(self.folder, ignore_errors=True)
        self.own = set()
        self.full_to = 0
        self.next = 0
        self.forget_publications()

    def forget_publications(self) -> None:
        """Forgets the publications. They are fetched again."""
        self.found = []
        self.published = []
        self.list = b""
        self.etag = ""

    def told(self) -> Dict[str, Any]:
        """Its state for `status`."""
        return {"url": self.url, "is_door": self.is_door, "state": self.state, "reason": self.reason, "next": self.next,
                "last_publication": max((second for second, _ in self.published), default=0)}


def digest_of_roots(plan: PlanName, number: int, roots: bytes) -> str:
    return hashlib.sha256(packed(plan, number, roots)).hexdigest()
