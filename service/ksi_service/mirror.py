"""A mirror of a calendar: it fetches the calendar files of a service, recomputes each publication over one set of roots by the proved
`ksi_roots`, and keeps the roots. It needs no core, and goes on when the service is gone.

The calendar of the mirror ends at the last publication that it recomputed. Later roots are in the views of the sources: they may be wrong,
since nothing shows yet that anybody published them. So a root that the mirror serves never changes.

A mirror goes from plan to plan. It begins with the first plan that its sources list. Once most of those that answer publish a later one, and
the mirror has all publications of its own, it follows the next plan. It keeps and serves the plans from before, and the book (book.py).

A source is at fault if its roots do not give its publications. A fork is two publications that are not of one calendar, each of which the
roots of its source give."""
import concurrent.futures
import hashlib
import logging
import os
import shutil
import time
from typing import Callable, Dict, List, Optional, Sequence, Set

from . import evidence, files, roots
from .calendar_files import SECONDS, Calendar, PlanName
from .earlier import Earlier, all_published, of_mirror, plans_in
from .elements import Malformed
from .errors import NeedsOperator
from .evidence import Fork, Side
from .fetching import Server, Unknown
from .hours import Broken
from .seen import Seen, SeenPublications
from .source import AGREES, FAULTY, FORK, UNKNOWN, Published, Source
from .subtrees import Subtrees

log = logging.getLogger(__name__)

AGAIN_SECONDS = 60
"""How long after it was judged a source that is at fault is judged again."""
LOOK_SECONDS = 120
"""How long publications are recomputed in one look. The rest has its turn in the next one."""


class Damaged(NeedsOperator):
    """The mirror's own files do not give its own publications."""


class Mirror:
    def __init__(self, folder: str, doors: Sequence[str], also: Sequence[str] = (), now: Callable[[], float] = time.time, again: float = AGAIN_SECONDS,
                 all_seconds: Optional[float] = None) -> None:
        self.folder = folder
        self.now = now
        self.again = again
        self.cases_folder = os.path.join(folder, "evidence")
        self.calendar: Optional[Calendar] = None
        self.subtrees: Optional[Subtrees] = None
        self.seen: Optional[SeenPublications] = None
        self.sources = [Source(Server(url, *([all_seconds] if all_seconds else [])), is_door, "") for urls, is_door in ((doors, True), (also, False)) for url in urls]
        self.cases = list(evidence.cases(self.cases_folder))
        self.computed: Dict[int, str] = {}
        """Roots of this calendar that were computed: its confirmed seconds never change."""
        self.fresh: Set[Source] = set()
        """The sources that were fetched past caches in this look."""
        self.looked: Optional[float] = None
        """When the last look ended."""
        self.faults = 0
        self.plans = plans_in(folder)
        """The plans on the disk, one after the other. A plan is there after its first publication: until then a source may have lied."""
        self.is_kept = bool(self.plans)
        """Whether the plan that the mirror follows is on the disk."""
        self.earlier: List[Earlier] = of_mirror(folder, self.plans[:-1])
        """The plans from before."""
        self.after = self.earlier[-1].start if self.earlier else -1
        """The first second of the last plan that is over."""
        if self.plans:
            self.open(self.plans[-1])

    # the files

    def open(self, plan: PlanName) -> None:
        """Opens the calendar of a plan. The views are fetched again: nothing of them was synced."""
        folder = os.path.join(self.folder, plan.digest)
        calendar = Calendar(os.path.join(folder, "calendar"), plan)
        for source in self.sources:
            source.clear()
            source.folder = os.path.join(folder, "views", hashlib.sha256(source.url.encode()).hexdigest()[:16])
        shutil.rmtree(os.path.join(folder, "views"), ignore_errors=True)
        try:
            self.seen = SeenPublications(os.path.join(folder, "publications"))
        except Malformed as fault:
            raise Broken(f"{os.path.join(folder, 'publications')} is damaged: {fault}") from None
        self.calendar = calendar
        self.subtrees = Subtrees(calendar)
        last = self.seen.last()
        if last and (calendar.next <= last or roots.root_if_any(calendar.folder, last) != self.seen.root_of[last]):
            raise Damaged(f"the calendar files in {calendar.folder} do not give the last publication of {self.seen.path}: bring back a copy, or begin a new folder")

    def adopt(self, plan: PlanName) -> None:
        """Begins to follow a plan, in place of one without a publication."""
        if self.calendar is not None:
            shutil.rmtree(os.path.dirname(self.calendar.folder), ignore_errors=True)
        files.make_folder(os.path.join(self.folder, plan.digest))
        self.open(plan)
        log.info("follows the calendar of the plan %s from second %d on", plan.digest, plan.start)

    @property
    def is_frozen(self) -> bool:
        """Whether sources that the mirror follows show two calendars. Then it takes nothing new, and serves the rest on."""
        return any(case["is_door"] for case in self.cases)

    def mine(self, second: int) -> str:
        """The root of this calendar to a second."""
        if second not in self.computed:
            if len(self.computed) > 100_000:
                self.computed.clear()
            self.computed[second] = roots.root(self.calendar.folder, second)
        return self.computed[second]

    # a look at all sources

    def look(self) -> bool:
        """Fetches what is new from all sources, recomputes new publications, and judges sources that differ. Returns whether it went on to
        the next plan."""
        self.fresh = set()
        if not self.is_kept:
            self.find()
        if self.calendar is None:
            return False
        with concurrent.futures.ThreadPoolExecutor(max(1, len(self.sources))) as pool:
            list(pool.map(self.ask, self.sources))
        self.compare(self.confirm())
        self.looked = self.now()
        is_over = self.is_over()
        if is_over:
            self.go_on()
        return is_over

    def is_over(self) -> bool:
        """Whether most of the services that answer publish a later plan, and the mirror has all publications of its own."""
        doors = [it for it in self.sources if it.is_door and it.is_there]
        later = [it for it in doors if it.is_later and it.state == AGREES]
        return not self.is_frozen and 2 * len(later) > len(doors) and all(self.seen.has(*row) for it in later for row in it.published)

    def go_on(self) -> None:
        """Follows the next plan."""
        plan, folder = self.calendar.plan, os.path.dirname(self.calendar.folder)
        shutil.rmtree(os.path.join(folder, "views") if self.is_kept else folder, ignore_errors=True)
        if self.is_kept:
            self.earlier = [*self.earlier, Earlier(self.calendar, self.seen.path, self.mine_published())]
        self.after = plan.start
        self.calendar, self.seen, self.is_kept = None, None, False
        self.computed.clear()
        log.info("the plan %s is over", plan.digest)
        self.find()

    def mine_published(self) -> List[Published]:
        """The publications of the plan that the mirror follows."""
        return sorted((it.second, it.root) for it in self.seen.all) if self.seen else []

    def published(self) -> List[Published]:
        """The publications of all plans."""
        return all_published(self.earlier, self.mine_published())

    def find(self) -> None:
        """Follows the plan that most sources have as the first one, or as the next one."""
        found: List[PlanName] = []
        for source in (it for it in self.sources if it.is_door):
            try:
                found.append(source.find_plan(None, self.after)[0])
            except Unknown as reason:
                self.note(source, UNKNOWN, str(reason))
        if found:
            plan = max(found, key=found.count)
            if self.calendar is None or plan != self.calendar.plan:
                self.adopt(plan)

    def ask(self, source: Source, is_fresh: bool = False) -> bool:
        """Looks at a source. Returns whether it answered."""
        try:
            source.look(self.calendar, is_fresh)
            source.is_there = True
        except Unknown as reason:
            source.is_there = False
            self.note(source, UNKNOWN, str(reason))
        except (ValueError, KeyError, IndexError, TypeError) as error:
            source.is_there = False
            self.note(source, UNKNOWN, f"its answers are malformed: {error}")
        return source.is_there

    def note(self, source: Source, state: str, reason: str = "") -> None:
        """Notes the state of a source, and logs one that is new. A fork stays known until its evidence is moved away."""
        if any(source.url in case["other"]["sources"] for case in self.cases):
            state, reason = FORK, "see the evidence"
        if source.set(state, reason) and state != AGREES:
            log.warning("%s: %s: %s", source.url, state, reason)
        self.faults += state == FAULTY

    # publications

    def confirm(self) -> Set[Source]:
        """Recomputes the publications that are new. Returns the sources that list one which no roots gave."""
        end, suspects = time.monotonic() + LOOK_SECONDS, set()
        for published, listers in sorted(self.listed().items()):
            listers = [it for it in listers if it not in suspects and not self.is_settled(it)]
            if not listers or time.monotonic() > end:
                continue
            if published[0] < self.calendar.next:
                is_given = self.is_mine(published)
            elif self.is_frozen:
                continue
            else:
                is_given = self.advance(published, listers)
            if is_given:
                self.add(published, listers)
            else:
                suspects |= {it for it in listers if it.next > published[0]}
        return suspects

    def listed(self) -> Dict[Published, List[Source]]:
        """The publications that the mirror does not have, with the sources that list them."""
        found: Dict[Published, List[Source]] = {}
        for source in (it for it in self.sources if it.is_there):
            for published in source.published:
                if not self.seen.has(*published):
                    found.setdefault(published, []).append(source)
        return found

    def is_mine(self, published: Published) -> bool:
        """Whether the roots of this calendar give a publication."""
        second, root = published
        return self.seen.root_of.get(second, root) == root and self.mine(second) == root

    def advance(self, published: Published, listers: List[Source]) -> bool:
        """Takes the roots up to a publication from a source whose roots give it. Those that list it are tried first."""
        second, root = published
        for source in [it for it in listers if it.is_door] + [it for it in self.sources if it.is_door and it not in listers]:
            if self.may_give(source, second) and source.first_difference(self.calendar) is None and roots.root_if_any(source.folder, second) == root:
                self.take(source, published)
                return True
        return False

    def may_give(self, source: Source, second: int) -> bool:
        return source.is_there and source.next > second

    def take(self, source: Source, published: Published) -> None:
        """Takes the roots up to a publication that they give, and sees that it extends the last one."""
        second, root = published
        last = self.seen.last()
        self.calendar.add(source.roots_between(self.calendar, self.calendar.next, second))
        self.calendar.flush()
        if roots.root(self.calendar.folder, second) != root or last and roots.root(self.calendar.folder, last) != self.seen.root_of[last]:
            raise Damaged(f"the calendar files in {self.calendar.folder} are no longer those that were written: bring back a copy, or begin a new folder")
        self.computed[second] = root

    def add(self, published: Published, listers: List[Source]) -> None:
        second, root = published
        if not self.is_kept:
            self.plans.append(self.calendar.plan)
            files.write(os.path.join(self.folder, "plan"), "".join(f"{it.digest} {it.start}\n" for it in self.plans).encode())
            self.is_kept = True
        self.seen.add(Seen(second, root, int(self.now()), " ".join(it.url for it in listers)))
        log.info("publication of second %d, root %s, seen at %s", second, root, " ".join(it.url for it in listers))

    # sources that differ

    def is_settled(self, source: Source) -> bool:
        """Whether a source that is at fault or shows a fork was judged a short time ago."""
        return source.state in (FAULTY, FORK) and self.now() - source.judged < self.again

    def compare(self, suspects: Set[Source]) -> None:
        """Judges the sources that differ from this mirror."""
        for source in (it for it in self.sources if it.is_there):
            if self.is_settled(source):
                continue
            if source in suspects or source.first_difference(self.calendar) is not None:
                self.judge(source)
            else:
                self.note(source, AGREES)

    def judge(self, source: Source) -> None:
        """Finds out whether a source shows a fork, is at fault, or had only old copies. All sources are fetched past caches first."""
        for it in [it for it in self.sources if it.is_there and it not in self.fresh]:
            self.fresh.add(it)
            self.ask(it, True)
        if not source.is_there:
            return
        source.judged = self.now()
        second = source.first_difference(self.calendar)
        if second is None:
            self.judge_list(source)
        else:
            self.judge_roots(source, second)

    def judge_list(self, source: Source) -> None:
        """Judges a source whose roots are this mirror's, by its publications."""
        for published in (it for it in source.published if not self.seen.has(*it) and it[0] < source.next):
            if published[0] < self.calendar.next and self.is_mine(published):
                continue
            giver = next((it for it in self.sources if self.may_give(it, published[0]) and roots.root_if_any(it.folder, published[0]) == published[1]), None)
            if giver is None:
                self.note(source, FAULTY, f"no roots give its publication of second {published[0]}")
                return
            if giver.first_difference(self.calendar) is not None:
                self.found(source, published, giver)
                return
        self.note(source, AGREES)

    def judge_roots(self, source: Source, second: int) -> None:
        """Judges a source whose root of a second is another one, by its publications from that second on."""
        covering = [it for it in source.published if second <= it[0] < source.next]
        for published in covering[:1] + covering[1:][-1:]:
            if roots.root_if_any(source.folder, published[0]) == published[1]:
                self.found(source, published, source)
                return
        if covering:
            self.note(source, FAULTY, f"its roots do not give its publication of second {covering[0][0]}")
        else:
            self.note(source, UNKNOWN, f"its root of second {second} is another one, and it has no publication that covers it yet")

    def found(self, source: Source, published: Published, giver: Source) -> None:
        """Keeps the evidence of a fork: the publication of a source, which the roots of `giver` give, and one of this mirror."""
        second = giver.first_difference(self.calendar)
        if second > self.seen.last():
            # the mirror ended before it wrote the publication that its roots gave
            self.note(source, UNKNOWN, f"its root of second {second} is another one, and no publication of this mirror covers that second")
            return
        is_known = any(source.url in case["other"]["sources"] and case["differ_from"] == second for case in self.cases)
        if not is_known and len(self.cases) < evidence.MOST_CASES:
            path = evidence.write(self.cases_folder, self.fork_of(source, published, giver, second))
            self.cases = list(evidence.cases(self.cases_folder))
            log.error("%s says that the calendar is another one from second %d on: see %s", source.url, second, path)
        self.note(source, FORK)

    def fork_of(self, source: Source, published: Published, giver: Source, second: int) -> Fork:
        mine = self.seen.first_from(second)
        number = second // SECONDS
        older, newer = sorted([mine[0], published[0]])
        view = self.calendar.folder if newer == mine[0] else giver.folder
        front = b"" if older == newer else roots.front(view, older, newer)
        seen = self.seen.sources_of(mine[0])
        one = Side([it.source for it in seen], min(it.time for it in seen), *mine, self.seen.content, self.calendar.file_roots(number))
        names = [source.url] + ([f"{giver.url} (its roots)"] if giver is not source else [])
        other = Side(names, int(self.now()), *published, source.list, giver.file_roots(self.calendar, number))
        return Fork(self.calendar.plan, second, number, source.is_door or giver.is_door, one, other, front)
