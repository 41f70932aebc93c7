"""Saves what keeps old signatures useful after the loss of a folder: while the service runs, or after it is stopped.

- The seconds that its cores hold as mirrors: each core's own, merged by `ksi merge`, and their journal by `ksi whole`. A file of `ksi` has at
  most 64 MiB, so mirrors are made of a fixed number of seconds each. The journal of the first part is from the plan's start on, as `ksi
  extend` and `ksi audit` need it.
- The plan, the publications, and the closed files of the record.

The publications are copied before the cores are asked. So the mirrors hold every second that a copied publication covers. Nothing is
saved from which a node could go on: no facts, and no identity.

A backup is made of folders of a service, and of other backups: each machine makes one of its own folder, and these are merged."""
import contextlib
import itertools
import os
import shutil
from typing import Callable, List, Optional, Sequence, Union

from . import files, hours, items
from .asking import AT_ONCE, Running, answers
from .elements import Malformed, mirror_file, published_in
from .errors import ServiceError
from .folders import Folders, NotOneRun
from .plan import Plan
from .proved import Refused, Stopped, ksi
from .record import last_state

SECONDS = 1 << 17
"""The seconds of a part: 36 hours, 14 MB with one aggregator below each core that leads."""
HOURS = "hours"
"""The folder of a backup with the closed files of a record."""


class NotSaved(ServiceError):
    """Nothing was found to save."""


class WithoutJournal(Refused):
    """A mirror lacks the parts of its journal."""


def rows_of(core, first, last):
    """A core's rows for the seconds from `first` to `last`."""
    rows = []
    for second in range(first, last + 1, AT_ONCE):
        told = core.ask(f"held {second} {min(AT_ONCE, last + 1 - second)}")
        if told == ["refused word"]:
            raise Refused(1, "the program of the cores does not answer `held`")
        rows += [row.split(" ") for row in told]
    return rows


def parts(plan, last):
    """The first and last second of each part."""
    return [(first, min(first + SECONDS - 1, last)) for first in range(plan.start, last + 1, SECONDS)]


def is_backup(path: str) -> bool:
    """Whether a folder has mirrors that were saved, and is no folder of a service."""
    return os.path.exists(os.path.join(path, "mirror.0")) and not any(it.endswith(".facts") for it in os.listdir(path))


def core_of(path: str, name: str) -> Union[Running, Stopped]:
    """A core of a folder, which answers questions."""
    return Running(path, name) if answers(path) else Stopped(path, name)


def last_second(path: str) -> int:
    """The last second that a backup of a folder has: of a running service the last up to which one of its cores holds all."""
    if not answers(path):
        return last_state(os.path.join(path, "record"))[0].second
    with Running(path) as service:
        return service.second()


class Backup:
    """The mirrors of a folder that grows by one source after the other."""

    def __init__(self, out: str, last: int, say: Callable) -> None:
        self.out = out
        self.last = last
        self.say = say
        self.made = 0
        """How many parts have a mirror."""
        self.reason: Optional[Refused] = None
        """Why the last core was left out."""
        files.make_folder(out)

    def at(self, *names: str) -> str:
        return os.path.abspath(os.path.join(self.out, *names))

    def add_core(self, path: str, number: int) -> None:
        """Adds the mirrors of a core of a service's folder. A core whose file cannot be read is left out."""
        with contextlib.ExitStack() as opened:
            try:
                core = opened.enter_context(core_of(path, f"c{number}"))
                for part, content in enumerate(mirrors(core, Plan.read(os.path.join(path, "plan")), number, self.last)):
                    self.add(part, content, f"core {number}")
            except Refused as why:
                self.reason = why
                self.say(f"core {number} is left out: {why}")

    def add_backup(self, path: str) -> None:
        """Adds the mirrors of another backup."""
        for part in itertools.count():
            content = files.content_of(os.path.join(path, f"mirror.{part}"))
            if content is None:
                return
            self.add(part, content, path)

    def add_files(self, path: str) -> None:
        """Copies the plan and the publications of a folder of a service, or of another backup."""
        plan, known = (files.content_of(os.path.join(it, "plan")) for it in (path, self.out))
        if plan is not None and plan != known:
            if known is not None:
                raise NotOneRun(f"{self.out} is a backup of another plan than {path}: save this one in another folder")
            files.write(self.at("plan"), plan)
        content, kept = (files.content_of(os.path.join(it, "publications")) for it in (path, self.out))
        if content is None or content == kept:
            return
        try:
            ours, theirs = published_in(kept) if kept else [], published_in(content)
        except Malformed as fault:
            raise NotSaved(f"the publications of {path} or of {self.out} are damaged: {fault}") from None
        short, long = sorted((ours, theirs), key=len)
        if long[:len(short)] != short:
            raise NotOneRun(f"{path} and {self.out} have different publications: keep both")
        if len(theirs) > len(ours):
            files.write(self.at("publications"), content)

    def add_hours(self, path: str) -> None:
        """Copies the files of a record to which nothing is added any more, and which the backup does not have."""
        files.make_folder(self.at(HOURS))
        count = 0
        for name in hours.names(os.path.join(path, "record"))[:-1]:
            number = os.path.basename(name)[:8]
            if not any(os.path.exists(self.at(HOURS, number + end)) for end in ("", ".gz")):
                count += self.add_hour(os.path.join(path, "record", number), number)
        self.say(f"copied {count} closed files of the record")

    def add_hour(self, path: str, number: str) -> int:
        """Copies a file of a record, compressed if it is. A running service may compress it just now."""
        for end in (".gz", "", ".gz"):
            made = self.at(HOURS, f"{number}{end}.new")
            try:
                shutil.copyfile(path + end, made)
            except FileNotFoundError:
                files.remove(made)
                continue
            files.keep(made, self.at(HOURS, number + end))
            return 1
        return 0

    def add(self, part: int, content: bytes, source: str) -> None:
        """Merges a mirror of a part with those that were added, or begins the part with it."""
        mirror = self.at(f"mirror.{part}")
        if part == self.made:
            files.write(mirror, content)
            self.made += 1
            return
        files.write(self.at("other"), content)
        try:
            self.say(f"part {part}, {source}: {ksi('merge', mirror, self.at('other'), mirror)}")
        finally:
            files.remove(self.at("other"))

    def part_of(self, plan: Plan, second: int) -> int:
        """Which part has a second."""
        return (second - plan.start) // SECONDS

    def make_journals(self, absent: bool) -> None:
        """Makes the journal of each part. Without the cores of other machines there may be none yet."""
        for part in range(self.made):
            try:
                self.say(f"part {part}: {whole(self.at(f'mirror.{part}'), self.at(f'journal.{part}'))}")
            except WithoutJournal as reason:
                if not absent:
                    raise
                self.say(f"{reason}; merge it with the mirrors of the other machines")


def add_folders(backup: Backup, paths: List[str]) -> bool:
    """Adds the cores of folders of a service. Returns whether none of the folders has one of the plan's cores."""
    folders = Folders(paths)
    absent = [number for number in range(folders.plan.cores) if f"c{number}" not in folders.of_node]
    for number in range(folders.plan.cores):
        if number in absent:
            backup.say(f"core {number} is left out: {' and '.join(paths)} {'has' if len(paths) == 1 else 'have'} no facts of c{number}")
        else:
            backup.add_core(folders.of_node[f"c{number}"], number)
    return bool(absent)


def make(sources: Union[str, Sequence[str]], out: str, last: int, say: Callable = print) -> None:
    """Saves OUT/mirror.N and OUT/journal.N for each part, up to second `last`, of folders of a service and of other backups, their plan and
    publications, and the closed hours of one folder's record."""
    paths: List[str] = [sources] if isinstance(sources, str) else list(sources)
    backup = Backup(out, last, say)
    folders = [it for it in paths if not is_backup(it)]
    for path in paths:
        if os.path.realpath(path) != os.path.realpath(out):
            backup.add_files(path)
    if len(paths) == len(folders) == 1 and os.path.isdir(os.path.join(paths[0], "record")):
        backup.add_hours(paths[0])
    absent = add_folders(backup, folders) if folders else True
    for path in paths:
        if is_backup(path):
            backup.add_backup(path)
    if not backup.made and backup.reason is None and folders and is_of_gateway(folders):
        say("a gateway has no core: its plan and its record are saved, and the mirrors are in the backups of the cores' machines")
        return
    if not backup.made:
        raise backup.reason or NotSaved(f"none of {' '.join(paths)} has a core")
    try:
        backup.make_journals(absent and not folders)
    except WithoutJournal:
        if not folders:
            raise
        # of seconds that they forgot cores keep the root alone
        items.add_lists(backup, folders)
        backup.make_journals(absent)


def is_of_gateway(paths: List[str]) -> bool:
    """Whether folders have aggregators and no core."""
    nodes = Folders(paths).of_node
    return bool(nodes) and all(it[0] == "a" for it in nodes)


def whole(mirror: str, journal: str) -> str:
    """Makes the journal of a mirror. Only the file of the core that sealed a second has the items of its root."""
    try:
        return ksi("whole", mirror, journal)
    except Refused as refused:
        if refused.line.startswith("refused M4 "):
            raise WithoutJournal(refused.status, f"{mirror} is saved, and has no journal: no core's file has the items of some second ({refused})") from None
        raise


def mirrors(core, plan, number, last):
    """A core's mirrors, one for each part."""
    for first, end in parts(plan, last):
        yield mirror_file(plan.start, number, rows_of(core, first, end))
