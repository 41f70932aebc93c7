"""The evidence of a fork: two publications that are not of one calendar, with their sources and times. It shows two views of one plan's
calendar. It does not show who made them.

Each case is a folder of `evidence`: `fork.json`, the publications files in which both sides list their publication, the calendar file of
each with the first second that differs, and, if the publications are of different seconds, the consistency proof that leads from the
calendar of the newer one to another root of the older one. `service/confirm-fork` confirms it by hashlib alone."""
import json
import os
import time
from typing import Any, Dict, Iterator, List, NamedTuple

from . import files
from .calendar_files import PlanName, packed
from .programs import BESIDE

NAME = "fork.json"
MOST_CASES = 100


class Side(NamedTuple):
    """One side of a fork."""

    sources: List[str]
    """Where the publication was seen."""
    time: int
    """When it was first seen."""
    second: int
    root: str
    publications: bytes
    """The publications file that lists it, or as many bytes of it as are kept."""
    roots: bytes
    """The imprints of the calendar file with the first second that differs."""


class Fork(NamedTuple):
    plan: PlanName
    differ_from: int
    """The first second whose roots differ."""
    file: int
    """The number of the calendar file with this second."""
    is_door: bool
    """Whether the other side is a source that the mirror follows, and not only another mirror."""
    one: Side
    """What the mirror had."""
    other: Side
    front: bytes
    """The consistency proof between both seconds in the calendar of the newer publication. It is empty if they are one second."""


def side_told(side: Side) -> Dict[str, Any]:
    return {"sources": side.sources, "seen": side.time, "second": side.second, "root": side.root}


def write(folder: str, fork: Fork) -> str:
    """Writes the case, synced, and returns its folder. A case that was interrupted has no `fork.json`, and counts as none."""
    path = os.path.join(folder, f"{int(time.time())}-{fork.differ_from}-{len(list(cases(folder)))}")
    files.make_folder(path)
    for name, side in (("one", fork.one), ("other", fork.other)):
        files.write(os.path.join(path, f"{name}.publications"), side.publications)
        files.write(os.path.join(path, f"{name}.calendar"), packed(fork.plan, fork.file, side.roots))
    if fork.front:
        files.write(os.path.join(path, "front"), fork.front)
    told = {"plan": fork.plan.digest, "start": fork.plan.start, "file": fork.file, "differ_from": fork.differ_from, "is_door": fork.is_door,
            "found": int(time.time()), "one": side_told(fork.one), "other": side_told(fork.other)}
    files.write(os.path.join(path, NAME), json.dumps(told, indent=1).encode() + b"\n")
    return path


def cases(folder: str) -> Iterator[Dict[str, Any]]:
    """The cases in a folder, the oldest first, each with its `path`."""
    for name in sorted(os.listdir(folder)) if os.path.isdir(folder) else []:
        content = files.content_of(os.path.join(folder, name, NAME)) if os.path.isdir(os.path.join(folder, name)) else None
        if content is not None:
            yield {**json.loads(content), "path": os.path.join(folder, name)}


def date(second: int) -> str:
    return f"{time.strftime('%Y-%m-%d %H:%M:%S', time.gmtime(second))} UTC"


def explained(case: Dict[str, Any]) -> List[str]:
    """A case in words."""
    rows = [f"{case['path']}:", f"  Two calendars of the plan {case['plan']} differ from second {case['differ_from']} on, {date(case['differ_from'])}."]
    for name in ("one", "other"):
        side = case[name]
        rows.append(f"  {'This mirror had' if name == 'one' else 'The other view is'} the publication of second {side['second']}, {date(side['second'])}, with the root")
        rows.append(f"    {side['root']}, seen on {date(side['seen'])} at {', '.join(side['sources'])}.")
    if case["one"]["second"] == case["other"]["second"]:
        rows.append("  These are two roots of one second.")
    else:
        rows.append("  The calendar of the newer one has another root at the older one's second: the file `front` shows that.")
    rows.append("  Nodes that follow the protocol never publish both. Somebody ran two copies of a folder, or a server lies. The files do not show who did.")
    rows.append(f"  To confirm this by hashing alone: {os.path.join(BESIDE, 'confirm-fork')} {case['path']}")
    return rows
