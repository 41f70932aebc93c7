"""Which hours of a record were checked by themselves, and whether one differs: a file of the folder, which the status of the service has."""
import json
import os
import time
from typing import Callable, NamedTuple, Optional

from . import files, hourly
from .retrace import Differs

NAME = "checked"


class Checked(NamedTuple):
    """The content of the file."""
    hour: int = 0
    """The last file of the record that was checked."""
    at: int = 0
    """When that was."""
    differs: int = 0
    """How many hours differ."""
    reason: str = ""
    """Why the last one of these does."""


def read(folder: str) -> Checked:
    """The checks so far. A file that is damaged counts as none."""
    content = files.content_of(os.path.join(folder, NAME))
    try:
        return Checked(**json.loads(content)) if content else Checked()
    except (TypeError, ValueError):
        return Checked()


def counters(folder: str) -> dict:
    """For the status of the service, if an hour was checked."""
    found = read(folder)
    return {"hour_checked": found.hour, "hours_differ": found.differs, "hour_checked_at": found.at} if found.at else {}


def check(folder: str, number: int, samples: int, say: Callable = print) -> None:
    """Checks an hour, and notes it. Raises Differs, which is noted too, and the other errors of `hourly.check`."""
    fault: Optional[Differs] = None
    try:
        hourly.check(folder, number, samples, say)
    except Differs as reason:
        fault = reason
    before = read(folder)
    noted = Checked(max(number, before.hour), int(time.time()), before.differs + (fault is not None), str(fault) if fault else before.reason)
    files.write(os.path.join(folder, NAME), (json.dumps(noted._asdict()) + "\n").encode())
    if fault is not None:
        raise fault


def check_new(folder: str, samples: int, say: Callable = print) -> None:
    """Checks each closed hour since the last one that was checked, or the last closed one if none was. Of an earlier one whose files are
    gone it says so."""
    last, before = hourly.last_closed(os.path.join(folder, "record")), read(folder)
    new = range(before.hour + 1 if before.at else max(last, 1), last + 1)
    for number in new:
        try:
            check(folder, number, samples, say)
        except hourly.NotKept as reason:
            if number == last:
                raise
            say(f"hour {number} is not checked by itself: {reason}")
    if not new:
        say("no hour was closed since the last check")
