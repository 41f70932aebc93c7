"""Whether anybody outside knows a later publication than a folder has: a mirror, or the last print.

An older copy of a folder must never go on (identity.py). Copies of whole disks and folders that were carried to another machine have no
identity that could show it. Publications that somebody else keeps can: those of the folder have to include all of them. A copy that is
older by less than the time between two publications is not noticed."""
import asyncio
import http.client
import re
import urllib.error
import urllib.request
from typing import Callable, List, Optional, Tuple

from .elements import Malformed, published_in
from .errors import NeedsOperator

Published = List[Tuple[int, str]]
"""Seconds with their roots in hex, in order."""

ANSWER_SECONDS = 10
"""How long a mirror may take for its answer."""
MOST_BYTES = 64 << 20
"""The longest publications file."""
PRINT = re.compile(r"(?:second )?([0-9]{1,12})[ ,]+(?:root )?([0-9a-f]{64})")


class NotNewest(NeedsOperator):
    """Nobody confirms that the folder is the newest one of its plan, or somebody knows a later publication."""


class NoAnswer(Exception):
    """Why a mirror gave no publications."""


def line_of(second: int, root: str) -> str:
    """A publication as it is printed."""
    return f"second {second}, root {root}"


def print_in(text: str) -> Tuple[int, str]:
    """The second and the root of a print, as `ksi-service publications` prints them."""
    found = PRINT.fullmatch(" ".join(text.split()).lower())
    if not found:
        raise NotNewest(f"'{text}' is no print: it has a second and a root of 64 hex digits, as `ksi-service publications` prints them")
    return int(found[1]), found[2]


def published_at(url: str) -> Published:
    """The publications of a mirror, or of a door. Raises NoAnswer if there are none."""
    try:
        with urllib.request.urlopen(f"{url.rstrip('/')}/publications", timeout=ANSWER_SECONDS) as answer:
            content = answer.read(MOST_BYTES)
        return published_in(content)
    except urllib.error.HTTPError as error:
        raise NoAnswer(f"it answers {error.code}") from None
    except (Malformed, http.client.HTTPException, ValueError):
        raise NoAnswer("its answer is not a publications file") from None
    except OSError as error:
        raise NoAnswer(str(getattr(error, "reason", error))) from None


class Folder:
    """A folder that is to start, and its publications."""

    def __init__(self, path: str, published: Published, is_alone: bool, say: Callable[[str], None], first: int = 0) -> None:
        self.path = path
        self.first = first
        """The first second whose publications are of the folder's plan. Those before are of the plans before."""
        self.published = published
        self.is_alone = is_alone
        """Whether it is of the only machine of its plan. Of several machines the others publish while one is away, and know its steps."""
        self.say = say

    @property
    def last(self) -> int:
        return self.published[-1][0] if self.published else -1

    def see(self, other: Published, whose: str) -> None:
        """Raises NotNewest if others have a publication that the folder does not have."""
        mine = dict(self.published)
        for second, root in (it for it in other if it[0] >= self.first):
            if second > self.last and self.is_alone:
                raise NotNewest(f"{self.path} is an older copy: {whose} has a publication for second {second}, and the folder's last one is {self.told()}. It never goes on: "
                                "bring the newest folder back, or begin a new plan")
            if second <= self.last and mine.get(second) != root:
                raise NotNewest(f"{self.path} has not the publication of {whose} for second {second}: it is another plan's, the file `publications` was lost, or there are two calendars")

    def told(self) -> str:
        return f"for second {self.last}" if self.published else "none"

    def ask(self, url: str, has_to_answer: bool) -> None:
        """Compares the folder with a mirror, which has to answer if nothing else shows that the folder is the newest one."""
        whose = f"the mirror {url}"
        try:
            other = published_at(url)
        except NoAnswer as reason:
            if has_to_answer:
                raise NotNewest(f"{whose} does not confirm that {self.path} is the newest folder of its plan: {reason}") from None
            self.say(f"{whose} was not compared: {reason}")
            return
        if has_to_answer and not any(second >= self.first for second, _ in other):
            raise NotNewest(f"{whose} has no publications, so it does not confirm that {self.path} is the newest folder of its plan")
        self.see(other, whose)


async def see_newest(folder: Folder, mirror: Optional[str], printed: Optional[str], moved: bool) -> None:
    """Raises NotNewest if a start is refused. A folder that was carried to another machine, and that has no other machines which know its
    steps, has to be confirmed by a mirror or by the last print."""
    has_to_be_confirmed = moved and folder.is_alone
    if has_to_be_confirmed and not mirror and not printed:
        raise NotNewest(f"--moved needs --mirror URL or --print 'SECOND ROOT': nothing else shows that {folder.path} is the newest folder of its plan")
    if printed:
        published = print_in(printed)
        if has_to_be_confirmed and published[0] < folder.first:
            raise NotNewest(f"the print of second {published[0]} is of a plan before that of {folder.path}, which began at {folder.first}: it does not confirm this folder")
        folder.see([published], "the print")
    if mirror:
        await asyncio.get_running_loop().run_in_executor(None, folder.ask, mirror, has_to_be_confirmed and not printed)
