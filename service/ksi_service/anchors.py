"""Runs a command after each publication, so that its root is kept by others: `COMMAND SECOND ROOT`.

A publication fixes all seconds before it. So only the last one that is not anchored yet is given to the command. A run that fails is tried
again; nothing waits for it. The file `anchored` has a line for each run that ended well: the second, the root, and when."""
import asyncio
import logging
import os
import shlex
import time
from typing import Any, Dict, Optional, Tuple

from . import files
from .errors import ServiceError

log = logging.getLogger(__name__)

LONGEST_SECONDS = 300
"""After this time a run is killed, and counts as failed."""
FIRST_PAUSE, LONGEST_PAUSE = 5.0, 600.0
"""How long after a run that failed the next one begins: twice as long each time."""
MOST_REASON = 300


class BadCommand(ServiceError):
    """The words of --on-publication cannot be read."""


class NotAnchored(ServiceError):
    """A run of the command failed."""


def words_of(text: str) -> Tuple[str, ...]:
    try:
        words = tuple(shlex.split(text))
    except ValueError as fault:
        raise BadCommand(f"--on-publication {text}: {fault}") from None
    if not words:
        raise BadCommand("--on-publication has no command")
    return words


class Anchors:
    def __init__(self, folder: str, command: Optional[str] = None) -> None:
        self.path = os.path.join(folder, "anchored")
        self.words = words_of(command) if command else ()
        self.began = time.time()
        self.last: Tuple[int, float] = last_in(self.path) or (0, 0.0)
        """The last second that was anchored, and when."""
        self.waiting: Optional[Tuple[int, str]] = None
        self.failed = 0
        self.pause = FIRST_PAUSE
        self.is_new = asyncio.Event()

    def published(self, second: int, root: str) -> None:
        """A publication is there. It replaces an older one that waits."""
        if self.words and second > self.last[0]:
            self.waiting = second, root
            self.is_new.set()

    def unanchored(self) -> Optional[Tuple[int, str]]:
        """The last publication, if it is not anchored yet."""
        return self.waiting if self.waiting and self.waiting[0] > self.last[0] else None

    async def run(self) -> None:
        """Runs the command for what waits, again and again until it ends well."""
        while True:
            await self.is_new.wait()
            self.is_new.clear()
            while self.waiting and self.waiting[0] > self.last[0]:
                second, root = self.waiting
                reason = await self.reason_of(second, root)
                if reason is None:
                    self.note(second, root)
                    continue
                self.failed += 1
                log.warning("publication %d is not anchored, and is tried again in %d seconds: %s", second, self.pause, reason)
                await asyncio.sleep(self.pause)
                self.pause = min(LONGEST_PAUSE, 2 * self.pause)

    async def once(self) -> None:
        """Runs the command once for what waits."""
        if self.waiting and self.waiting[0] > self.last[0]:
            reason = await self.reason_of(*self.waiting)
            if reason is not None:
                raise NotAnchored(f"publication {self.waiting[0]} is not anchored: {reason}")
            self.note(*self.waiting)

    def note(self, second: int, root: str) -> None:
        self.last = second, time.time()
        self.pause = FIRST_PAUSE
        log.info("publication %d is anchored", second)
        try:
            with open(self.path, "a", encoding="ascii") as file:
                file.write(f"{second} {root} {int(self.last[1])}\n")
                file.flush()
                os.fsync(file.fileno())
        except OSError as error:
            log.warning("%s is not written: %s", self.path, error.strerror)

    async def reason_of(self, second: int, root: str) -> Optional[str]:
        """Runs the command once. Returns why it failed, or None."""
        try:
            process = await asyncio.create_subprocess_exec(*self.words, str(second), root, stdin=asyncio.subprocess.DEVNULL,
                                                           stdout=asyncio.subprocess.DEVNULL, stderr=asyncio.subprocess.PIPE)
        except OSError as error:
            return f"{self.words[0]}: {error.strerror}"
        try:
            _, said = await asyncio.wait_for(process.communicate(), LONGEST_SECONDS)
        except asyncio.TimeoutError:
            return f"it did not end within {LONGEST_SECONDS} seconds"
        finally:
            if process.returncode is None:
                process.kill()
        if process.returncode == 0:
            return None
        last = said.decode(errors="replace").strip().splitlines()[-1:]
        return f"status {process.returncode}{': ' + last[0][:MOST_REASON] if last else ''}"

    def counters(self) -> Dict[str, Any]:
        """Counters, if a command is given."""
        if not self.words:
            return {}
        return {"anchored_second": self.last[0], "anchored_age_seconds": int(time.time() - (self.last[1] or self.began)), "anchors_failed": self.failed}


def last_in(path: str) -> Optional[Tuple[int, float]]:
    """The last second of a file of anchored publications, and when it was anchored. A line that was cut off does not count."""
    rows = [row.split() for row in (files.content_of(path) or b"").decode("ascii", "replace").split("\n")[:-1]]
    found = [(int(row[0]), float(row[2])) for row in rows if len(row) == 3 and row[0].isdigit() and row[2].isdigit()]
    return max(found, default=None)
