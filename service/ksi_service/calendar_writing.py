"""Writes the calendar files of a machine from the roots that its cores hold. A machine that was away catches up."""
import asyncio
import contextlib
import logging
import os
import time
from typing import Dict, Optional

from .calendar_files import Calendar, plan_name, roots_of
from .lines import Down
from .subtrees import Subtrees

log = logging.getLogger(__name__)

AT_ONCE = 1024
"""Of how many seconds a core is asked at once."""
LOOK_SECONDS = 0.5
WRITE_SECONDS = 10
"""How often the file that grows is written. The HTTP server returns it from memory."""
PAUSE_SECONDS = 0.02
"""The pause between two questions while the files are late, so that cores vote in between."""
LAST_SECONDS = 5
"""How long the last write of a service that stops may take."""
AGAIN_SECONDS = 30
"""How long after a failed write the next one is tried."""


class CalendarWriting:
    def __init__(self, host, folder: str) -> None:
        self.host = host
        plan = plan_name(os.path.join(folder, "plan"), host.plan.start)
        self.calendar = Calendar(os.path.join(folder, "calendar"), plan)
        self.subtrees = Subtrees(self.calendar)
        self.wrote = time.monotonic()
        self.is_logged = False

    def calendars(self) -> Dict[str, Calendar]:
        """The calendars of this machine by their plans' digests."""
        return {self.calendar.plan.digest: self.calendar}

    async def run(self) -> None:
        """Follows the decided seconds. A disk that fails ends nothing: the record has its own errors."""
        while True:
            try:
                count = await self.take()
                await self.write(count == AT_ONCE)
                self.is_logged = False
            except OSError as error:
                if not self.is_logged:
                    log.warning("the calendar file is not written: %s", error)
                    self.is_logged = True
                await asyncio.sleep(AGAIN_SECONDS)
            else:
                await asyncio.sleep(PAUSE_SECONDS if count == AT_ONCE else LOOK_SECONDS)

    def holder(self) -> Optional[str]:
        """A core here that holds the next second."""
        return next((it.name for it in self.host.cores.values() if it.next > self.calendar.next and self.host.nodes[it.name].alive), None)

    async def take(self) -> int:
        """Adds seconds that a core holds. Returns how many."""
        name = self.holder()
        if name is None:
            return 0
        first = self.calendar.next
        count = min(AT_ONCE, self.host.cores[name].next - first)
        try:
            roots = roots_of(await self.host.nodes[name].ask(f"held {first} {count}"), first)
        except Down:
            return 0
        await asyncio.get_running_loop().run_in_executor(None, self.calendar.add, roots)
        return count if roots else 0

    async def take_all(self) -> None:
        """Adds all seconds that cores hold, before the service ends for good."""
        with contextlib.suppress(OSError):
            while await self.take():
                pass

    async def write(self, is_late: bool) -> None:
        """Writes the file that grows if it was not written for a while."""
        if not is_late and time.monotonic() - self.wrote >= WRITE_SECONDS:
            await asyncio.get_running_loop().run_in_executor(None, self.calendar.flush)
            self.wrote = time.monotonic()

    async def stop(self) -> None:
        """Writes the last seconds, unless the disk hangs. The next start would find them in a core too."""
        try:
            await asyncio.wait_for(asyncio.get_running_loop().run_in_executor(None, self.calendar.flush), LAST_SECONDS)
        except (OSError, asyncio.TimeoutError) as error:
            log.warning("the calendar file is not written: %s", error or "the disk hangs")
