"""Publishes by this machine's cores. Every machine publishes the same seconds, in order: so the files of all have the same bytes, and a
machine that was away catches up."""
import asyncio
import logging
import os
import time
from typing import Callable, Optional

from .errors import NeedsOperator
from .lines import Down
from .publications import Publications

log = logging.getLogger(__name__)

LOOK_SECONDS = 0.2
LATE_SECONDS = 60
"""After this time a publication that no core can make is logged."""
END_SECONDS = 30
"""How long after the plan's last second its publication is waited for."""
LAST_SECONDS = 10
"""How long the publication of a service that stops is waited for: so long that a core may hang, and another one publishes in its place."""


class PlanEnded(NeedsOperator):
    """The plan has no further second."""


class Publishing:
    def __init__(self, host, folder: str, every: int) -> None:
        self.host = host
        self.every = every
        self.publications = Publications(folder)
        host.published = self.publications.last
        self.lock = asyncio.Lock()
        self.logged: Optional[int] = None
        self.on_published: Callable[[int, str], None] = lambda second, root: None
        """Is called after each publication."""

    def due(self) -> int:
        """The next second to publish: the one before a whole multiple of the interval, or the plan's last."""
        last = self.publications.last()
        first = self.host.plan.start if last is None else last + 1
        return min(first // self.every * self.every + self.every - 1, self.host.last_second)

    def next_time(self) -> str:
        """When a core publishes next."""
        due = time.strftime("%H:%M:%S", time.gmtime(max(self.due() + 1, int(self.host.now()) // self.every * self.every + self.every)))
        return f"every {self.every} seconds, next at {due} UTC"

    async def run(self) -> None:
        while True:
            second = self.due()
            if self.host.succession.retired and self.publications.last() == self.host.last_second:
                # the host ends once the next plan may begin
                await asyncio.sleep(LOOK_SECONDS)
            elif not await self.publish(second):
                self.see_late(second)
                await asyncio.sleep(LOOK_SECONDS)
            elif second == self.host.last_second and not self.host.succession.retired:
                raise PlanEnded(f"the plan's last second was {second}, and is published: begin a new folder, and keep this one")

    def see_late(self, second: int) -> None:
        """Logs once if a publication is late. Raises PlanEnded if the plan ended some time ago."""
        last = self.host.last_second
        if self.host.now() - last > END_SECONDS and not self.host.succession.retired:
            raise PlanEnded(f"the plan's last second was {last}, and is not published: see to a majority of the cores, and start again")
        if self.host.cores and self.host.now() - second > LATE_SECONDS and self.logged != second:
            self.logged = second
            log.warning("second %d is not published: no core that is up holds all seconds to it", second)

    async def publish(self, second: int) -> bool:
        """Lets a core that holds all seconds up to this one publish it. Returns whether one did."""
        async with self.lock:
            for name in self.holders(second):
                root = await self.root_of(name, second)
                if root is not None:
                    if await asyncio.get_running_loop().run_in_executor(None, self.publications.add, second, root):
                        log.info("published second %d, root %s", second, root)
                        self.on_published(second, root)
                    return True
        return False

    def holders(self, second: int):
        """The cores here that hold all seconds up to one, beginning with another one each time."""
        cores = list(self.host.cores.values())
        first = second // self.every % max(1, len(cores))
        return [it.name for it in cores[first:] + cores[:first] if it.next > second and self.host.nodes[it.name].alive]

    async def root_of(self, name: str, second: int) -> Optional[str]:
        try:
            words = (await self.host.nodes[name].ask(f"publish {second}"))[0].split(" ")
        except Down:
            return None
        return words[2] if words[1] == "published" else None

    async def publish_last(self) -> None:
        """Publishes up to the last second of a service of one machine that stops, so that each signature that was handed out can be
        extended. Of several machines the others go on, and their files stay the same."""
        second = min(max(self.host.desk.last_signed, int(self.host.now()) - 2), self.host.last_second)
        if self.host.trusted or second < self.host.plan.start or second <= (self.publications.last() or 0):
            return
        end = time.monotonic() + LAST_SECONDS
        while time.monotonic() < end:
            if await self.publish(second):
                return
            await asyncio.sleep(0.05)
        log.warning("the last seconds are not published: no core did so within %d seconds", LAST_SECONDS)

    @property
    def path(self) -> str:
        return os.path.abspath(self.publications.path)
