"""Lets the nodes of a running service forget old seconds, one after the other.

A node that is to forget takes no more requests, and a core leads no more seconds; they go to others, or wait. Once all that it took are
answered, its process ends and its file is put in order, and it starts again. So no request is lost, and none is made again.

No two cores forget at once, so a majority stays. On several machines a core announces in heartbeats that it is to forget. If two do,
the one that announced the earlier second goes on, and the other tries again later. A heartbeat that is lost costs time and no root."""
import asyncio
import logging
import time
from typing import Dict, List, Tuple

from .forget import NotForgotten, cores_forget
from .lines import Down
from .programs import Missing
from .proved import Refused
from .rounds import ANNOUNCED_SECONDS

log = logging.getLogger(__name__)

FIRST_SECONDS = 60
"""How many seconds after the start nodes forget for the first time, if that is not to be sooner."""
AGAIN_SECONDS = 20
"""After how many seconds a core that could not forget tries again."""
MOST_SECONDS = 12
"""How many seconds a node may have for the requests that it took, else it forgets the next time; and for its start after it."""


class Resting:
    """Which nodes of this machine forgot, and how much."""

    def __init__(self, host) -> None:
        self.host = host
        self.rounds_of_host = host.rounds
        self.times = 0
        """How often a node forgot something."""
        self.known = host.record.state.forgotten
        """How many rounds were forgotten by the record when this began."""
        self.known_of_cores = host.record.state.forgotten_by_cores
        self.before: Dict[str, int] = {}
        """Before which second each node forgot."""
        self.cores = True
        """Whether cores forget too: not if the program does not let them."""

    @property
    def rounds(self) -> int:
        """How many rounds were forgotten, by the record. Of a forgotten round the closing stays, and its response goes: one fact."""
        return self.host.record.state.forgotten - self.known

    @property
    def core_facts(self) -> int:
        """How many facts cores forgot, by the record. Of a forgotten second one stays: its root."""
        return self.host.record.state.forgotten_by_cores - self.known_of_cores

    async def run(self, every: float) -> None:
        """Lets each node of this machine forget this often, for ever."""
        await asyncio.sleep(min(every, FIRST_SECONDS))
        await self.see_program()
        while True:
            left, wait = self.names(), every
            while wait > 0:
                left = [name for name in left if not await self.forget(name)]
                pause = min(wait, AGAIN_SECONDS) if left else wait
                await asyncio.sleep(pause)
                wait -= pause

    def names(self) -> List[str]:
        """The nodes that forget, the aggregators first."""
        mine = self.host.places.mine
        return [it for it in mine if it[0] == "a"] + [it for it in mine if it[0] == "c" and self.cores]

    async def see_program(self) -> None:
        """Notes whether the program lets cores forget."""
        try:
            self.cores = await asyncio.get_running_loop().run_in_executor(None, cores_forget, f"{self.host.folder}/plan")
        except (Missing, OSError) as reason:
            log.warning("cores forget nothing: %s", reason)
            self.cores = False

    async def forget(self, name: str) -> bool:
        """Lets a node forget what is settled, if there is anything new. Returns whether it need not try again soon."""
        if not self.has_new(name) or not self.host.nodes[name].alive:
            return True
        try:
            left, found = await (self.rested_core if name[0] == "c" else self.rested)(name)
        except (NotForgotten, Refused, Missing, Down, OSError) as reason:
            is_again = name[0] == "c" and isinstance(reason, NotForgotten)
            log.log(logging.INFO if is_again else logging.WARNING, "%s forgets nothing now: %s", name, "it is down" if isinstance(reason, Down) else reason)
            return not is_again
        self.times += left < found
        return True

    def has_new(self, name: str) -> bool:
        """Whether an aggregator had a part in a signature that it did not forget, or a core has seconds that it did not forget."""
        before = self.before.get(name, 0)
        if name[0] == "c":
            return self.host.settled(name) > max(before, self.host.plan.start)
        return self.rounds_of_host.handed.get(name, 0) >= before

    async def rested(self, name: str) -> Tuple[int, int]:
        """Has an aggregator forget while it takes no requests, and waits for a while until it is there again."""
        self.rounds_of_host.rest(name)
        try:
            if not await self.rounds_of_host.drained(name, MOST_SECONDS):
                raise NotForgotten("requests wait for it")
            return await self.forgotten(name)
        finally:
            self.rounds_of_host.wake(name)

    async def rested_core(self, name: str) -> Tuple[int, int]:
        """Has a core forget while it leads no second, and waits for a while until it is there again."""
        self.see_others(name)
        view = self.host.view
        view.rests[name] = int(self.host.now()) + self.host.plan.cores + 2
        self.host.desk.look()
        try:
            if not await self.led_all(name):
                raise NotForgotten("seconds that it leads are not over")
            self.see_others(name)
            return await self.forgotten(name)
        finally:
            del view.rests[name]
            self.host.desk.look()

    def see_others(self, name: str) -> None:
        """Raises NotForgotten if another core is to forget before this one, or is needed and down."""
        resting = self.host.view.resting()
        mine = (resting.get(name, float("inf")), name)
        first = min([mine, *((second, other) for other, second in resting.items())])
        if first != mine:
            raise NotForgotten(f"{first[1]} is to forget first")
        up = len(self.host.view.cores_up())
        if not self.host.plan.is_majority(up - 1) and up < self.host.plan.cores:
            raise NotForgotten("without it no majority of the cores is up")

    async def led_all(self, name: str) -> bool:
        """Waits until a core holds all seconds that it may lead, and has responded for those whose items it took. Returns whether that
        is so in time."""
        host, core = self.host, self.host.cores[name]
        last = host.view.rests[name]
        end = time.monotonic() + max(ANNOUNCED_SECONDS, last - host.now()) + MOST_SECONDS
        while core.next < last or any(it < last for it in core.items) or host.rounds.settled() < last:
            if time.monotonic() > end:
                return False
            await asyncio.sleep(0.02)
        return True

    async def forgotten(self, name: str) -> Tuple[int, int]:
        """Has a node forget that takes nothing now. Returns how many facts are left, and how many there were."""
        before = self.host.settled(name)
        counts = await self.host.forget(name, before)
        self.before[name] = before
        end = time.monotonic() + MOST_SECONDS
        while not self.host.nodes[name].alive and time.monotonic() < end:
            await asyncio.sleep(0.01)
        return counts
