"""Drives seconds by one core of this machine: it seals each second, tries ballots until the second is decided, and lets the core respond.

There is no head. The host of the first core in a second's order (`View.order`) drives the second as soon as it is over. The host of
another core takes over if its own core does not hold the second after a pause: one pause for each core before it, and one after each
ballot of another core that it sees. So a second usually costs one ballot, and pauses end a duel. A second that another core
holds is asked for before a ballot is tried. None of this matters for safety: cores agree on roots whatever their hosts do."""
import asyncio
import time
from typing import Dict

from .lines import Down
from .messages import FORGOTTEN

PAUSE, PAUSE_ALONE = 0.6, 2.0
"""For how many seconds another core's ballot is waited for, at least: one of another machine, or if this is the only machine."""
MOST_PAUSE = 7.5
OLD_SECONDS = 5
"""A second that is this old when it is first driven is one of many, as after a standstill."""
OLD_FACTOR = 4
"""How many times longer the pause for such a second is."""
ASK_AFTER = 0.6
"""After how many seconds a core asks for a second that another one holds: usually its Success is on the way."""
MOST_ASKED = 3
"""How often others that report a second as held are asked for it before each ballot."""
ASK_SECONDS = 0.5
"""How long the answer to that is waited for."""
LOOK_SECONDS = 0.25
"""How often the driver looks again for the needs of a ballot: the core itself, and a majority."""
MOST_AT_ONCE = 16
"""How many seconds are driven at once: after a standstill the missed ones are decided in groups."""
RESPOND_SECONDS = 20.0
"""For how long after a second a core responds."""
LATE_SECONDS = 10
"""Nobody waits for the rounds of a second that is driven this much later."""
KEPT_SECONDS = 100
"""For how many seconds the submissions for a second are remembered."""


class Driver:
    def __init__(self, host, core) -> None:
        self.host = host
        self.view = host.view
        self.core = core
        self.name = core.name
        self.driven: Dict[int, asyncio.Task] = {}
        self.ballots = 0

    async def run(self) -> None:
        try:
            while True:
                self.begin_due()
                await asyncio.sleep(max(0.01, min(0.05, self.until_next())))
        finally:
            tasks = list(self.driven.values())
            for task in tasks:
                task.cancel()
            await asyncio.gather(*tasks, return_exceptions=True)

    def until_next(self) -> float:
        """How many seconds are left until the next second is due."""
        now = self.host.now() - self.host.after
        return int(now) + 1 - now

    def begin_due(self) -> None:
        """Begins to drive the oldest seconds that the core lacks, and to respond for those that another core decided first. By a clock
        that may not drive it only asks for seconds that another core holds."""
        for second in [it for it, task in self.driven.items() if task.done()]:
            self.driven.pop(second).result()
        last = min(int(self.host.now() - self.host.after), self.host.last_second)
        lacked = min(last, self.view.held_by_any() - 1) if self.is_off() else last
        second = self.core.next
        while second <= lacked and len(self.driven) < MOST_AT_ONCE:
            if not self.core.holds(second):
                self.begin(second)
            second += 1
        for second in [it for it in self.core.items if it <= last and self.core.holds(it)]:
            self.begin(second)

    def is_off(self) -> bool:
        """Whether the clock of this machine may not drive."""
        return self.view.is_off(self.host.places.me)

    def begin(self, second: int) -> None:
        if second not in self.driven:
            self.driven[second] = asyncio.create_task(self.drive(second))

    async def drive(self, second: int) -> None:
        late = 0.0 if self.is_off() else self.host.now() - second - self.host.after
        if late < LATE_SECONDS and self.view.rank(second, self.core.number) == 0:
            await self.host.closings.wait(self.host.children[self.name], second)
        # pauses count from the time at which a second was due; after a standstill, when all hosts begin with many, from now on
        await self.decide(second, time.monotonic() - (late if 0 < late < OLD_SECONDS else 0.0))
        if self.core.items.get(second) and late < RESPOND_SECONDS:
            await self.respond(second)
        for it in [it for it in self.core.items if it <= second - KEPT_SECONDS or it == second]:
            del self.core.items[it]

    def pause(self, is_old: bool) -> float:
        """How long a ballot is waited for: at least three times as long as ballots take. Otherwise, on slow disks or after a standstill,
        repeated ballots would keep each other from ending, and would be the load that delays them."""
        least = PAUSE if self.host.trusted else PAUSE_ALONE
        return min(MOST_PAUSE, max(OLD_FACTOR * least if is_old else least, 3 * self.core.took))

    async def decide(self, second: int, began: float) -> None:
        """Waits until the core holds a second, and does this host's part for it."""
        attempt = Attempt(self, second, began)
        while not self.core.holds(second):
            if not self.view.is_up(self.name):
                await self.core.until_held(second, LOOK_SECONDS)
            elif holder := attempt.holder():
                self.host.ask_for(self.name, holder, second)
                await self.core.until_held(second, ASK_SECONDS)
            elif not self.may_try(second):
                attempt.restart()
                await self.core.until_held(second, LOOK_SECONDS)
            elif (left := attempt.due() - time.monotonic()) > 0:
                await self.core.until_held(second, min(left, 0.1))
            else:
                attempt.count()
                await self.ballot(second, attempt.pause())

    def may_try(self, second: int) -> bool:
        """Whether a ballot makes sense: without a majority it would only be facts on disks. A second that is not over was begun by a
        clock that was ahead, and is right again."""
        return self.view.is_majority() and not self.is_off() and second <= self.host.now() - self.host.after

    async def ballot(self, second: int, pause: float) -> None:
        """Tries a ballot, and waits for its end. If it does not end, the pauses grow for all seconds, like the timeouts of TCP, until
        a ballot that ended shows how long they take."""
        began = time.monotonic()
        node = self.host.nodes[self.name]
        try:
            blocks = await asyncio.gather(*node.ask_all(f"seal {second}", f"ballot {second}"))
            self.ballots += 1
            if FORGOTTEN in blocks:
                # its root is kept, and nothing else
                self.core.hold(second)
        except Down:
            pass
        if not self.core.holds(second):
            self.core.begun[second] = began
        if not await self.core.until_held(second, pause):
            self.core.took = min(MOST_PAUSE / 3, max(self.core.took, pause / 3) * 1.5)

    async def respond(self, second: int) -> None:
        """Lets the core respond to its aggregators, once it holds all seconds before. If another core's candidate won, it sends them `none`."""
        end = time.monotonic() + RESPOND_SECONDS
        while time.monotonic() < end:
            try:
                words = (await self.host.nodes[self.name].ask(f"respond {second}"))[0].split(" ")
            except Down:
                await asyncio.sleep(0.05)
                continue
            if words[1] == "done":
                return
            if words[1] != "undecided":
                break
            await self.core.until_held(int(words[2]), LOOK_SECONDS)
        self.host.announce_none(self.name, second)


class Attempt:
    """How far a core is with one second: how often it tried a ballot, and when the next one is due."""

    def __init__(self, driver: Driver, second: int, began: float) -> None:
        self.driver = driver
        self.second = second
        self.began = began
        self.last = began
        """When it last tried a ballot, or could begin to count."""
        self.ballots = 0
        self.asked = 0
        self.is_old = driver.host.now() - second > OLD_SECONDS

    def pause(self) -> float:
        return self.driver.pause(self.is_old)

    def holder(self):
        """The core that is asked for the second now, if one reports that it holds it. No Success of an old second is on the way."""
        is_soon = time.monotonic() - self.began <= ASK_AFTER and not self.is_old
        if is_soon or self.asked >= MOST_ASKED * (self.ballots + 1):
            return None
        holder = self.driver.view.holder(self.second, self.asked)
        self.asked += holder is not None
        return holder

    def restart(self) -> None:
        """Counts from now on: there was no majority."""
        self.last = time.monotonic()
        self.asked = 0

    def due(self) -> float:
        """When the next ballot is due: a pause after the last ballot of this core and of any other, longer each time, and a pause
        more for each core that is up and comes before."""
        pause = self.pause()
        own = self.last + (min(pause * 2 ** self.ballots, 2 * MOST_PAUSE) if self.ballots else 0.0)
        heard = self.driver.core.heard.get(self.second)
        others = heard + pause if heard else 0.0
        return max(own, others) + pause * self.driver.view.rank(self.second, self.driver.core.number)

    def count(self) -> None:
        self.ballots += 1
        self.last = time.monotonic()
