"""The state of a host's own cores: which seconds each of them holds, and how ballots for the others go."""
import asyncio
import collections
import time
from typing import Dict, List, Set

ZERO = "0" * 64
"""The root of a second without one."""
MOST_TOOK = 10.0
"""A ballot that takes longer counts as this many seconds."""


class Core:
    """A core of this machine. It holds all seconds before `next`, and of the later ones those in `held`."""

    def __init__(self, name: str, start: int) -> None:
        self.name = name
        self.number = int(name[1:])
        self.next = start
        self.held: Set[int] = set()
        self.waits: Dict[int, List[asyncio.Future]] = collections.defaultdict(list)
        self.heard: Dict[int, float] = {}
        """By second, when a message of another core's ballot last arrived."""
        self.begun: Dict[int, float] = {}
        """By second, when the last ballot began, as far as this core saw."""
        self.phase: Dict[int, str] = {}
        """By second, what this core last sent to all for a ballot of its own: next, or begin."""
        self.took = 0.0
        """How long a ballot takes, from its first message until the second is held, as a moving average. It includes no pause."""
        self.items: Dict[int, Set[str]] = collections.defaultdict(set)
        """By second, the aggregators whose submissions this core accepted."""

    def holds(self, second: int) -> bool:
        return second < self.next or second in self.held

    def hold(self, second: int) -> bool:
        """Notes that the core holds a second. Returns whether that is new."""
        if self.holds(second):
            return False
        self.held.add(second)
        self.heard.pop(second, None)
        self.phase.pop(second, None)
        began = self.begun.pop(second, None)
        if began is not None:
            self.took += (min(MOST_TOOK, time.monotonic() - began) - self.took) / 8
        while self.next in self.held:
            self.held.remove(self.next)
            self.next += 1
        for it in self.waits.pop(second, ()):
            if not it.done():
                it.set_result(True)
        return True

    def hold_before(self, second: int) -> None:
        """Notes that the core holds all seconds before this one."""
        self.next = max(self.next, second)

    def hear(self, second: int, is_first: bool) -> None:
        """Notes a message of another core's ballot: its first message, or a later one."""
        if self.holds(second):
            return
        self.heard[second] = time.monotonic()
        if is_first:
            self.begun[second] = time.monotonic()

    def needs(self, kind: str, second: int) -> bool:
        """Whether a line of the vote of this kind can still change anything: not if the second is held, nor if it is a promise for a
        ballot that a majority has promised."""
        return not self.holds(second) and (kind != "last" or self.phase.get(second) != "begin")

    async def until_held(self, second: int, seconds: float) -> bool:
        """Waits until the core holds a second, but not longer than this. Returns whether it does."""
        if self.holds(second):
            return True
        loop = asyncio.get_running_loop()
        there = loop.create_future()
        self.waits[second].append(there)
        handle = loop.call_later(seconds, lambda: there.done() or there.set_result(False))
        try:
            return await there
        finally:
            handle.cancel()
            if second in self.waits:
                self.waits[second].remove(there)
                if not self.waits[second]:
                    del self.waits[second]
