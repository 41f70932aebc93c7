"""Which rounds of a second are closed. The node above an aggregator waits for that, but not for long."""
import asyncio
from typing import Dict, Iterable, List, Union

from .gateway_links import CLOSE_SECONDS as CLOSE_SECONDS_GATEWAY

CLOSE_SECONDS, CLOSE_SECONDS_HERE = 0.4, 1.5
"""How long the node above waits for aggregators of other machines, and for those of this one."""
KEPT_SECONDS = 60
"""How many seconds back closed rounds are remembered."""


class Closings:
    """For a gateway's rounds the node above waits less long, and not at all if they were late several times (gateway_links.py)."""

    def __init__(self, host) -> None:
        self.host = host
        self.seconds: Dict[int, Dict[str, Union[bool, asyncio.Future]]] = {}
        """By second and aggregator: True once the round is closed, else the future that somebody waits for."""

    def note(self, aggregator: str, second: int) -> None:
        """The round of an aggregator is closed, or has no items. Its submission was sent before."""
        waits = self.seconds.setdefault(second, {})
        there = waits.get(aggregator)
        if isinstance(there, asyncio.Future) and not there.done():
            there.set_result(True)
        waits[aggregator] = True

    def announce(self, aggregator: str, second: int) -> None:
        """Reports a closed round of this machine to the machine of the node above it."""
        if not self.note_here(aggregator, second):
            self.host.send(self.machine_above(aggregator), ["closed", aggregator, second])

    def note_here(self, aggregator: str, second: int) -> bool:
        """Notes a closed round if the node above is of this machine. Returns whether it is."""
        is_here = self.machine_above(aggregator) == self.host.places.me
        if is_here:
            self.note(aggregator, second)
        return is_here

    def machine_above(self, aggregator: str) -> str:
        """The machine of the node above an aggregator, or no name if that has none."""
        return self.host.places.machine_of.get(self.host.plan.parents[int(aggregator[1:])], "")

    async def wait(self, aggregators: Iterable[str], second: int) -> None:
        """Waits until these rounds are closed, if their aggregators are up."""
        links = self.host.links
        here, others, gateways = [], [], []
        for it in aggregators:
            (here if it in self.host.nodes else gateways if links.is_of_gateway(it) else others).append(it)
        await asyncio.gather(self.wait_for(here, second, CLOSE_SECONDS_HERE), self.wait_for(others, second, CLOSE_SECONDS), self.wait_for_gateways(gateways, second))

    async def wait_for_gateways(self, aggregators: List[str], second: int) -> None:
        links = self.host.links
        found = [it for it in aggregators if links.punctual.is_waited_for(it, second) and self.host.view.is_up(it)]
        if found:
            await self.wait_for(found, second, CLOSE_SECONDS_GATEWAY * max(map(links.height, found)))
            waits = self.seconds.get(second, {})
            for it in found:
                links.punctual.note(it, second, waits.get(it) is True)

    async def wait_for(self, aggregators: Iterable[str], second: int, seconds: float) -> None:
        waits = self.seconds.setdefault(second, {})
        open_rounds = [it for it in aggregators if waits.get(it) is not True and self.host.view.is_up(it)]
        for it in open_rounds:
            waits.setdefault(it, asyncio.get_running_loop().create_future())
        if open_rounds:
            await asyncio.wait([waits[it] for it in open_rounds], timeout=seconds)

    def drop_old(self) -> None:
        last = self.host.now() - KEPT_SECONDS
        for second in [it for it in self.seconds if it < last]:
            del self.seconds[second]
