"""What a gateway sees: by the heartbeats of the machines right above it.

A gateway has no core, and does not talk to machines that are not above it. So these report, in the field `seen` of their heartbeats, whether
they see a majority of the cores, which core leads each of the next seconds, and up to which second one is known to hold all."""
import collections
from typing import Any, Dict, List, Optional

from .view import View

MOST_EARLY, MORE_EARLY, LESS = 0.7, 0.15, 0.95
"""By how much earlier a gateway closes its rounds at most, by how much more after a round that came too late, and how this falls again."""
MOST_SECONDS = 64
"""Of how many seconds at most a report may name the core that leads."""


class Seen:
    """The field `seen` of a heartbeat. Raises ValueError, TypeError or KeyError if it is malformed."""

    def __init__(self, fields: Dict[str, Any]) -> None:
        self.has_majority = bool(fields["majority"])
        self.held = int(fields["held"])
        """The first second that no core which is up is known to hold with all before it."""
        if len(fields["leads"]) > MOST_SECONDS:
            raise ValueError("too many seconds")
        self.leads = {int(second): int(core) for second, core in fields["leads"].items()}
        """By second, the core that leads it."""


def report_of(view: View) -> Dict[str, Any]:
    """The field `seen` of this machine's heartbeats to gateways."""
    first = int(view.host.now())
    leads = {str(it): view.leader(it) for it in range(first, first + view.plan.cores + 3)}
    return {"majority": view.is_majority() and not view.is_off(view.places.me), "held": view.held_by_any(), "leads": {it: core for it, core in leads.items() if core is not None}}


class Early:
    """By how much earlier than the machines above a gateway closes its rounds. It grows while rounds come too late for those above, as on a
    slow network or a busy machine."""

    def __init__(self) -> None:
        self.seconds = 0.0

    def note(self, in_time: bool) -> None:
        """Notes whether a round with requests got its response."""
        self.seconds = self.seconds * LESS if in_time else min(MOST_EARLY, self.seconds + MORE_EARLY)

    def at_least(self, seconds: float) -> float:
        return min(MOST_EARLY, max(seconds, self.seconds))


class GatewayView(View):
    """The view of a gateway's host."""

    def reports(self) -> List[Seen]:
        return [it.seen for it in self.host.trusted.values() if it.is_there and it.seen is not None]

    def is_majority(self) -> bool:
        return self.host.may_begin() and any(it.has_majority for it in self.reports())

    def held_by_any(self) -> int:
        return max((it.held for it in self.reports()), default=self.plan.start)

    def leader(self, second: int) -> Optional[int]:
        votes = collections.Counter(it.leads[second] for it in self.reports() if it.has_majority and second in it.leads)
        return votes.most_common(1)[0][0] if votes else None

    def takes(self, aggregator: str) -> bool:
        """An aggregator of this gateway takes requests if those above it do, of which the machine right above reports."""
        if aggregator not in self.host.nodes:
            return self.places.machine_of.get(aggregator) not in self.host.peers or super().takes(aggregator)
        parent = self.plan.parents[int(aggregator[1:])]
        return super().takes(aggregator) and (self.takes(parent) if parent[0] == "a" else self.is_up(parent))
