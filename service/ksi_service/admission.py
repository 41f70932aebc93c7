"""How many requests a door takes. If a service takes longer than its clients wait, everything is begun, clients leave and ask again, and
nothing is finished. So a door holds only as many unsigned requests as it has seen to be signed in time."""
import collections
import time
from typing import Deque, Dict, Tuple

from .errors import ServiceError
from .overload import is_on

MOST_WAITING = 10_000
"""How many requests may wait for their signatures at once."""
FIRST_ROOM = 512
"""How many may wait at a door that had little to do."""
LEAST_ROOM = 64
"""How many may always wait: that many cost little, and a service with little to do refuses nothing because one node is slow."""
OLDEST_SECONDS, LATE_SECONDS = 2.0, 1.0
"""How long the oldest request may wait, and how late the oldest undecided second may be, before the door takes less."""
USUAL_SECONDS, FEW_SECONDS = 1.5, 0.3
"""Up to which of these times the door takes more and more quickly."""
WORK_SECONDS = 1.25
"""While it is late, the door holds as many requests as are signed in this time."""
RATE_SECONDS = 3.0
"""Over how many seconds is counted how many were signed."""
GROWS_WELL, GROWS = 3.0, 1.3
"""By which factor the room grows in a second: if all is in time, or else."""
LEAST_AFTER, MOST_AFTER = 2, 16
"""The bounds of Retry-After."""


class Busy(ServiceError):
    """More requests wait than can be signed in time."""

    def __init__(self, after: int) -> None:
        super().__init__("more requests wait than can be signed in time")
        self.after = after
        """After how many seconds asking again is worthwhile."""


class Admission:
    def __init__(self, host, most_waiting: int) -> None:
        self.host = host
        self.most_waiting = most_waiting
        self.room = float(FIRST_ROOM if is_on("growth") else most_waiting)
        self.begun: Dict[object, Tuple[float, int]] = {}
        """Since when each request waits, the oldest first, and how many hashes it has."""
        self.waiting = 0
        """How many hashes wait for their signatures."""
        self.judged: Deque[Tuple[float, int]] = collections.deque([(time.monotonic(), 0)])
        """How many were signed, at recent times."""
        self.late_by = 0.0
        """How late the oldest undecided second is."""

    def is_full(self, count: int = 1) -> bool:
        """Whether a request of this many hashes would be refused. A large one may go beyond the room, which is small after a time with
        little to do, and never beyond the most."""
        return self.waiting + count > self.most_waiting or is_on("admission") and self.waiting >= self.room

    def begin(self, count: int = 1) -> object:
        """Counts a request of this many hashes that waits. Raises Busy if the door is full."""
        if self.is_full(count):
            raise Busy(self.retry_after())
        key = object()
        self.begun[key] = time.monotonic(), count
        self.waiting += count
        return key

    def end(self, key: object) -> None:
        self.waiting -= self.begun.pop(key)[1]

    def retry_after(self) -> int:
        """After how many seconds a client should ask again. All doors are late together: the next one would say the same."""
        return max(LEAST_AFTER, min(MOST_AFTER, int(2 * self.late_by))) if is_on("after") else LEAST_AFTER

    def judge(self, signed: int) -> None:
        """Sets how many requests may wait, by how many were signed so far and how late the oldest are."""
        now = time.monotonic()
        passed = now - self.judged[-1][0]
        borne = self.borne(now, signed)
        self.late_by = self.lateness()
        oldest = now - next(iter(self.begun.values()), (now, 0))[0]
        if self.late_by > LATE_SECONDS or oldest > OLDEST_SECONDS:
            self.room = max(float(LEAST_ROOM), min(self.room, borne))
        else:
            factor = GROWS_WELL if self.late_by < FEW_SECONDS and oldest < USUAL_SECONDS else GROWS
            most = max(float(FIRST_ROOM), 2 * borne) if is_on("growth") else self.most_waiting
            self.room = min(most, self.room * factor ** min(1.0, passed))

    def borne(self, now: float, signed: int) -> float:
        """How many requests are signed in WORK_SECONDS, by those of the last RATE_SECONDS."""
        while len(self.judged) > 1 and now - self.judged[1][0] > RATE_SECONDS:
            self.judged.popleft()
        then, before = self.judged[0]
        self.judged.append((now, signed))
        return WORK_SECONDS * (signed - before) / max(0.5, now - then)

    def lateness(self) -> float:
        """How late the oldest undecided second is. A plan that has just begun is not late."""
        host = self.host
        if host.now() < host.plan.start + 3:
            return 0.0
        undecided = min(host.view.held_by_any(), host.last_second)
        return max(0.0, host.now() - undecided - 1 - host.after)
