"""How much may come from somebody who is not trusted: a rate, and a store that a pause fills."""
import time

MOST_DEBT = 2.0
"""For how many seconds at most one thing waits."""


class Share:
    def __init__(self, rate: float, most: float) -> None:
        self.rate = rate
        """How many there may be a second."""
        self.most = most
        """How many there may be at once after a pause."""
        self.left = most
        self.since = time.monotonic()

    def grow(self) -> None:
        now = time.monotonic()
        self.left = min(self.most, self.left + (now - self.since) * self.rate)
        self.since = now

    def take(self, count: int) -> int:
        """How many of these are within the share. They are counted."""
        self.grow()
        taken = min(count, int(max(0.0, self.left)))
        self.left -= taken
        return taken

    def wait(self) -> float:
        """Counts one, and returns how many seconds it has to wait for its turn."""
        self.grow()
        self.left = max(self.left - 1, -MOST_DEBT * self.rate)
        return max(0.0, -self.left / self.rate)
