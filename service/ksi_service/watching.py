"""Files that an operator may change while a service runs: they are read again soon after they change."""
import os
import time
from typing import Optional, Tuple

LOOK_SECONDS = 1.0
"""How often is looked whether a file has changed."""


class Watch:
    def __init__(self, *paths: str) -> None:
        self.paths = paths
        self.seen: Optional[Tuple] = None
        self.looked = float("-inf")

    def has_changed(self) -> bool:
        """Whether the files are others than the last time. The first time they are."""
        now = time.monotonic()
        if now - self.looked < LOOK_SECONDS:
            return False
        self.looked = now
        before, self.seen = self.seen, tuple(map(state_of, self.paths))
        return before != self.seen


def state_of(path: str) -> Optional[Tuple[int, int, int]]:
    try:
        told = os.stat(path)
    except OSError:
        return None
    return told.st_mtime_ns, told.st_size, told.st_ino
