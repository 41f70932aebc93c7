"""Counts requests by path and status. Clients choose paths, so hashes and numbers in a path are one label, and there are few labels."""
import collections
import re
from typing import Dict

MOST_LABELS = 100
OTHER = "other"


def label_of(path: str, status: int) -> str:
    """The label of a path: each part that is a number or a hash is `*`. A path that leads nowhere is `other`."""
    if status in (400, 404, 414):
        return OTHER
    return "/".join("*" if re.fullmatch(r"[0-9]+|[0-9a-f]{8,}", part) else part for part in path.split("?")[0].split("/"))


class Requests:
    """How often a path was answered with a status."""

    def __init__(self) -> None:
        self.counts: Dict[str, Dict[int, int]] = collections.defaultdict(lambda: collections.defaultdict(int))

    def add(self, path: str, status: int) -> None:
        label = label_of(path, status)
        if label not in self.counts and len(self.counts) >= MOST_LABELS:
            label = OTHER
        self.counts[label][int(status)] += 1

    def told(self) -> Dict[str, Dict[int, int]]:
        return {label: dict(by_status) for label, by_status in self.counts.items()}
