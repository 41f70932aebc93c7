"""Which lines may store a fact, and which of a node's unanswered lines happened before it ended.

A node takes its lines in order, and of its unanswered lines at most one may store a fact. So the count of facts in its file shows after
a kill whether that line happened."""
from typing import Dict, List, Optional

from .errors import NeedsOperator

MAY_STORE = {"close", "response", "seal", "ballot", "synod"}
"""The first words of lines whose step may store a fact."""
MOST_SECONDS = 64
"""For how many seconds votes are counted. For earlier ones each vote may store."""


class LostFacts(NeedsOperator):
    """A node found less than it had acknowledged, or more than can be: its file is not the one of this record."""


def word(line: str) -> str:
    return line.split(" ", 1)[0]


def may_store(line: str) -> bool:
    """Whether the step of a line may store a fact. A promise (`synod CORE SECOND last ..`) only counts in the ballot in hand, which no file
    has: by the clause `fact` of `begun` in crates/ksi_corenode/src/receiving.rt it stores none."""
    words = line.split(" ", 4)
    return words[0] in MAY_STORE and not (words[0] == "synod" and len(words) > 3 and words[3] == "last")


def cores_of(plan: Optional[str]) -> int:
    """How many cores the text of a plan has, or 1 if there is none."""
    rows = [row.split(" ") for row in (plan or "").splitlines()]
    return next((int(row[1]) for row in rows if row[0] == "cores" and len(row) == 2 and row[1].isdigit()), 1)


def second_of_vote(line: str) -> Optional[int]:
    """The second of a line `synod CORE SECOND voted ..`; none for other lines."""
    words = line.split(" ", 4)
    return int(words[2]) if words[0] == "synod" and len(words) > 3 and words[3] == "voted" and words[2].isdigit() else None


class Votes:
    """How many votes (`synod CORE SECOND voted ..`) a node was given for each second since its process was started.

    A vote stores a fact only if it completes a majority of the ballot in hand, which has only votes of this process (the clause `fact` of
    `decided` in crates/ksi_corenode/src/receiving.rt, and `on_voted` of crates/ksi_synod). So a vote stores nothing as long as the node
    was given fewer votes for that second than make a majority, whoever they are from and whatever their ballot is."""

    def __init__(self, first: Optional[int] = 0, counts: Optional[Dict[int, int]] = None) -> None:
        self.first = first
        """The first second whose votes are counted; none if no votes are."""
        self.counts: Dict[int, int] = dict(counts or {})

    def would_store(self, line: str, cores: int) -> bool:
        """Whether a line may store a fact if it is given to the node next."""
        second = second_of_vote(line)
        if second is None:
            return may_store(line)
        return self.first is None or second < self.first or 2 * (self.counts.get(second, 0) + 1) > cores

    def count(self, line: str) -> None:
        """Counts a line that is given to the node."""
        second = second_of_vote(line)
        if second is None or self.first is None or second < self.first:
            return
        self.counts[second] = self.counts.get(second, 0) + 1
        if len(self.counts) > MOST_SECONDS:
            oldest = min(self.counts)
            del self.counts[oldest]
            self.first = oldest + 1

    def told(self) -> list:
        """What a record keeps of it, from which `of` makes it again."""
        return [self.first, sorted(self.counts.items())]

    @classmethod
    def of(cls, told: Optional[list]) -> "Votes":
        """A record of before has none: then each vote may store."""
        return cls(told[0], {second: count for second, count in told[1]}) if told else cls(None)


def count_happened(name: str, stores: List[bool], acknowledged: List[int], found: int) -> int:
    """How many of the lines that a node was given and did not answer had happened when it ended, by how many facts it found. `stores` has
    for each of them whether it may store.

    If the node found one fact more than it acknowledged, all lines up to the first that may store happened, and else none: a later one
    that may store was only given to the process after that one's answer was on the record. `acknowledged` has two counts between a
    forgetting and the next start."""
    if found in acknowledged:
        return 0
    if found != acknowledged[0] + 1 or True not in stores:
        raise LostFacts(f"{name} acknowledged {acknowledged[0]} facts and found {found}")
    return stores.index(True) + 1
