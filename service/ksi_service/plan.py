"""The plan of a service: how many cores, who submits to whom, under which names, and the first second. Its file is a schedule without
events, of version 2 if an aggregator has a name."""
import re
from dataclasses import dataclass
from functools import cached_property
from typing import List, Tuple

from .errors import ServiceError
from .hours import Broken

SECONDS = 1 << 24
"""How many seconds a plan has from its start on: 194 days."""
MOST_LEVELS = 7
"""How many aggregators may be above one another: a response has at most seven chains."""
MOST_AGGREGATORS = 4096
NAME = re.compile("[A-Za-z0-9._-]{1,64}")
"""A name that is hashed into the tree (docs/FORMATS.md, "Names")."""


class Odd(ServiceError):
    """The words of a plan are wrong."""


def parents_of(text: str, cores: int) -> Tuple[str, ...]:
    """To whom each aggregator submits, by words: a number of aggregators below the cores in turn, or all parents, as `c0,c1,a0,a0`."""
    if re.fullmatch(r"[1-9][0-9]{0,4}", text):
        parents = tuple(f"c{number % cores}" for number in range(int(text)))
    else:
        parents = tuple(text.split(","))
    if len(parents) > MOST_AGGREGATORS:
        raise Odd(f"a plan has at most {MOST_AGGREGATORS} aggregators")
    for number, parent in enumerate(parents):
        found = re.fullmatch(r"([ca])(0|[1-9][0-9]{0,3})", parent)
        if not found or int(found[2]) >= (cores if found[1] == "c" else number):
            raise Odd(f"aggregator {number} submits to a core below {cores} or to an aggregator below {number}, as c0 or a0, and not to '{parent}'")
    if max(map(len, Plan(cores, 0, parents).ways)) > MOST_LEVELS:
        raise Odd(f"at most {MOST_LEVELS} aggregators may be above one another")
    return parents


def label_in(words: List[str]) -> str:
    """The name in the last words of an aggregator's line, or no letters. Raises ValueError if they are no name."""
    if not words:
        return ""
    if len(words) != 2 or words[0] != "name" or not NAME.fullmatch(words[1]):
        raise ValueError("not a name")
    return words[1]


@dataclass(frozen=True)
class Plan:
    cores: int
    start: int
    parents: Tuple[str, ...]
    """To whom each aggregator submits: a core as `c0`, or an aggregator of a lower number as `a0`."""
    labels: Tuple[str, ...] = ()
    """The name of each aggregator, or no letters for none; nothing if none has a name."""

    @property
    def last_second(self) -> int:
        return self.start + SECONDS - 1

    @cached_property
    def leaders(self):
        """The cores that have aggregators."""
        return sorted({self.core_above(it) for it in range(len(self.parents))})

    @cached_property
    def below(self):
        """The aggregators whose items come to each core."""
        return {core: [it for it in range(len(self.parents)) if self.core_above(it) == core] for core in range(self.cores)}

    @cached_property
    def levels(self):
        """The aggregators below each core by levels, the deepest first: each closes before the one above it."""
        deepest = max(map(len, self.ways), default=0)
        by_level = {core: [[it for it in below if len(self.ways[it]) == level] for level in range(deepest, 0, -1)] for core, below in self.below.items()}
        return {core: list(filter(None, levels)) for core, levels in by_level.items()}

    @cached_property
    def ways(self) -> List[List[int]]:
        """For each aggregator the aggregators on the path up to its core, itself the first."""
        ways: List[List[int]] = []
        for number, parent in enumerate(self.parents):
            ways.append([number, *([] if parent[0] == "c" else ways[int(parent[1:])])])
        return ways

    @classmethod
    def read(cls, path):
        """The plan of a file. Raises Broken if the file has none."""
        with open(path, encoding="ascii", errors="replace") as file:
            return cls.parsed(file.read(), path)

    @classmethod
    def parsed(cls, text: str, path: str) -> "Plan":
        """The plan in the text of a file. Raises Broken if it has none."""
        cores, start, parents, labels = 0, 0, [], []
        try:
            for words in map(str.split, text.splitlines()):
                if words[:1] == ["cores"]:
                    cores = int(words[1])
                elif words[:1] == ["start"]:
                    start = int(words[1])
                elif words[:1] == ["aggregator"]:
                    parents.append(words[3])
                    labels.append(label_in(words[4:]))
            if parents_of(",".join(parents), cores) == tuple(parents):
                return cls(cores, start, tuple(parents), tuple(labels) if any(labels) else ())
        except (Odd, IndexError, ValueError):
            pass
        raise Broken(f"{path} is not the plan that was made")

    def told(self) -> str:
        """The plan in words, as the command takes it."""
        return f"--cores {self.cores} --aggregators {','.join(self.parents)}"

    def text(self):
        labels = self.labels or ("",) * len(self.parents)
        rows = [f"ksi-schedule {2 if self.labels else 1}", f"cores {self.cores}", f"start {self.start}"]
        rows += [f"aggregator {number} parent {parent}{f' name {label}' if label else ''}" for number, (parent, label) in enumerate(zip(self.parents, labels))]
        return "".join(f"{row}\n" for row in rows)

    def names(self):
        """The nodes: `c0`, `c1` .. and `a0`, `a1` .."""
        return [f"c{number}" for number in range(self.cores)] + [f"a{number}" for number in range(len(self.parents))]

    def is_majority(self, count) -> bool:
        """Whether this many cores are a majority."""
        return 2 * count > self.cores

    def may_sign(self, up) -> bool:
        """Whether these nodes are enough: a majority of the cores, and an aggregator with all nodes between it and one of them."""
        cores = [it for it in range(self.cores) if f"c{it}" in up]
        return self.is_majority(len(cores)) and any(all(f"a{above}" in up for above in self.ways[it]) for core in cores for it in self.below[core])

    def core_above(self, aggregator) -> int:
        return int(self.parents[self.ways[aggregator][-1]][1:])

    def leader(self, second):
        """Whose candidate should win the second: the cores that have aggregators take turns, since a decree is one core's tree."""
        return self.leaders[second % len(self.leaders)]
