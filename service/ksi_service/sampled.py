"""Signatures that were returned in an hour, chosen by chance, which are compared with those of the aggregators."""
import random
from typing import Dict, List, Optional, Tuple

from .record import Signed, Step


class Sampled:
    """At most this many requests, each of which is as likely as any other."""

    def __init__(self, most: int) -> None:
        self.most = most
        self.seen = 0
        self.dice = random.Random(1)
        self.steps: List[int] = []
        self.chosen: Dict[int, Tuple[str, str]] = {}
        """The aggregator and the number of a request that was accepted, by its step."""
        self.texts: Dict[int, str] = {}
        """The signature that was returned for it, until it is compared."""
        self.compared = 0

    def step(self, number: int, step: Step) -> None:
        """Takes a step of a node that is compared."""
        words = (step.line or "").split(" ", 2)
        if words[0] != "request" or not step.block or not step.block[0].startswith("answer number "):
            return
        self.seen += 1
        place = self.free(number)
        if place is not None:
            self.chosen.pop(self.steps[place], None)
            self.texts.pop(self.steps[place], None)
            self.steps[place] = number
            self.chosen[number] = (step.node, words[1])

    def free(self, number: int) -> Optional[int]:
        """The place of the request among those that are chosen, or None if it is not chosen."""
        if len(self.steps) < self.most:
            self.steps.append(number)
            return len(self.steps) - 1
        place = self.dice.randrange(self.seen)
        return place if place < self.most else None

    def signed(self, it: Signed) -> None:
        """Takes a signature that was returned."""
        if it.step in self.chosen:
            self.texts[it.step] = it.text

    def due(self, name: str) -> List[Tuple[str, str]]:
        """The numbers and signatures of an aggregator that are to be compared before it forgets them."""
        found = [it for it in self.texts if self.chosen[it][0] == name]
        self.compared += len(found)
        return [(self.chosen[it][1], self.texts.pop(it)) for it in found]
