"""Takes the messages of other hosts. Each is one of these lists:

    ["line", TO, LINE, STEP, PLACE]           a message that a node there sent: message PLACE of step STEP of that machine's record
    ["closed", AGGREGATOR, SECOND]            a round there is closed, or has no items; what it submitted was sent before
    ["none", AGGREGATOR, SECOND]              no response comes for a round here
    ["ask", ID, SECOND, AGGREGATOR, HEX, NAME]   a request of a door there, for an aggregator here; most have no NAME
    ["got", ID, TEXT or null]                 the answer to such a request: a signature, or none
    ["lacks", CORE, SECOND]                   a core there lacks a second, and asks for its Success
    ["find", ID, HEX]                         a door there looks for a signature of a hash (finding.py)
    ["found", ID, TEXT or null or false, SECOND]   the answer: a signature and its second, none, or that this cannot be said
    ["alive", {..}]                           a heartbeat (heartbeat.py)
    ["retired", {..}]                         the cores there retired (succession.py)
    ["never", {..}], ["nevered", {..}], ["freed", {..}]   a next plan is given up (never.py)

All but `line` and the last two rows are hints: a wrong one costs time, and changes no root. The sender's name is the carrier's, which
authenticates it. Of a machine whose last heartbeat was refused, or that sent none yet, nothing but the last two rows is taken. A gateway
sends and is sent only some of the rows (gateway_links.py)."""
import logging
import re
from typing import Any, Dict

from .carrier import Message, messages_in
from .indexing import Found
from .messages import second_of
from .plan import NAME
from .plans import NotNext

log = logging.getLogger(__name__)

MOST_AHEAD = 2
"""Lines for seconds that are further ahead of this machine's clock are dropped: a machine whose clock is ahead decides nothing alone."""
MOST_LINES = 10_000
"""How many lines may wait for a node here. Further lines are dropped."""
FROM_ABOVE = {"line", "none", "alive", "retired"}
"""What a gateway takes of the machines above it: requests come to its own door alone, and it looks for no signature of others."""
LINE = re.compile(r"(?:synod [0-9] [0-9]{1,12} (?:next|last|begin|voted|success)|submission [0-9]{1,4} [0-9]{1,12}|response [0-9]{1,12})(?: [!-~]+)*")
"""The lines that nodes send."""
HASH = re.compile("[0-9a-f]{64}")
OF_PLANS = "never", "nevered", "freed"
SIGNATURE = re.compile("([0-9a-f]{2})+")
NUMBER_LIMIT = 1 << 63


def number_in(value: Any) -> int:
    if type(value) is not int or not 0 <= value < NUMBER_LIMIT:
        raise ValueError("not a number")
    return value


class Inbox:
    def __init__(self, host) -> None:
        self.host = host
        self.dropped = 0
        """Messages that were not used: too early, too many, or malformed."""
        self.forged = 0
        """Lines whose sender is not a node of the machine that sent them."""
        self.kinds: Dict[str, Any] = {"line": self.line, "closed": self.closed, "none": self.none, "ask": self.ask, "got": self.got, "lacks": self.lacks,
                                      "find": self.find, "found": self.found,
                                      "alive": lambda *words: self.host.heartbeat.take(*words), "retired": lambda *words: self.host.succession.take(*words),
                                      "never": lambda *words: self.host.succession.never.asked(*words), "nevered": lambda *words: self.host.succession.never.answered(*words),
                                      "freed": lambda *words: self.host.succession.never.freed(*words)}

    def take(self, machine: str, batch: bytes) -> None:
        """Takes a batch of another machine."""
        if machine in self.host.succession.former:
            self.host.succession.see_other_plan(machine)
        if machine in self.host.links.names:
            self.host.links.take(machine, batch)
        else:
            self.take_all(machine, batch)

    def take_all(self, machine: str, batch: bytes) -> None:
        try:
            messages = messages_in(batch)
        except ValueError as fault:
            self.refuse(machine, batch[:80], fault)
            return
        for message in messages:
            self.take_one(machine, message)

    def take_one(self, machine: str, message: Message) -> None:
        kind, *words = message
        if self.host.places.is_gateway and kind not in FROM_ABOVE and machine not in self.host.links.names:
            self.dropped += 1
            return
        # a machine of the plan before, or of the one after, is no peer
        is_open = kind in OF_PLANS or machine in self.host.peers and kind in ("alive", "retired")
        if not is_open and not (machine in self.host.peers and self.host.heartbeat.takes_part(machine)):
            self.dropped += 1
            return
        try:
            self.kinds[kind](machine, *words)
        except (KeyError, TypeError, ValueError, IndexError, NotNext) as fault:
            self.refuse(machine, message, fault)

    def refuse(self, machine: str, message: Any, fault: Exception) -> None:
        if not self.dropped:
            log.warning("%s sent a malformed message, which is dropped, as are further ones: %.80s (%r)", machine, message, fault)
        self.dropped += 1

    def line(self, machine: str, to: str, text: str, step: int, place: int) -> None:
        """Gives a line to a node, if a node of that machine can have sent it, and its second is not ahead of the clock."""
        if to not in self.host.nodes or not LINE.fullmatch(text) or self.machine_of_sender(to, text) != machine:
            self.forged += 1
        elif not self.host.may_begin() or second_of(text) > self.host.now() + MOST_AHEAD or len(self.host.nodes[to].waiting) > MOST_LINES:
            self.dropped += 1
        else:
            self.host.give(to, text, [machine, number_in(step), number_in(place)])

    def machine_of_sender(self, to: str, text: str) -> str:
        """The machine of the node that a line says it is from, or no name if that has none. Who sends a response is in no word: it is the node above."""
        word, number, _ = text.split(" ", 2)
        sender = {"synod": f"c{number}", "submission": f"a{number}"}.get(word) or self.host.plan.parents[int(to[1:])]
        return self.host.places.machine_of.get(sender, "")

    def closed(self, machine: str, aggregator: str, second: int) -> None:
        if self.host.places.machine_of[aggregator] == machine and self.is_near(second):
            self.host.closings.note(aggregator, second)

    def is_near(self, second: int) -> bool:
        return abs(number_in(second) - self.host.now()) < 60

    def none(self, machine: str, aggregator: str, second: int) -> None:
        if self.host.places.machine_of[self.host.plan.parents[int(aggregator[1:])]] == machine:
            self.host.rounds.none(aggregator, number_in(second))

    def ask(self, machine: str, ask: int, second: int, aggregator: str, imprint: str, name: Any = None) -> None:
        if not HASH.fullmatch(imprint) or aggregator not in self.host.nodes or name is not None and not NAME.fullmatch(name):
            raise ValueError("not a request")
        self.host.rounds.ask(machine, number_in(ask), number_in(second), aggregator, imprint, *([] if name is None else [name]))

    def got(self, machine: str, ask: int, text: Any) -> None:
        if text is not None and not SIGNATURE.fullmatch(text):
            raise ValueError("not a signature")
        self.host.desk.got(machine, number_in(ask), text)

    def lacks(self, machine: str, core: str, second: int) -> None:
        if self.host.places.machine_of[core] == machine:
            self.host.tell_peer(machine, core, number_in(second))

    def find(self, machine: str, number: int, imprint: str) -> None:
        if not HASH.fullmatch(imprint):
            raise ValueError("not a hash")
        if self.host.finding:
            self.host.finding.find(machine, number_in(number), imprint)

    def found(self, machine: str, number: int, text: Any, second: int) -> None:
        if text not in (None, False) and not SIGNATURE.fullmatch(text):
            raise ValueError("not a signature")
        if self.host.finding:
            self.host.finding.found(machine, number_in(number), Found(text, number_in(second)) if text else text)
