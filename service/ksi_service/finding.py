"""Finds a signature by its hash: on this machine, or else on the others, whose aggregators may have signed it for this machine's door.

Between machines go `["find", ID, HEX]` and `["found", ID, TEXT, SECOND]` (inbox.py). TEXT is null if that machine has no such signature, and
false if it cannot say."""
import asyncio
from typing import Any, Dict, List, Optional, Union

from .answers import Refusal
from .houses import Signed
from .indexing import Found, Indexing, NotIndexed

ANSWER_SECONDS = 3.0
"""How long other machines may take to answer."""
MOST_ASKED = 256
"""How many hashes this machine asks others for at once."""

Told = Union[Found, None, bool]
"""The answer of a machine: a signature, None if it has none, and False if it cannot say."""


class Asking:
    """A hash that other machines are asked for."""

    def __init__(self, machines: List[str]) -> None:
        self.told: Dict[str, Told] = {it: False for it in machines}
        self.left = set(machines)
        self.done: asyncio.Future = asyncio.get_running_loop().create_future()

    def take(self, machine: str, told: Told) -> None:
        if machine in self.left:
            self.left.discard(machine)
            self.told[machine] = told
            if (isinstance(told, Found) or not self.left) and not self.done.done():
                self.done.set_result(None)


class Finding:
    def __init__(self, host: Any, indexing: Indexing) -> None:
        self.host = host
        self.indexing = indexing
        self.asked: Dict[int, Asking] = {}
        self.number = 0

    async def lookup(self, imprint: str) -> Signed:
        """The last signature of a hash that this machine has, or else one of another machine. Raises a Refusal if there is none, or it cannot
        be said."""
        reason = ""
        try:
            found = await self.indexing.find(imprint)
        except NotIndexed as fault:
            found, reason = None, str(fault)
        if found is None and self.others():
            asking = await self.ask_others(imprint)
            found = next((it for it in asking.told.values() if isinstance(it, Found)), None)
            silent = [name for name, it in asking.told.items() if it is False]
            if silent and not reason:
                reason = f"no answer comes from {' '.join(silent)}, which may have it"
        if found is not None:
            return Signed(imprint, bytes.fromhex(found.text), found.second)
        if reason:
            raise Refusal("lookup-incomplete", reason, Retry_After="5")
        of = " in this plan; earlier plans are not searched" if self.host.succession.before else ""
        raise Refusal("signature-unknown", f"the service has no signature of this hash{of}")

    def others(self) -> List[str]:
        """The machines that are asked: no gateways, since only a gateway's own clients ask it, and no others by it."""
        return [] if self.host.places.is_gateway else list(self.host.trusted)

    async def ask_others(self, imprint: str) -> Asking:
        asking = Asking(self.others())
        if len(self.asked) >= MOST_ASKED:
            return asking
        self.number += 1
        number = self.number
        self.asked[number] = asking
        try:
            for machine in asking.told:
                self.host.send(machine, ["find", number, imprint])
            await asyncio.wait([asking.done], timeout=ANSWER_SECONDS)
        finally:
            del self.asked[number]
        return asking

    # the other side

    def find(self, machine: str, number: int, imprint: str) -> None:
        """Another machine asks for a hash."""
        self.host.rounds.spawn(self.answer(machine, number, imprint))

    async def answer(self, machine: str, number: int, imprint: str) -> None:
        try:
            found: Optional[Found] = await self.indexing.find(imprint)
        except NotIndexed:
            self.host.send(machine, ["found", number, False, 0])
            return
        self.host.send(machine, ["found", number, found.text if found else None, found.second if found else 0])

    def found(self, machine: str, number: int, told: Told) -> None:
        asking = self.asked.get(number)
        if asking is not None:
            asking.take(machine, told)
