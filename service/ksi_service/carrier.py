"""Carries messages between the hosts of a plan's machines: the interface, and the queues that every implementation shares.

A message is a JSON list whose first element is a word. A batch is one message a line. A batch may be lost, arrive twice, late or in
another order: the nodes tolerate all of that. A carrier has to guarantee only who sent a batch. The name must come from the
connection, for example from a certificate, and never from the batch."""
import asyncio
import collections
import json
import time
from typing import Any, Callable, Deque, Dict, Iterable, List, NamedTuple, Optional, Protocol

from .messages import is_of_vote

Message = List[Any]
Take = Callable[[str, bytes], None]

MOST_BYTES = 8 << 20
"""The largest batch that a host takes, in bytes."""
MOST_AT_ONCE = 2000
"""The most messages of one batch."""
MOST_WAITING = 20_000
"""How many messages may wait for one machine. Further messages are lost."""
LEAST_PATIENCE, MOST_PATIENCE = 1.5, 10.0
"""For how many seconds a batch may be in flight: five times as long as batches usually take, within these bounds."""


class Limit(NamedTuple):
    """How much is taken of a machine that is not trusted."""

    bytes: int
    """The largest batch."""
    rate: float
    """How many batches a second."""
    most: int
    """How many batches at once after a pause."""


class Carrier(Protocol):
    """The network, as the host needs it."""

    may_succeed: bool
    """Whether the hosts of a plan and of the next one may use it one after the other."""

    async def begin(self, take: Take) -> None:
        """Starts to receive: calls `take` on the event loop with the authenticated name of the sending machine, and its batch.
        Raises ServiceError or OSError if it cannot listen."""

    async def send(self, machine: str, batch: bytes, patience: float) -> bool:
        """Sends a batch to a machine. Returns whether that machine's host received it within `patience` seconds. Never raises for a
        machine that cannot be reached. The host sends a machine one batch at a time."""

    def add(self, machine: str, address: str, limit: Optional[Limit] = None) -> None:
        """Reaches another machine too, and takes its batches; within a limit, if there is one."""

    def remove(self, machine: str) -> None:
        """Takes nothing more of a machine."""

    def reachable(self) -> Iterable[str]:
        """The machines to which a connection is open, as far as the carrier knows. Shown by `status`; nothing depends on it."""

    async def stop(self) -> None:
        """Closes all connections."""


def batch_of(messages: Iterable[Message]) -> bytes:
    return "".join(json.dumps(it, separators=(",", ":")) + "\n" for it in messages).encode()


def messages_in(batch: bytes) -> List[Message]:
    """The messages of a batch. Raises ValueError if it is not one."""
    messages = [json.loads(line) for line in batch.splitlines()]
    if not all(isinstance(it, list) and it and isinstance(it[0], str) for it in messages):
        raise ValueError("a message is a list that begins with a word")
    return messages


class Queue:
    """The messages that wait for one machine."""

    def __init__(self) -> None:
        self.votes: Deque[Message] = collections.deque()
        """Lines of the vote, which go first. Other messages keep their order: a round is `closed` after its submission was sent."""
        self.waiting: Deque[Message] = collections.deque()
        self.wanted = asyncio.Event()
        self.usual = 0.0
        """How long a batch takes, as a moving average, in seconds."""

    def patience(self) -> float:
        return max(LEAST_PATIENCE, min(MOST_PATIENCE, 5 * self.usual))

    def next_batch(self) -> List[Message]:
        return [(self.votes or self.waiting).popleft() for _ in range(min(MOST_AT_ONCE, len(self)))]

    def add(self, message: Message) -> None:
        is_vote = message[0] == "line" and is_of_vote(message[2])
        (self.votes if is_vote else self.waiting).append(message)
        self.wanted.set()

    def __len__(self) -> int:
        return len(self.votes) + len(self.waiting)


class Outbox:
    """Sends messages by a carrier, in batches: one batch is in flight to each machine, and messages that are queued meanwhile make the next."""

    def __init__(self, carrier: Carrier, machines: Iterable[str]) -> None:
        self.carrier = carrier
        self.queues: Dict[str, Queue] = {it: Queue() for it in machines}
        self.serving: Dict[str, asyncio.Task] = {}
        self.has_changed = asyncio.Event()
        self.sent = 0
        self.lost = 0
        self.batches = 0

    def send(self, machine: str, message: Message) -> None:
        """Queues a message, also for a machine that seems to be away: it may only be slow."""
        queue = self.queues.get(machine)
        if queue is None or len(queue) >= MOST_WAITING:
            self.lost += 1
            return
        queue.add(message)

    def usual(self, machine: str) -> float:
        """How long a batch to a machine usually takes, in seconds."""
        return self.queues[machine].usual

    async def run(self) -> None:
        """Serves all machines, also those that are added."""
        try:
            while True:
                self.has_changed.clear()
                self.serving.update({it: asyncio.create_task(self.serve(it)) for it in self.queues if it not in self.serving})
                changed = asyncio.create_task(self.has_changed.wait())
                done, _ = await asyncio.wait([changed, *self.serving.values()], return_when=asyncio.FIRST_COMPLETED)
                changed.cancel()
                for task in done - {changed}:
                    if not task.cancelled():
                        task.result()
        finally:
            for task in self.serving.values():
                task.cancel()
            await asyncio.gather(*self.serving.values(), return_exceptions=True)

    def add(self, machine: str) -> None:
        """Messages may be sent to another machine too."""
        self.queues.setdefault(machine, Queue())
        self.has_changed.set()

    def remove(self, machine: str) -> None:
        """What waits for a machine is lost."""
        self.queues.pop(machine, None)
        task = self.serving.pop(machine, None)
        if task is not None:
            task.cancel()
        self.has_changed.set()

    async def serve(self, machine: str) -> None:
        """Sends the queued messages of one machine."""
        queue = self.queues[machine]
        while True:
            await queue.wanted.wait()
            queue.wanted.clear()
            while len(queue):
                await self.send_batch(machine, queue)

    async def send_batch(self, machine: str, queue: Queue) -> None:
        messages = queue.next_batch()
        began = time.monotonic()
        if await self.carrier.send(machine, batch_of(messages), queue.patience()):
            queue.usual += (time.monotonic() - began - queue.usual) / 8
            self.sent += len(messages)
            self.batches += 1
        else:
            self.lost += len(messages)
