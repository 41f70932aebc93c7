"""Carries batches between hosts over Redis Streams, for operators who run such a server already.

The stream `ksi:A:B` has the batches from A to B. Its name says who sent them, so the server has to let only A add to `ksi:A:*`:
service/deploy/redis-users.acl has such a user. Whoever runs the server can speak for every machine. While it is away, so is the
service. If it loses its data, some messages are lost."""
import asyncio
import logging
import time
from typing import Dict, Iterable, List, Optional, Tuple

from .carrier import MOST_BYTES, Limit, Take
from .errors import MissingPackage, ServiceError

try:
    import redis
    import redis.asyncio
except ImportError as error:
    if (error.name or "").split(".")[0] != "redis":
        raise
    raise MissingPackage("python3-redis") from None

log = logging.getLogger(__name__)

MOST_KEPT = 1000
"""About how many batches a stream keeps. A machine that reads more slowly loses the older ones."""
MOST_AT_ONCE = 16
"""How many batches of a machine are read at once."""
BLOCK_MILLISECONDS = 500
CONNECT_SECONDS, SILENT_SECONDS = 1.0, 5.0
AGAIN_SECONDS = 0.2
"""How long after a failure the server is asked again."""
THERE_SECONDS = 2.0
"""For how long after a batch of a machine it counts as reachable."""


class RedisCarrier:
    """A `Carrier` over a Redis server."""

    may_succeed = False

    def __init__(self, me: str, others: Iterable[str], url: str) -> None:
        self.me = me
        self.url = url
        self.places: Dict[str, str] = {f"ksi:{other}:{me}": "$" for other in others}
        """The last batch that was read of each stream to this machine."""
        self.came: Dict[str, float] = {}
        """When a batch came from each machine."""
        self.client: Optional[redis.asyncio.Redis] = None
        self.reading: Optional[asyncio.Task] = None
        self.is_away = False

    async def begin(self, take: Take) -> None:
        try:
            self.client = redis.asyncio.Redis.from_url(self.url, socket_connect_timeout=CONNECT_SECONDS, socket_timeout=SILENT_SECONDS)
        except ValueError as reason:
            raise ServiceError(f"the server's URL cannot be used: {reason}") from None
        self.reading = asyncio.create_task(self.read(take))

    async def send(self, machine: str, batch: bytes, patience: float) -> bool:
        """Returns whether the server has the batch. Whether the machine received it shows by what it sends."""
        if len(batch) > MOST_BYTES:
            return False
        add = self.client.xadd(f"ksi:{self.me}:{machine}", {"batch": batch}, maxlen=MOST_KEPT, approximate=True)
        try:
            await asyncio.wait_for(add, patience)
            return True
        except (redis.RedisError, OSError, asyncio.TimeoutError):
            return False

    async def read(self, take: Take) -> None:
        """Reads batches, and goes on at the last one after the server was away."""
        while True:
            try:
                await self.see_ends()
                for stream, entries in await self.client.xread(dict(self.places), count=MOST_AT_ONCE, block=BLOCK_MILLISECONDS):
                    self.received(stream.decode(), entries, take)
                self.note(None)
            except (redis.RedisError, OSError, asyncio.TimeoutError) as reason:
                self.note(reason)
                await asyncio.sleep(AGAIN_SECONDS)

    async def see_ends(self) -> None:
        """Begins at the end of each stream: batches from before this machine was started are of no use."""
        for stream, place in list(self.places.items()):
            if place == "$":
                last = await self.client.xrevrange(stream, count=1)
                self.places[stream] = last[0][0].decode() if last else "0"

    def received(self, stream: str, entries: List[Tuple[bytes, Dict[bytes, bytes]]], take: Take) -> None:
        machine = stream.split(":")[1]
        if stream not in self.places:
            return
        for place, fields in entries:
            self.places[stream] = place.decode()
            batch = fields.get(b"batch", b"")
            if 0 < len(batch) <= MOST_BYTES:
                self.came[machine] = time.monotonic()
                self.hand(machine, batch, take)

    def hand(self, machine: str, batch: bytes, take: Take) -> None:
        try:
            take(machine, batch)
        except Exception:
            log.exception("a batch of %s could not be taken", machine)

    def note(self, reason: Optional[Exception]) -> None:
        """Logs once that the server is away, and once that it is back."""
        if reason is not None and not self.is_away:
            log.warning("the server is away or refuses: %s", reason)
        if reason is None and self.is_away:
            log.info("the server is there again")
        self.is_away = reason is not None

    def add(self, machine: str, address: str, limit: Optional[Limit] = None) -> None:
        """Whoever runs the server limits what it takes."""
        self.places.setdefault(f"ksi:{machine}:{self.me}", "$")

    def remove(self, machine: str) -> None:
        self.places.pop(f"ksi:{machine}:{self.me}", None)

    def reachable(self) -> Iterable[str]:
        now = time.monotonic()
        return sorted(machine for machine, came in self.came.items() if now - came < THERE_SECONDS)

    async def stop(self) -> None:
        if self.reading is not None:
            self.reading.cancel()
            await asyncio.gather(self.reading, return_exceptions=True)
        if self.client is not None:
            await self.client.close()
            await self.client.connection_pool.disconnect()
