"""Sends hashes and signatures to doors in batches, over few connections at once.

Work arrives one by one. A connection that is free takes all that waits, up to the size of a batch: so a small tree does not wait for a full
batch, and a large one has full batches after the first second."""
import queue
import ssl
import threading
from typing import Any, Callable, List, NamedTuple, Optional, Sequence

from . import libksi
from .errors import ServiceError

TIMES = 4
"""How often an entry is sent that a door refused for the time being."""
PATIENCE = 90.0
"""For how long doors that are busy or away are asked, in seconds."""
TEMPORARY = (0, 429, 503)
"""The statuses of refusals after which another time or another door may help; 0 is no answer."""


class DoorGone(ServiceError):
    """No door answers, or all refuse everything."""


class Item(NamedTuple):
    """An entry of a batch, with anything that its sender wants back."""

    entry: bytes
    of: Any
    times: int = 0


Send = Callable[[Any, List[bytes]], List[Any]]
"""Sends entries by a client of ksi.client. Returns for each a Signature or a Refused."""
Done = Callable[[List[Any]], None]
"""Is called with pairs of an item and its result, in a thread of a connection."""


class Doors:
    """The clients of one connection: of the first door, or if it fails of the next ones."""

    def __init__(self, urls: Sequence[str], key: Optional[str], context: Optional[ssl.SSLContext], first: int) -> None:
        turned = [*urls[first % len(urls):], *urls[:first % len(urls)]]
        patience = PATIENCE if len(turned) == 1 else PATIENCE / len(turned) / 2
        self.clients = [libksi.client().Client(url, key, patience=patience, context=context) for url in turned]

    def send(self, send: Send, entries: List[bytes]) -> List[Any]:
        """The results of the first door that takes any entry."""
        refused = libksi.client().Refused
        found: List[Any] = []
        for _ in range(len(self.clients)):
            found = send(self.clients[0], entries)
            if not all(isinstance(it, refused) and it.status in TEMPORARY for it in found):
                return found
            self.clients.append(self.clients.pop(0))
        return found

    def close(self) -> None:
        for it in self.clients:
            it.close()


class Batches:
    """Connections that send what is put, until `end`."""

    def __init__(self, doors: Callable[[int], Doors], connections: int, size: int, send: Send, done: Done) -> None:
        self.size = size
        self.send = send
        self.done = done
        self.waiting: "queue.Queue[Optional[Item]]" = queue.Queue(4 * size * connections)
        self.failure: Optional[BaseException] = None
        self.left = 0
        self.lock = threading.Condition()
        self.threads = [threading.Thread(target=self.run, args=(doors(number),), daemon=True) for number in range(connections)]
        for it in self.threads:
            it.start()

    def put(self, entry: bytes, of: Any) -> None:
        """Adds an entry. Waits while too many do. Raises the failure of a connection."""
        with self.lock:
            self.left += 1
        while True:
            self.see_failure()
            try:
                return self.waiting.put(Item(entry, of), timeout=0.5)
            except queue.Full:
                continue

    def see_failure(self) -> None:
        if self.failure is not None:
            raise self.failure

    def end(self) -> None:
        """Waits until everything has its result."""
        with self.lock:
            while self.left and self.failure is None:
                self.lock.wait(0.5)
        for _ in self.threads:
            self.waiting.put(None)
        for it in self.threads:
            it.join()
        self.see_failure()

    def batch(self) -> List[Item]:
        """All items that wait, at least one. Empty at the end."""
        first = self.waiting.get()
        items = [] if first is None else [first]
        while items and len(items) < self.size:
            try:
                it = self.waiting.get_nowait()
            except queue.Empty:
                break
            if it is None:
                self.waiting.put(None)
                break
            items.append(it)
        return items

    def run(self, doors: Doors) -> None:
        try:
            while self.failure is None and (items := self.batch()):
                self.send_all(doors, items)
        except BaseException as failure:  # pylint: disable=broad-except
            # whoever puts the next entry, or waits for the end, raises it
            self.failure = self.failure or failure
        finally:
            doors.close()
            with self.lock:
                self.lock.notify_all()

    def send_all(self, doors: Doors, items: List[Item]) -> None:
        """Sends items, again if they were refused for the time being."""
        refused = libksi.client().Refused
        while items:
            found = doors.send(self.send, [it.entry for it in items])
            if all(isinstance(it, refused) and it.status == 0 for it in found):
                raise DoorGone(f"no door answers: {found[0].detail}")
            pairs = list(zip(items, found))
            again = [it for it, result in pairs if isinstance(result, refused) and result.status in TEMPORARY and it.times < TIMES]
            settled = {id(it) for it in again}
            rest = [pair for pair in pairs if id(pair[0]) not in settled]
            self.done(rest)
            with self.lock:
                self.left -= len(rest)
                self.lock.notify_all()
            items = [it._replace(times=it.times + 1) for it in again]
