"""Keeps the index of this machine's signatures, and finds signatures by their hashes.

Entries that are handed out are noted at once and written to the table each second. Those that an earlier run left out are read from the record in a
thread. Until that is done, a hash that is not found is not unknown."""
import asyncio
import concurrent.futures
import contextlib
import logging
import os
import sqlite3
import time
from typing import Any, Callable, Dict, Iterator, List, NamedTuple, Optional, Tuple

from . import hours
from .elements import Malformed, parts_of
from .grouped import signatures_of
from .hours import Broken
from .index import Index, Place

log = logging.getLogger(__name__)

WRITE_SECONDS = 1.0
AT_ONCE = 1000
"""How many signatures and other entries of the record are read without a pause."""
PAUSE_SECONDS = 0.002
MOST_FINDING = 64
"""How many signatures are looked for at once."""
LOOK_SECONDS = 0.01
AGAIN_SECONDS = 30
"""How long after a failed write the next one is tried."""
SIGNED, HANDED = b'["signed",', b'["handed",'


class NotIndexed(Exception):
    """It cannot be said whether there is a signature: the index is being made, or too many are looked for."""


class Found(NamedTuple):
    text: str
    """The signature in hex."""
    second: int


class Differs(Exception):
    """The table does not fit the record."""


class Indexing:
    def __init__(self, folder: str, record: Any) -> None:
        self.record = record
        self.index = Index(os.path.join(folder, "signatures.sqlite"))
        self.began = record.place
        """The place in the record before which entries are read from it."""
        self.noted: Dict[str, Place] = {}
        """The last entry of each hash that is not in the table yet."""
        self.others: List[Place] = []
        """Entries of hashes that were signed again meanwhile."""
        self.is_complete = False
        """Whether the table has all entries from before."""
        self.finding = 0
        self.worker = concurrent.futures.ThreadPoolExecutor(1)
        self.readers = concurrent.futures.ThreadPoolExecutor(2)
        self.catching = concurrent.futures.ThreadPoolExecutor(1)
        self.ending = False
        self.is_logged = False

    def note(self, imprint: str, second: int, place: Tuple[int, int]) -> None:
        """Notes an entry that is on the disk."""
        before = self.noted.get(imprint)
        if before is not None:
            self.others.append(before)
        self.noted[imprint] = Place(imprint, second, *place)

    # keeping

    async def run(self) -> None:
        """Keeps the table. A disk that fails ends nothing: the record has its own errors."""
        while True:
            try:
                await self.open()
                await self.keep()
            except (Differs, sqlite3.Error, OSError) as fault:
                self.is_complete = False
                if not self.is_logged:
                    log.warning("the index of signatures is made again: %s", fault)
                    self.is_logged = True
                await self.work(self.index.remove)
                await asyncio.sleep(0 if isinstance(fault, Differs) else AGAIN_SECONDS)

    async def keep(self) -> None:
        """Writes entries as they are noted, while those from before are read from the record."""
        reading = asyncio.get_running_loop().run_in_executor(self.catching, self.catch_up)
        while True:
            await self.write()
            if reading.done() and not self.is_complete:
                reading.result()
                self.is_complete = True
                self.is_logged = False
            await (asyncio.sleep(WRITE_SECONDS) if self.is_complete else asyncio.wait([reading], timeout=WRITE_SECONDS))

    async def work(self, does: Callable[..., Any], *words: Any) -> Any:
        return await asyncio.get_running_loop().run_in_executor(self.worker, does, *words)

    async def open(self) -> None:
        """Opens the table. It may lack what the record has by now; entries that are not on the disk yet will be noted."""
        self.began = self.record.place
        try:
            await self.work(self.index.open)
        except sqlite3.DatabaseError as fault:
            log.warning("the index of signatures is damaged, and is made again: %s", fault)
            await self.work(self.index.remove)
            await self.work(self.index.open)

    def catch_up(self) -> None:
        """Reads the files of the record that the table may lack, up to the place where this run began."""
        progress = self.worker.submit(self.index.progress).result()
        for path in hours.names(self.record.folder):
            number = hours.number_of(path)
            if progress <= number <= self.began[0] and not self.ending:
                try:
                    self.read_file(path, number)
                except Broken as fault:
                    log.warning("the index lacks signatures: %s", fault)

    def read_file(self, path: str, number: int) -> None:
        end = self.began[1] if number == self.began[0] else None
        for places in portions(signed_in(path, number, end), lambda: self.ending):
            self.worker.submit(self.index.add, places).result()
        if end is None and not self.ending:
            self.worker.submit(self.index.add, [], number + 1).result()

    async def write(self) -> None:
        """Writes the noted entries. All entries of files before the present one were noted, since a file ends after the effects of its entries."""
        if self.index.table is None:
            raise Differs("it was removed")
        noted, others, progress = self.noted, self.others, self.record.number if self.is_complete else None
        if noted:
            self.noted = {}
            self.others = []
            try:
                await self.work(self.index.add, [*others, *noted.values()], progress)
            except BaseException:
                self.noted = {**noted, **self.noted}
                self.others = [*others, *self.others]
                raise

    async def stop(self) -> None:
        """Writes the noted entries, and ends. Whoever is looking for a signature gets it before that."""
        self.ending = True
        while self.finding:
            await asyncio.sleep(LOOK_SECONDS)
        try:
            if self.is_complete:
                await self.write()
        except (sqlite3.Error, Differs):
            # the next start reads it from the record
            pass
        await self.work(self.index.close)
        self.catching.shutdown(cancel_futures=True)
        self.readers.shutdown(cancel_futures=True)
        self.worker.shutdown(cancel_futures=True)

    # finding

    async def find(self, imprint: str) -> Optional[Found]:
        """The last signature of a hash on the record of this machine, or None. Raises NotIndexed if it cannot be said."""
        if self.ending:
            raise NotIndexed("the service stops, or begins its next plan")
        if self.finding >= MOST_FINDING:
            raise NotIndexed("too many signatures are looked for")
        self.finding += 1
        try:
            noted = self.noted.get(imprint)
            places = [noted] if noted else await self.places(imprint)
            for place in places:
                found = await asyncio.get_running_loop().run_in_executor(self.readers, read, self.record.folder, place)
                if found is not None:
                    return found
        except (Differs, Broken) as fault:
            log.warning("the index of signatures does not fit the record, and is made again: %s", fault)
            self.is_complete = False
            await self.work(self.index.remove)
            raise NotIndexed("the index of signatures is made again") from None
        finally:
            self.finding -= 1
        if not self.is_complete:
            raise NotIndexed("the index of signatures is being made")
        return None

    async def places(self, imprint: str) -> List[Place]:
        try:
            return await self.work(self.index.find, imprint)
        except sqlite3.Error:
            # the table is not open, or is damaged: then a write fails soon, and it is made again
            raise NotIndexed("the index of signatures is made again") from None


def texts_in(entry: Optional[list]) -> List[str]:
    """The signatures in hex of an entry of the record."""
    if entry is None or entry[0] not in ("signed", "handed"):
        return []
    return [entry[2]] if entry[0] == "signed" else [text for _, text in signatures_of(entry[1], entry[2])]


def read(folder: str, place: Place) -> Optional[Found]:
    """The signature at a place of the record, or None if it is another hash's or the file was moved."""
    try:
        line = hours.line_at(folder, place.file, place.at)
    except FileNotFoundError:
        return None
    texts = texts_in(hours.entry_in(line) if line else None)
    if not texts:
        raise Differs(f"file {place.file} has no signature at {place.at}")
    return next((Found(text, place.second) for text in reversed(texts) if place.imprint in text), None)


def signed_in(path: str, number: int, end: Optional[int]) -> Iterator[Optional[Place]]:
    """The signatures in a file of the record up to a byte, and None for each other entry."""
    at = 0
    with contextlib.closing(hours.lines_of(path)) as lines:
        for line in lines:
            if end is not None and at >= end:
                return
            if line.startswith((SIGNED, HANDED)):
                yield from (place_of(text, number, at) for text in texts_in(hours.entry_in(line)))
            else:
                yield None
            at += len(line)


def place_of(text: str, number: int, at: int) -> Optional[Place]:
    try:
        parts = parts_of(bytes.fromhex(text))
        return Place(parts.imprint, parts.second, number, at)
    except (Malformed, ValueError):
        return None


def portions(places: Iterator[Optional[Place]], is_over: Callable[[], bool]) -> Iterator[List[Place]]:
    """The places in lists, with pauses in between, so that other threads have their turn."""
    found: List[Place] = []
    for count, place in enumerate(places, 1):
        if place is not None:
            found.append(place)
        if count % AT_ONCE == 0:
            time.sleep(PAUSE_SECONDS)
            if is_over():
                return
            yield found
            found = []
    yield found
