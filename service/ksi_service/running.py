"""Runs the service over a folder until it is to stop. If its plan is succeeded by another one, the next plan's service follows it in the
same process and at the same door.

The hosts of the two plans do not run at the same time: they have the same address for other machines. While one ends and the next one
begins, the door is open, and requests wait for the next plan or get 503."""
import asyncio
import gc
import logging
import os
import signal

from . import files
from .door import MOST_CONNECTIONS
from .door_words import DoorWords
from .host import cancelled
from .house import ServiceHouse
from .opening import Start, open_files, opened_identity, show
from .plans import content_in, newest, point_to
from .programs import program
from .service import LAST_SECONDS, REFUSES, Service, plan_of
from .succession import NoPart

log = logging.getLogger(__name__)


async def first_of(end, work):
    """Waits for work, or until the service is to stop."""
    done, _ = await asyncio.wait([end, work], return_when=asyncio.FIRST_COMPLETED)
    if work in done:
        work.result()
    else:
        work.cancel()


async def begin_unless_over(service):
    """Begins, unless it is found before that that the plan is over: then a machine that was away may see no majority any more."""
    work = asyncio.create_task(service.begin())
    try:
        await asyncio.wait([work, service.host.succession.over], return_when=asyncio.FIRST_COMPLETED)
        if work.done():
            work.result()
    finally:
        await cancelled([work])


class Running:
    """One plan after the other over a folder, at one door."""

    def __init__(self, folder, address, make, start, door_words, options):
        self.folder = folder
        self.address = address
        self.make = make
        self.start = start
        self.door_words = door_words
        self.options = options
        self.waits = None
        """The last publication of the plan before, for the anchor."""
        self.service = None
        self.house = None
        self.door = None
        told = asyncio.Event()
        for number in (signal.SIGINT, signal.SIGTERM):
            asyncio.get_running_loop().add_signal_handler(number, told.set)
        asyncio.get_running_loop().add_signal_handler(signal.SIGUSR1, lambda: self.service and self.service.accept_clock())
        self.end = asyncio.create_task(told.wait())

    async def run(self, cores, aggregators):
        """Runs the newest plan of the folder, and those that follow it."""
        folder = newest(self.folder)
        plan = plan_of(folder, cores, aggregators) if folder == self.folder else plan_of(folder)
        try:
            while folder is not None:
                following = await self.run_one(folder, plan)
                if following is not None:
                    plan = self.next_plan(folder, following)
                    self.start = Start(self.start.identity_at)
                    self.waits = self.service.anchors.unanchored()
                folder = following
        finally:
            self.end.cancel()
            await self.close()

    def next_plan(self, folder, following):
        """Notes that the host of a folder has ended for good. Returns the plan that follows, if this machine has a part in it."""
        me = self.service.host.succession.name_after
        content = content_in(following)
        alone = self.service.host.succession.way.alone
        if alone and me != alone:
            raise NoPart(f"the plan ended at second {content.plan.start - 1}, and this machine is {alone} in the next one: start the service with --machines and the files of {alone}")
        if me not in content.nodes:
            raise NoPart(f"the plan ended at second {content.plan.start - 1}, and this machine has no part in the next one: keep {folder}, and stop the service here")
        point_to(folder, following)
        log.info("the plan of %s has ended, and that of %s follows", folder, following)
        return content.plan

    async def run_one(self, folder, plan):
        """Runs the service of a plan. Returns the folder of the plan that follows, or None if the service is to stop."""
        held = files.lock(folder) if folder != self.folder else None
        service = self.service = self.make(folder, plan, **self.options)
        guard = await opened_identity(folder, service, self.start)
        if service.host.clock.fault():
            log.warning("%s: %s", REFUSES, service.host.clock.fault())
        if self.waits is not None:
            service.anchors.published(*self.waits)
        self.open_house(service)
        following = None
        try:
            if service.host.peers:
                # it may wait long for the other machines, and answers 503 meanwhile
                await self.show()
            await first_of(self.end, asyncio.create_task(begin_unless_over(service)))
            if not self.end.done():
                await self.show()
                await first_of(self.end, asyncio.create_task(service.watch()))
                following = service.host.succession.over.result() if not self.end.done() and service.host.succession.over.done() else None
                self.house.closing = following is None
                await service.idle(LAST_SECONDS)
                await (service.publishing.publish_last() if following is None else service.calendar.take_all())
                return following
        finally:
            if following is None:
                await self.close()
            if service.host.living:
                await service.stop()
            guard.close()
            if held is not None:
                held.close()

    def open_house(self, service):
        """The door serves this service from now on."""
        if self.house is None:
            self.house = ServiceHouse(service)
            self.door = self.door_words.door(self.house, open_files(MOST_CONNECTIONS, len(service.host.nodes)), self.folder)
        self.house.service = service
        service.door = self.door

    async def show(self):
        if not self.door.is_open:
            await show(self.door, self.folder, self.address)

    async def close(self):
        files.remove(os.path.join(self.folder, "door"))
        door = self.door
        self.door = None
        if door is not None and door.is_open:
            await door.stop()


async def run(folder, cores=None, aggregators=None, address=("127.0.0.1", 8080), make=Service, start=Start(), door_words=DoorWords(), **options):
    """Runs the services that `make` makes until they are to stop."""
    # futures and lines come and go by thousands a second, and nothing of them is in a cycle
    gc.set_threshold(50_000, 20, 50)
    files.make_folder(folder)
    held = files.lock(folder)
    # a plan's seconds count from its start: none is made for nodes that cannot start, or a door that may not open
    program("ksi_serve")
    door_words.see(folder, address)
    files.remove(os.path.join(folder, "door"))
    # the name that a killed `forget` gave a file, before a node adds to that
    files.sync_folder(newest(folder))
    try:
        await Running(folder, address, make, start, door_words, options).run(cores, aggregators)
    finally:
        held.close()
    log.info("stopped")
