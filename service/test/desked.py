"""What tests of a desk share: a desk whose host sees a majority or does not, and a clock that a test moves."""
import asyncio
import unittest
from types import SimpleNamespace
from unittest import mock

from machined import NODES
from ksi_service import desk as desks
from ksi_service.clocks import ClockCheck
from ksi_service.desk import Desk
from ksi_service.places import Places
from ksi_service.plan import Plan

START = 1_000_000


class Clock:
    """A clock that a test moves."""

    def __init__(self):
        self.now = 500.0

    def monotonic(self):
        return self.now


class Desked(unittest.TestCase):
    """A desk whose host sees a majority, or does not."""

    def setUp(self):
        self.clock = Clock()
        self.swept = 0.0
        self.has_majority = True
        plan = Plan(3, START, ("c0", "c1", "c2"))
        places = Places("A", {it: f"{it}:1" for it in NODES}, {"A": ("c0", "a0"), "B": ("c1", "a1"), "C": ("c2", "a2")})
        view = SimpleNamespace(is_majority=lambda: self.has_majority, is_off=lambda _: False, takes=lambda _: True, leader=lambda _: 0,
                               held_by_any=lambda: START + 10)
        self.host = SimpleNamespace(plan=plan, last_second=plan.last_second, places=places, view=view, trusted={"B": None, "C": None}, nodes=places.mine, clock=ClockCheck(unchecked=True), now=lambda: START + 10.5,
                                    rounds=SimpleNamespace(next=START + 10, ask_all=lambda *_: None), outbox=SimpleNamespace(usual=lambda _: 0.0), send=lambda *_: None)

    def play(self, work):
        async def go():
            with mock.patch.object(desks.time, "monotonic", self.clock.monotonic):
                return await asyncio.wait_for(work(Desk(self.host)), 60)
        return asyncio.run(go())

    async def turn(self, desk):
        """One turn of the task of the desk."""
        self.clock.now += desks.LOOK_SECONDS
        desk.look()
        if self.clock.now - self.swept > desks.SWEEP_SECONDS:
            self.swept = self.clock.now
            desk.sweep(self.clock.now)
        for _ in range(10):
            await asyncio.sleep(0)
