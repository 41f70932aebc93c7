"""What tests of checks by the hour share: a machine's folder whose nodes, which are stand-ins, sign a hash in each second and forget now and
then. Its record is cut into hours."""
import os
from collections import deque
from unittest import mock

import stand_in
from ksi_service import files, forget
from ksi_service.marks import end_of
from ksi_service.plan import Plan
from ksi_service.record import Record

CAN = ["cores", "records"]
PLAN = Plan(3, 5, ("c0", "c1"))


class Run:
    """A run, second by second. It is used while the environment has the stand-ins' programs."""

    def __init__(self, folder):
        self.folder = folder
        os.makedirs(folder)
        self.plan = os.path.join(folder, "plan")
        files.write(self.plan, PLAN.text().encode())
        self.record = Record(os.path.join(folder, "record"), PLAN.text())
        self.nodes, self.second, self.number = {}, PLAN.start, 0
        for name in PLAN.names():
            self.start(name)

    def path(self, name):
        return os.path.join(self.folder, f"{name}.facts")

    def start(self, name, unsaid=0):
        """Starts a node, whose process ended if it ran."""
        if name in self.nodes:
            self.nodes[name].end()
        with mock.patch.object(stand_in, "CAN", CAN):
            self.nodes[name] = stand_in.node_of(self.plan, name, self.path(name))
        self.record.add(["ready", name, len(self.nodes[name].facts), unsaid, end_of(self.path(name))])

    def give(self, name, line, message=None, is_said=True):
        """Gives a node a line. Returns the number of the step and its block."""
        with mock.patch.object(stand_in, "CAN", CAN):
            block = self.nodes[name].answer(line)
        step = self.record.state.steps
        self.record.add(["given", name, line, message])
        if is_said:
            self.record.add(["said", name, block, *([end_of(self.path(name))] if "stored" in block else [])])
        return step, block

    def command(self, name, line):
        """Gives a node a line, and all nodes the messages that follow from it."""
        step, block = self.give(name, line)
        waiting = deque(self.messages(step, block))
        while waiting:
            to, text, message = waiting.popleft()
            waiting.extend(self.messages(*self.give(to, text, message)))
        return step

    def messages(self, step, block):
        for place, row in enumerate(it for it in block if it.startswith("send ")):
            _, to, text = row.split(" ", 2)
            yield to, text, [step, place]

    def sign(self, seconds=1):
        """Signs a hash in each of the next seconds. Of both cores with an aggregator each leads every other second."""
        for _ in range(seconds):
            self.number += 1
            core, aggregator = ("c0", "a0") if self.second % 2 else ("c1", "a1")
            request = self.command(aggregator, f"request {self.number} {self.second} {self.number:064x}")
            self.command(aggregator, f"close {self.second}")
            for line in (f"seal {self.second}", f"ballot {self.second}", f"respond {self.second}"):
                self.command(core, line)
            text = self.nodes[aggregator].answer(f"sign {self.number}")[0].split(" ")[1]
            self.record.add(["signed", request, text])
            self.second += 1

    async def forget(self, *names):
        """Lets nodes forget all seconds so far but the last one."""
        for name in names:
            self.nodes[name].end()
            await forget.forget_one(self.folder, name, self.second - 1, self.record, lambda text: None)
            with mock.patch.object(stand_in, "CAN", CAN):
                self.nodes[name] = stand_in.node_of(self.plan, name, self.path(name))
            self.record.add(["ready", name, len(self.nodes[name].facts), 0, end_of(self.path(name))])

    async def close(self):
        for node in self.nodes.values():
            node.end()
        await self.record.close()
