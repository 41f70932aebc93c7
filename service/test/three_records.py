"""What tests of several machines' records share: the folders of three machines, A, B and C, as their hosts would leave them. The nodes are
stand-ins, and the lines between them go one after the other."""
import json
import os
from collections import deque

from stand_in import node_of
from ksi_service import files
from ksi_service.plan import Plan
from ksi_service.publications import Publications
from ksi_service.record import State

PLAN = Plan(3, 5, ("c0", "c1"))
PLACES = {"A": ("c0", "a0"), "B": ("c1", "a1"), "C": ("c2",)}


class Machine:
    """A machine's folder, its nodes, and the entries of its record."""

    def __init__(self, room, name):
        self.name = name
        self.folder = os.path.join(room, name)
        os.makedirs(os.path.join(self.folder, "record"))
        files.write(os.path.join(self.folder, "plan"), PLAN.text().encode())
        self.runs = {}
        self.entries = [State().begins()]
        self.steps = 0
        for node in PLACES[name]:
            self.runs[node] = node_of(os.path.join(self.folder, "plan"), node, os.path.join(self.folder, f"{node}.facts"))
            self.entries.append(["ready", node, 0, 0])

    def ask(self, node, line):
        return self.runs[node].answer(line)

    def give(self, node, line, message=None):
        """Gives a node a line. Returns its block, and the number of the step."""
        block = self.ask(node, line)
        self.entries += [["given", node, line, message], ["said", node, block]]
        self.steps += 1
        return block, self.steps - 1

    def end(self):
        for run in self.runs.values():
            run.end()
        self.write()

    def write(self):
        with open(os.path.join(self.folder, "record", "00000001"), "w", encoding="ascii") as file:
            file.writelines(json.dumps(it) + "\n" for it in self.entries)


class Three:
    """Three machines that sign a hash in each of some seconds. A leads the odd seconds, B the even ones."""

    def __init__(self, room, seconds=4):
        self.machines = {name: Machine(room, name) for name in PLACES}
        self.home = {node: machine for machine in self.machines.values() for node in PLACES[machine.name]}
        self.signed = []
        for second in range(PLAN.start, PLAN.start + seconds):
            self.play(second)
        for machine in self.machines.values():
            machine.end()

    @property
    def folders(self):
        return [it.folder for it in self.machines.values()]

    def play(self, second):
        core, aggregator = ("c0", "a0") if second % 2 else ("c1", "a1")
        machine = self.home[core]
        number = 3 * second + list(PLACES).index(machine.name)
        _, request = self.command(aggregator, f"request {number} {second} {second:064x}")
        for line in (f"close {second}",):
            self.command(aggregator, line)
        for line in (f"seal {second}", f"ballot {second}", f"respond {second}"):
            self.command(core, line)
        text = machine.ask(aggregator, f"sign {number}")[0].split(" ")[1]
        machine.entries.append(["signed", request, text])
        self.signed.append(text)
        for it in self.machines.values():
            name = PLACES[it.name][0]
            words = it.give(name, f"publish {second}")[0][0].split(" ")
            Publications(it.folder).add(second, words[2])

    def command(self, node, line):
        """Gives a node a line, and all nodes the messages that follow from it."""
        machine = self.home[node]
        block, step = machine.give(node, line)
        waiting = deque(self.messages(machine, block, step))
        while waiting:
            sender, to, text, at, place = waiting.popleft()
            here = self.home[to]
            said, taken = here.give(to, text, [at, place] if here is sender else [sender.name, at, place])
            waiting.extend(self.messages(here, said, taken))
        return block, step

    def messages(self, machine, block, step):
        for place, row in enumerate(it for it in block if it.startswith("send ")):
            _, to, text = row.split(" ", 2)
            yield machine, to, text, step, place
