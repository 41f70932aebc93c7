"""Gateways in a plan: which aggregators they have, spare ones for later, and their lines in the file of machines.

A root is the candidate of one core. So a gateway has one aggregator below each core that has aggregators, each below an aggregator of that
core's machine. A spare aggregator is one that has no machine: `gateway add` gives one below each core to a new gateway."""
import os
import re
from typing import Dict, List, NamedTuple, Sequence, Tuple

from . import certificates, files
from .errors import ServiceError
from .places import Places, is_gateway, machines_in, removed_in, see_nodes, without_gateways
from .plan import Plan, parents_of

WORD = re.compile(r"([^=]*)=((?:\[[0-9A-Fa-f:.]+\]|[A-Za-z0-9.-]+):([0-9]{1,5}))")


class NotAdded(ServiceError):
    """A gateway is not laid out, added or removed."""


class Gateway(NamedTuple):
    """A gateway, and the address at which the hosts of other machines reach it."""

    name: str
    address: str


def gateway_of(word: str) -> Gateway:
    """The gateway of a word such as `riga=10.0.0.9:7443`."""
    found = WORD.fullmatch(word)
    if not found or not 0 < int(found[3]) < 65536:
        raise NotAdded(f"'{word}' is not NAME=HOST:PORT, as riga=10.0.0.9:7443")
    if not certificates.NAME.fullmatch(found[1]):
        raise NotAdded(f"'{found[1]}' is not a machine's name: letters, digits and '-', a letter first")
    return Gateway(found[1], found[2])


def seats_of(nodes: Dict[str, Tuple[str, ...]], plan: Plan) -> List[str]:
    """The aggregators above those of gateways: of each core the first one right below it, on the core's own machine if there is one."""
    full = without_gateways(nodes)
    home = {node: machine for machine, its in full.items() for node in its}
    seats = []
    for core in range(plan.cores):
        found = [f"a{it}" for it, parent in enumerate(plan.parents) if parent == f"c{core}" and f"a{it}" in home]
        seats += sorted(found, key=lambda it, core=core: home[it] != home.get(f"c{core}"))[:1]
    return seats


class Layout(NamedTuple):
    plan: Plan
    nodes: Dict[str, Tuple[str, ...]]
    """The aggregators of each gateway."""


def lay_out(plan: Plan, nodes: Dict[str, Tuple[str, ...]], gateways: Sequence[str], spares: int, are_named: bool = False) -> Layout:
    """A plan with aggregators for gateways, which may have the gateways' names, and with this many spare ones below each core. Raises
    NotAdded or Odd if it cannot have them."""
    seats = seats_of(nodes, plan)
    if not seats and (gateways or spares):
        raise NotAdded("a gateway is below aggregators of the cores' machines, and there are none: give each of these machines an aggregator")
    parents, found, labels = list(plan.parents), {}, [""] * len(plan.parents)
    for name in gateways:
        found[name] = tuple(f"a{len(parents) + it}" for it in range(len(seats)))
        parents += seats
        labels += [name if are_named else ""] * len(seats)
    parents += seats * spares
    labels += [""] * (len(seats) * spares)
    return Layout(Plan(plan.cores, plan.start, parents_of(",".join(parents), plan.cores), tuple(labels) if any(labels) else ()), found)


def names_of(text: str) -> List[str]:
    """The machines of a file that are no gateways."""
    return list(without_gateways(machines_in(text, "the file of machines")[1]))


# the file of machines


class Rows:
    """The file of machines of a folder that `ksi-service plan` wrote, or that a machine has."""

    def __init__(self, path: str) -> None:
        self.path = path
        content = files.content_of(path)
        if content is None:
            raise NotAdded(f"{path}: no such file; `ksi-service plan` writes it")
        self.plan = Plan.read(os.path.join(os.path.dirname(path), "plan"))
        text = content.decode("ascii", "replace")
        self.addresses, self.nodes = machines_in(text, path)
        see_nodes(self.nodes, self.plan, path)
        self.removed = removed_in(text)

    def spares(self) -> Dict[int, List[str]]:
        """By core, the aggregators that never had a machine, below those of the cores' machines."""
        used = {it for its in self.nodes.values() for it in its} | {it for row in self.removed for it in row.split()[2:]}
        seats = seats_of(self.nodes, self.plan)
        found = [it for it, parent in enumerate(self.plan.parents) if f"a{it}" not in used and parent in seats]
        by_core: Dict[int, List[str]] = {self.plan.core_above(int(seat[1:])): [] for seat in seats}
        for it in found:
            by_core[self.plan.core_above(it)].append(f"a{it}")
        return by_core

    def add(self, gateway: Gateway) -> Tuple[str, ...]:
        """Gives a spare aggregator below each core to a new gateway. Returns them."""
        if gateway.name.lower() in map(str.lower, self.nodes) or gateway.address in self.addresses.values():
            raise NotAdded(f"{self.path} has a machine {gateway.name} or {gateway.address} already")
        spares = self.spares()
        without = [f"c{core}" for core, its in spares.items() if not its]
        if without or not spares:
            raise NotAdded(f"the plan has no spare aggregator below {' '.join(without) or 'any core'}: a further gateway needs the next plan")
        self.addresses[gateway.name] = gateway.address
        self.nodes[gateway.name] = tuple(its[0] for its in spares.values())
        self.write()
        return self.nodes[gateway.name]

    def remove(self, name: str) -> Tuple[str, ...]:
        """Leaves a gateway's aggregators without a machine for good. Returns them."""
        if not is_gateway(self.nodes.get(name, ())):
            raise NotAdded(f"{self.path} has no gateway {name}")
        found = self.nodes.pop(name)
        del self.addresses[name]
        self.removed.append(f"removed {name} {' '.join(found)}")
        self.write()
        return found

    def write(self) -> None:
        files.write(self.path, (Places("", self.addresses, self.nodes).text() + "".join(f"{it}\n" for it in self.removed)).encode())

    def gateways(self) -> Dict[str, Tuple[str, ...]]:
        return {it: its for it, its in self.nodes.items() if is_gateway(its)}
