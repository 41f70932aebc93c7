"""Which machine has which nodes: a file of lines `machine NAME HOST:PORT NODE..`, the same on every machine of a plan that has cores.

A machine with aggregators and without cores is a gateway. It talks to the machines of the nodes above and below its own ones, and to no
others; so its file need not have other gateways. An aggregator may have no machine: it is a spare one. A line `removed NAME NODE..` keeps the
aggregators of a gateway that was removed from being given to another one."""
import os
import re
from dataclasses import dataclass
from functools import cached_property
from typing import Dict, Iterable, List, Mapping, Optional, Set, Tuple

from . import files
from .hours import Broken
from .plan import Plan

ROW = re.compile(r"machine ([A-Za-z0-9][A-Za-z0-9.-]{0,62}) (\S+:[0-9]{1,5})((?: [ca][0-9]{1,4})*)")
REMOVED = re.compile(r"removed ([A-Za-z0-9][A-Za-z0-9.-]{0,62})((?: a[0-9]{1,4})+)")


def machines_in(text: str, path: str) -> Tuple[Dict[str, str], Dict[str, Tuple[str, ...]]]:
    """The addresses and the nodes of the machines in a file's text. Raises Broken if it has another line."""
    addresses: Dict[str, str] = {}
    nodes: Dict[str, Tuple[str, ...]] = {}
    for line in filter(None, map(str.strip, text.splitlines())):
        if REMOVED.fullmatch(line):
            continue
        found = ROW.fullmatch(line)
        if not found or found[1] in addresses:
            raise Broken(f"{path}: '{line}' is not a line `machine NAME HOST:PORT NODE..` for another machine")
        addresses[found[1]] = found[2]
        nodes[found[1]] = tuple(found[3].split())
    return addresses, nodes


def removed_in(text: str) -> List[str]:
    """The lines of a file's text about gateways that were removed."""
    return [line for line in map(str.strip, text.splitlines()) if REMOVED.fullmatch(line)]


def is_gateway(nodes: Iterable[str]) -> bool:
    """Whether a machine with these nodes is a gateway: it has aggregators and no core."""
    kinds = {it[0] for it in nodes}
    return kinds == {"a"}


def without_gateways(nodes: Mapping[str, Tuple[str, ...]]) -> Dict[str, Tuple[str, ...]]:
    """The machines that are no gateways, with their nodes."""
    return {machine: its for machine, its in nodes.items() if not is_gateway(its)}


def see_nodes(nodes: Mapping[str, Tuple[str, ...]], plan: Plan, path: str) -> None:
    """Raises Broken unless each core of the plan has one machine, and each aggregator one or none."""
    named = [it for its in nodes.values() for it in its]
    cores = {it for it in plan.names() if it[0] == "c"}
    if len(set(named)) < len(named) or not cores <= set(named) <= set(plan.names()):
        raise Broken(f"{path} does not have each core of the plan exactly once, and each aggregator at most once")


@dataclass(frozen=True)
class Places:
    me: str
    """The name of this machine."""
    addresses: Dict[str, str]
    """HOST:PORT where the hosts of other machines reach each machine."""
    nodes: Dict[str, Tuple[str, ...]]
    """The nodes of each machine. A machine without nodes has a door alone."""
    path: str = ""
    """The file that this was read from."""

    @property
    def mine(self) -> Tuple[str, ...]:
        return self.nodes[self.me]

    @property
    def others(self) -> List[str]:
        return [it for it in self.nodes if it != self.me]

    @cached_property
    def is_gateway(self) -> bool:
        return is_gateway(self.mine)

    @cached_property
    def full(self) -> Dict[str, Tuple[str, ...]]:
        """The machines that are no gateways, with their nodes."""
        return without_gateways(self.nodes)

    def above(self, plan: Plan) -> Set[str]:
        """The other machines that have parents of this machine's aggregators."""
        parents = {plan.parents[int(it[1:])] for it in self.mine if it[0] == "a"}
        return {self.machine_of[it] for it in parents if it in self.machine_of} - {self.me}

    def below(self, plan: Plan) -> Set[str]:
        """The gateways that have aggregators right below nodes of this machine; of a gateway all machines that have."""
        found = {self.machine_of.get(f"a{number}") for number, parent in enumerate(plan.parents) if parent in self.mine}
        return {it for it in found if it is not None and (self.is_gateway or is_gateway(self.nodes[it]))} - {self.me}

    def neighbours(self, plan: Plan) -> List[str]:
        """The machines that this one talks to: all that are no gateways, unless it is one, and those right above and below."""
        full = set() if self.is_gateway else set(self.full)
        found = (full | self.above(plan) | self.below(plan)) - {self.me}
        return [it for it in self.nodes if it in found]

    @cached_property
    def machine_of(self) -> Dict[str, str]:
        """The machine of each node."""
        return {node: machine for machine, nodes in self.nodes.items() for node in nodes}

    @property
    def number(self) -> int:
        """This machine's place in the order of names, from 0. Gateways count for nothing: others need not know them."""
        return sorted(self.full).index(self.me) if self.me in self.full else 0

    def text(self) -> str:
        """The rows of the file, in the order of names."""
        return "".join(f"machine {it} {' '.join([self.addresses[it], *self.nodes[it]])}\n" for it in sorted(self.addresses))

    @classmethod
    def alone(cls, plan: Plan) -> "Places":
        """One machine that has all nodes."""
        return cls("", {}, {"": tuple(plan.names())})

    @classmethod
    def read(cls, path: str, me: str, plan: Plan) -> "Places":
        """The machines of a file. Raises Broken if the nodes are not the plan's, or it does not have this machine."""
        with open(path, encoding="ascii") as file:
            addresses, nodes = machines_in(file.read(), path)
        if me not in nodes:
            raise Broken(f"{path} has no machine '{me}'")
        see_nodes(nodes, plan, path)
        return cls(me, addresses, nodes, path)


def text_for(path: str, name: str) -> Optional[bytes]:
    """The file of machines as one machine needs it: a gateway's has no other gateways but those above it."""
    content = files.content_of(path)
    if content is None:
        return None
    addresses, nodes = machines_in(content.decode("ascii", "replace"), path)
    if not is_gateway(nodes.get(name, ())):
        return content
    plan = Plan.read(os.path.join(os.path.dirname(path), "plan"))
    near, new = {*without_gateways(nodes), name}, {name}
    while new:
        new = {it for machine in new for it in Places(machine, addresses, nodes).above(plan)} - near
        near |= new
    return Places("", {it: addresses[it] for it in near}, {it: nodes[it] for it in near}).text().encode()
