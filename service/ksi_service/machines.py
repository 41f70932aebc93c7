"""Sets up a service of several machines: its plan, the file of machines, and a certificate for each machine."""
import dataclasses
import os
import re
import time
from typing import Dict, List, NamedTuple, Optional, Tuple

from . import certificates, files, gateways
from .command_words import natural
from .errors import ServiceError
from .plan import Plan, parents_of
from .plans import Before, content_in, newest

WORD = re.compile(r"([^=]*)=(\[[0-9A-Fa-f:.]+\]|[A-Za-z0-9.-]+):([0-9]{1,5})(?::(.*))?")
NODE = re.compile(r"[ca](0|[1-9][0-9]{0,3})")


class NotPlanned(ServiceError):
    """The words for a plan of several machines do not make one."""


class Machine(NamedTuple):
    """A machine, the address at which the hosts of other machines reach it, and its nodes."""

    name: str
    address: str
    nodes: Tuple[str, ...]

    def row(self) -> str:
        """Its row in the file of machines."""
        return f"machine {' '.join([self.name, self.address, *self.nodes])}\n"


def machine_of(word: str) -> Machine:
    """The machine of a word such as `A=10.0.0.1:7443:c0,a0`. Without nodes it has an HTTP server alone."""
    found = WORD.fullmatch(word)
    if not found or not 0 < int(found[3]) < 65536:
        raise NotPlanned(f"'{word}' is not NAME=HOST:PORT:NODES, as A=10.0.0.1:7443:c0,a0")
    if not certificates.NAME.fullmatch(found[1]):
        raise NotPlanned(f"'{found[1]}' is not a machine's name: letters, digits and '-', a letter first")
    nodes = tuple(found[4].split(",")) if found[4] else ()
    odd = next((node for node in nodes if not NODE.fullmatch(node)), None)
    if odd is not None:
        raise NotPlanned(f"'{odd}' is not a node: c0, c1 .. are cores, a0, a1 .. aggregators")
    return Machine(found[1], f"{found[2]}:{found[3]}", nodes)


def count_of(kind: str, nodes: List[str]) -> int:
    """How many cores or aggregators there are. They have the numbers from 0 on, each once."""
    numbers = sorted(int(node[1:]) for node in nodes if node[0] == kind)
    if numbers != list(range(len(numbers))):
        name = "cores" if kind == "c" else "aggregators"
        raise NotPlanned(f"the {name} of all machines are {kind}0, {kind}1 .. without a gap, and each has one machine")
    return len(numbers)


def parent_of(aggregator: str, machine: Machine, cores: int) -> str:
    """To which core an aggregator submits, if nothing else is asked for: one of its own machine, if that has any."""
    own = [node for node in machine.nodes if node[0] == "c"]
    number = int(aggregator[1:])
    return own[number % len(own)] if own else f"c{number % cores}"


def see_names(machines: List[Machine]) -> None:
    names = [machine.name.lower() for machine in machines]
    addresses = [machine.address for machine in machines]
    if len(set(names)) < len(names) or len(set(addresses)) < len(addresses):
        raise NotPlanned("each machine has a name and an address of its own; capital letters make no difference")


def plan_of(machines: List[Machine], parents: Optional[str] = None, start: Optional[int] = None) -> Plan:
    """The plan of these machines' nodes, which starts a second from now."""
    see_names(machines)
    home: Dict[str, Machine] = {node: machine for machine in machines for node in machine.nodes}
    nodes = [node for machine in machines for node in machine.nodes]
    cores = count_of("c", nodes)
    aggregators = count_of("a", nodes)
    if not 1 <= cores <= 9 or not aggregators:
        raise NotPlanned("a plan has 1 to 9 cores, and an aggregator at least")
    if parents is None:
        parents = ",".join(parent_of(f"a{number}", home[f"a{number}"], cores) for number in range(aggregators))
    made = parents_of(parents, cores)
    if len(made) != aggregators:
        raise NotPlanned(f"the machines have {aggregators} aggregators, and {len(made)} parents are given")
    return Plan(cores, int(time.time()) + 1 if start is None else start, made)


def write(out: str, machines: List[Machine], plan: Plan, before: Optional[Before] = None) -> None:
    """Writes `plan`, `machines` if there are several, and `succeeds` if there is a plan before, into a folder that has none of them."""
    files.make_folder(out)
    texts = {"plan": plan.text(), "machines": "".join(machine.row() for machine in sorted(machines)), "succeeds": before.text() if before else ""}
    for name in texts:
        if os.path.lexists(os.path.join(out, name)):
            raise NotPlanned(f"{os.path.join(out, name)} is there already, and is not replaced: another plan needs another folder")
    for name, text in texts.items():
        if text:
            files.write(os.path.join(out, name), text.encode())


def first_second(words) -> int:
    return int(time.time()) + words.seconds


def make_plan(words) -> None:
    if not words.machines:
        make_plan_alone(words)
        return
    machines = [machine_of(word) for word in words.machines]
    plan = plan_of(machines, words.parents, first_second(words))
    plan = with_gateways(machines, plan, [gateways.gateway_of(it) for it in words.gateway], words.spares, words.named)
    write(words.out, machines, plan, grown(before_in(words.of), words.alone, [it.name for it in machines]))
    print(f"saved {os.path.join(words.out, 'plan')} and {os.path.join(words.out, 'machines')}, the same for all machines{first_in(plan)}")


def with_gateways(machines: List[Machine], plan: Plan, added: List[gateways.Gateway], spares: int, are_named: bool = False) -> Plan:
    """The plan with aggregators for gateways and spare ones. The gateways are added to the machines."""
    laid = gateways.lay_out(plan, {it.name: it.nodes for it in machines}, [it.name for it in added], spares, are_named)
    machines += [Machine(it.name, it.address, laid.nodes[it.name]) for it in added]
    see_names(machines)
    return laid.plan


def make_plan_alone(words) -> None:
    """The plan of a service of one machine, which succeeds that of one."""
    if words.gateway or words.spares:
        raise NotPlanned("gateways need machines: name the machines that have the cores too")
    cores = words.cores or 3
    plan = Plan(cores, first_second(words), parents_of(words.parents or "2", cores))
    write(words.out, [], plan, before_in(words.of))
    print(f"saved {os.path.join(words.out, 'plan')}{first_in(plan)}")


def first_in(plan: Plan) -> str:
    return f"; the first second is {plan.start}, {time.strftime('%Y-%m-%d %H:%M:%S', time.gmtime(plan.start))} UTC"


def grown(before: Optional[Before], alone: Optional[str], names: List[str]) -> Optional[Before]:
    """The plan before, with the name that its only machine has among several, if it has one machine."""
    is_alone = before is not None and not before.content.machines
    if is_alone != bool(alone) or alone and alone not in names:
        raise NotPlanned("--alone names the machine of the next plan that is the only one of the plan before, and nothing else" if alone
                         else "the plan before has one machine: --alone NAME says which machine of the next plan that is")
    return before.by({"alone": alone}) if before and alone else before


def before_in(folder: Optional[str]) -> Optional[Before]:
    """The newest plan of a folder, as the one that a new plan succeeds."""
    if folder is None:
        return None
    folder = newest(folder)
    before = Before.read(folder)
    return Before(content_in(folder), before.origin if before else "")


def replace(words) -> None:
    """Writes the plan with which another machine takes the place of one, and that machine's certificate."""
    before = before_in(words.of)
    new = machine_of(words.by)
    nodes = before.content.nodes
    if words.machine not in nodes or new.nodes:
        raise NotPlanned(f"'{words.machine}' is not one of the machines {' '.join(sorted(nodes))}, or {words.by} has nodes: the new machine takes the nodes of the other one")
    if new.name in nodes and new.name != words.machine:
        raise NotPlanned(f"{new.name} is another machine of this plan: the new one needs a name of its own")
    if new.name == words.machine:
        raise NotPlanned(f"the new machine needs another name than {words.machine}: hosts tell machines apart by their certificates")
    addresses = before.content.addresses
    rows = [Machine(it, addresses[it], its) for it, its in nodes.items() if it != words.machine]
    rows.append(new._replace(nodes=nodes[words.machine]))
    old = before.content.plan
    see_names(rows)
    plan = dataclasses.replace(old, start=first_second(words))
    write(words.out, rows, plan, before)
    print(f"saved {words.out}: run `ksi-service succeed {words.out}` on each machine that is left{first_in(plan)}")
    if os.path.exists(os.path.join(words.of, "authority.key")):
        certificates.make_certificate(words.out, new.name, words.days, words.of)
        print(f"saved {os.path.join(words.out, new.name)}: copy it to machine {new.name} as /etc/ksi, and delete it here")


def names_in(path: str) -> List[str]:
    """The machines of a file of machines that are no gateways: these make their keys themselves."""
    content = files.content_of(path)
    if content is None:
        raise NotPlanned(f"{path}: no such file; name the machines, or write it by `ksi-service plan`")
    return gateways.names_of(content.decode("ascii", "replace"))


def make_certificates(words) -> None:
    if words.request or words.sign:
        certify(words)
        return
    names = words.machines or names_in(os.path.join(words.out, "machines"))
    certificates.make_all(words.out, names, words.days)
    rows = [f"saved {os.path.join(words.out, name)}: copy it to machine {name} as /etc/ksi, and delete it here" for name in names]
    print(*rows, f"{os.path.join(words.out, 'authority.key')} stays with you: whoever has it speaks for every machine", sep="\n")


def certify(words) -> None:
    """Makes a key and a request to sign, or a certificate by such a request."""
    if len(words.machines) != 1 or words.request and words.sign:
        raise NotPlanned("it is certificates OUT NAME --request, or certificates OUT NAME --sign FILE, with one name")
    name = words.machines[0]
    if words.request:
        path = certificates.make_request(words.out, name)
        print(f"saved {path}: send it to the operator, who signs it; {name}.key stays on this machine")
        return
    certificates.sign_request(words.out, name, words.sign, words.days)
    print(f"saved {os.path.join(words.out, name)}: send it to {name}, where its files belong next to {name}.key")


def add_next(one, positive, seconds: int) -> None:
    """Adds the words of a plan that succeeds another."""
    one.add_argument("--in", dest="seconds", type=positive, default=seconds, metavar="SECONDS", help=f"after how many seconds the plan begins: {seconds}")
    one.add_argument("--of", required=seconds > 1, metavar="OLD", help="the folder that `ksi-service plan` wrote for the plan that this one succeeds")


def add_commands(commands, positive) -> None:
    """Adds the commands `plan`, `replace` and `certificates`."""
    one = commands.add_parser("plan", help="write the plan of a service of several machines, and the file of machines")
    one.add_argument("out", metavar="OUT", help="the folder for `plan` and `machines`")
    one.add_argument("machines", nargs="*", metavar="NAME=HOST:PORT:NODES", help="a machine, its address for other machines, and its nodes, as A=10.0.0.1:7443:c0,a0; none for the next plan of a service of one machine")
    one.add_argument("--parents", metavar="PARENTS", help="to whom each aggregator submits, as c0,c1,a0; otherwise to a core of its machine")
    one.add_argument("--gateway", action="append", default=[], metavar="NAME=HOST:PORT", help="a gateway, and its address for the cores' machines, as riga=10.0.0.9:7443; it gets an aggregator below each core")
    one.add_argument("--named", action="store_true", help="hash the gateways' names into the tree: signatures show through which gateway they were made")
    one.add_argument("--spares", type=natural, default=0, metavar="NUMBER", help="for how many gateways aggregators are left over, so that `gateway add` can add them while the service runs (default 0)")
    one.add_argument("--cores", type=int, choices=range(1, 10), metavar="1..9", help="how many cores a plan of one machine has: 3")
    one.add_argument("--alone", metavar="NAME", help="with --of the folder of a service of one machine: the name of that machine in a plan of several")
    add_next(one, positive, 1)
    one.set_defaults(does=make_plan)
    one = commands.add_parser("replace", help="write the plan with which a new machine takes the place of another one, and its certificate")
    one.add_argument("machine", metavar="NAME", help="the machine that is gone")
    one.add_argument("out", metavar="OUT", help="the folder for the next plan")
    one.add_argument("--by", required=True, metavar="NAME=HOST:PORT", help="the new machine, and its address for other machines")
    one.add_argument("--days", type=positive, default=certificates.DAYS, help=f"for how many days its certificate is valid: {certificates.DAYS}")
    add_next(one, positive, 600)
    one.set_defaults(does=replace)
    one = commands.add_parser("certificates", help="make an authority and a certificate for each machine, by openssl")
    one.add_argument("out", metavar="OUT", help="the folder for the authority, and in it one for each machine")
    one.add_argument("machines", nargs="*", metavar="NAME", help="the machines, as A B C (default: those of OUT/machines that are no gateways)")
    one.add_argument("--request", action="store_true", help="make only a key for the machine NAME in OUT, and NAME.csr, a request to sign its certificate")
    one.add_argument("--sign", metavar="FILE", help="make the certificate of the machine NAME by such a request")
    one.add_argument("--days", type=positive, default=certificates.DAYS, help=f"certificates are valid for this many days (default {certificates.DAYS})")
    one.set_defaults(does=make_certificates)
