"""The commands for gateways: gateway add, gateway remove and gateway list, over the file of machines."""
import os

from . import gateways
from .command_words import Failed

FILE = os.environ.get("KSI_MACHINES", "machines")


def add_gateway(words, rows):
    gateway = gateways.gateway_of(words.word)
    nodes = rows.add(gateway)
    print(f"added {gateway.name} with {' '.join(nodes)} to {rows.path}: do the same on each machine that has cores; their hosts take it within seconds")


def remove_gateway(words, rows):
    nodes = rows.remove(words.word)
    print(f"removed {words.word} from {rows.path}, whose aggregators {' '.join(nodes)} have no machine from now on: do the same on each machine that has cores")


def list_gateways(words, rows):
    for name, nodes in sorted(rows.gateways().items()):
        print(f"{name:24} {rows.addresses[name]:24} {' '.join(nodes)}")
    print(f"{min(map(len, rows.spares().values()), default=0)} more can be added")


KINDS = {"add": add_gateway, "remove": remove_gateway, "list": list_gateways}


def gateway(words):
    if (words.word is None) != (words.kind == "list"):
        raise Failed("it is gateway add NAME=HOST:PORT, gateway remove NAME or gateway list")
    KINDS[words.kind](words, gateways.Rows(words.machines))


def add_commands(commands):
    one = commands.add_parser("gateway", help="add a gateway to the file of machines, remove one, or list all")
    one.add_argument("kind", choices=KINDS, help="add, remove or list")
    one.add_argument("word", nargs="?", metavar="NAME[=HOST:PORT]", help="the gateway's name; for add also its address for the cores' machines, as riga=10.0.0.9:7443")
    one.add_argument("--machines", default=FILE, metavar="FILE", help="the file of machines, next to the plan (default: that of $KSI_MACHINES, or `machines`)")
    one.set_defaults(does=gateway)
