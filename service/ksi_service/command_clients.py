"""The commands for the clients of a door: client add, client remove and client list."""
import os
import sys

from . import clients
from .command_words import DEFAULT, WORDS, Failed


def path_of(words):
    return words.clients or os.path.join(words.folder, "clients")


def add_client(words):
    """Prints the key, which is kept nowhere."""
    if not os.path.isdir(os.path.dirname(os.path.abspath(path_of(words)))):
        raise Failed(f"{os.path.dirname(os.path.abspath(path_of(words)))} is no folder")
    is_first = clients.rows_of(path_of(words)) is None
    print(clients.add(path_of(words), words.name, words.rate))
    if is_first:
        print(f"{path_of(words)} is new: from now on the door needs a key for signing, extending and lookup", file=sys.stderr)


def remove_client(words):
    clients.remove(path_of(words), words.name)
    print(f"removed {words.name}")


def list_clients(words):
    for row in clients.rows_of(path_of(words)) or []:
        print(f"{row.name:24} {'any rate' if row.rate is None else f'{row.rate:g} hashes a second'}")


KINDS = {"add": add_client, "remove": remove_client, "list": list_clients}


def client(words):
    if (words.name is None) != (words.kind == "list"):
        raise Failed("it is client add NAME, client remove NAME or client list")
    KINDS[words.kind](words)


def rate_of(text):
    rate = float(text)
    if not 0.001 <= rate < 1e9:
        raise ValueError(text)
    return round(rate, 3)


def add_commands(commands):
    one = commands.add_parser("client", help="add a client of the door and print its key, which is kept nowhere; or remove one, or list all")
    one.add_argument("kind", choices=KINDS, help="add, remove or list")
    one.add_argument("name", nargs="?", help="the client's name")
    one.add_argument("--rate", type=rate_of, metavar="NUMBER", help="how many hashes a second a new client may have signed or extended; otherwise any number")
    one.add_argument("--folder", default=DEFAULT, help=WORDS["folder"])
    one.add_argument("--clients", default=os.environ.get("KSI_CLIENTS"), metavar="FILE", help="the file of clients; otherwise `clients` in the folder")
    one.set_defaults(does=client)
