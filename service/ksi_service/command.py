"""The command `ksi-service`. Its commands are in `command_running.py`, `command_succeed.py`, `command_files.py`, `command_seals.py`,
`command_asking.py`, `command_stopped.py`, `command_clients.py`, `machines.py`, `command_gateways.py` and `command_mirror.py`."""
import argparse
import os
import sqlite3
import sys

from . import (command_asking, command_clients, command_files, command_gateways, command_mirror, command_running, command_seals, command_stopped,
               command_succeed, machines)
from .command_words import positive
from .errors import ServiceError
from .version import PROTOCOL, version


def parser_of():
    parser = argparse.ArgumentParser(prog="ksi-service", description="A timestamping service of proved nodes, on one machine or several.")
    parser.add_argument("--version", action="version", version=f"ksi-service {version()} (protocol {PROTOCOL} between machines)", help="print the version")
    commands = parser.add_subparsers(dest="command", required=True)
    command_running.add_commands(commands)
    command_succeed.add_commands(commands)
    command_files.add_commands(commands)
    command_seals.add_commands(commands)
    command_asking.add_commands(commands)
    command_stopped.add_commands(commands)
    command_clients.add_commands(commands)
    machines.add_commands(commands, positive)
    command_gateways.add_commands(commands)
    command_mirror.add_commands(commands)
    return parser


def name_in(error):
    return os.fsdecode(error.filename) if isinstance(error.filename, bytes) else error.filename


def main(arguments):
    words = parser_of().parse_args(arguments)
    if hasattr(sys.stdout, "reconfigure"):
        # a file name may be any bytes
        sys.stdout.reconfigure(errors="surrogateescape")
    try:
        words.does(words)
        sys.stdout.flush()
    except BrokenPipeError:
        # the reader of the lines has ended, as `head` does
        os.dup2(os.open(os.devnull, os.O_WRONLY), sys.stdout.fileno())
        return 1
    except ServiceError as error:
        print(f"ksi-service: {error}", file=sys.stderr)
        return error.status
    except (sqlite3.Error, OSError) as error:
        named = isinstance(error, OSError) and error.filename is not None
        print("ksi-service: " + (f"{name_in(error)}: {error.strerror}" if named else str(error)), file=sys.stderr)
        return 1
    except KeyboardInterrupt:
        return 130
    return 0
