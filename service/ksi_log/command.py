"""The command `ksi-log`."""
import argparse
import contextlib
import os
import sqlite3
import sys
from typing import List, Optional, Sequence

from ksi_service.errors import ServiceError
from ksi_service.version import version

from . import auditing, extending, journal, proving, reporting, signing, verifying
from .doors import DEFAULT, Doors
from .errors import LogError
from .lines import Log
from .store import Store, held, opened, path_of

STORE, DOOR = os.environ.get("KSI_LOG_STORE"), os.environ.get("KSI_LOG_DOOR", DEFAULT)


def positive(text: str) -> int:
    number = int(text)
    if number < 1:
        raise ValueError(text)
    return number


def store_of(words: argparse.Namespace) -> Store:
    return opened(path_of(words.log, words.store, words.name), words.seeds)


def sign(words: argparse.Namespace) -> None:
    reasons: List[str] = []
    for log in signing.logs_of(words.log) if words.rotated else words.log:
        try:
            sign_one(words, log)
        except (LogError, OSError) as reason:
            reasons.append(sentence(reason))
    if reasons:
        raise LogError("\n".join(reasons))


def sign_one(words: argparse.Namespace, log: str) -> None:
    path = path_of(log, words.store, words.name)
    if not words.rotated:
        # no store is made for a log that cannot be read
        with Log(log):
            pass
    make_folder(path)
    with held(path), Store(path, words.seeds) as store, Doors(words.door) as doors:
        for line in signing.sign(store, doors, log, rotated=words.rotated, closed=words.closed, is_new=words.new):
            print(line)


def make_folder(store: str) -> None:
    """Makes the folder of a store if it is missing."""
    os.makedirs(os.path.dirname(store) or ".", mode=0o700, exist_ok=True)


def prove(words: argparse.Namespace) -> None:
    with store_of(words) as store, Doors(words.door) as doors:
        print(proving.prove(store, doors, words.log, words.out, found_by(words, store)))


def found_by(words: argparse.Namespace, store: Store) -> proving.Found:
    if words.line:
        with open(words.line, "rb") as file:
            return proving.by_text(store, file.read(), words.number, words.part)
    if words.number is None and words.grep is None:
        raise LogError("which line? -n NUMBER, --grep TEXT or --line FILE")
    with Log(words.log) as log:
        number = words.number or proving.containing(log, os.fsencode(words.grep))
        return proving.by_number(store, log, number, words.part)


def verify(words: argparse.Namespace) -> None:
    for line in verifying.verify(words.folder, words.publications):
        print(line)


def audit(words: argparse.Namespace) -> None:
    with store_of(words) as store:
        for line in auditing.audit(store, words.log, words.part):
            print(line)
        if words.proof:
            print(auditing.locate(store, words.log, words.proof))


def status(words: argparse.Namespace) -> None:
    with store_of(words) as store:
        for line in reporting.status(store, words.blocks):
            print(line)


def extend(words: argparse.Namespace) -> None:
    if bool(words.all) == bool(words.log):
        raise LogError("which logs? LOG, or --all of the folder of stores")
    paths = extending.stores_in(words.store or ".") if words.all else [path_of(words.log, words.store, words.name)]
    with Doors(words.door) as doors:
        for line in extending.extend_all(paths, doors):
            print(line)


def move_seeds(words: argparse.Namespace) -> None:
    path = path_of(words.log, words.store, words.name)
    with held(path), opened(path) as store:
        print(f"moved {store.move_seeds(words.to)} seeds of {path} to {words.to}")


def read_journal(words: argparse.Namespace) -> None:
    path = path_of(words.log, words.store, words.name)
    matches = [f"--{name}={value}" for name in ("file", "directory", "unit", "since") for value in getattr(words, name) or []]
    make_folder(path)
    with held(path), Store(path, words.seeds) as store, Doors(words.door) as doors:
        entries = journal.append(store, words.log, matches)
        print(f"{words.log}: {entries} new entries of the journal")
        for line in signing.sign(store, doors, words.log, rotated=True):
            print(line)


def with_store(one: argparse.ArgumentParser, *, needs_seeds: bool = True) -> None:
    one.add_argument("--store", metavar="FOLDER", default=STORE, help="the folder of the stores, if they are not next to the logs: the store of /var/log/app.log is FOLDER/var/log/app.log.ksilog")
    one.add_argument("--name", metavar="NAME", help="the path of the store in the folder, without .ksilog, if the log has another path or name now")
    if needs_seeds:
        one.add_argument("--seeds", metavar="FILE", help="the file of seeds, if they are not in the store")


def with_door(one: argparse.ArgumentParser) -> None:
    one.add_argument("--door", metavar="URL,..", default=DOOR, help="the HTTP servers of the service: if one is away or busy, the next one is asked")


def add(commands, name, does, told, *, log: Optional[str] = "the log") -> argparse.ArgumentParser:
    one = commands.add_parser(name, help=told)
    if log:
        one.add_argument("log", help=log)
    one.set_defaults(does=does)
    return one


def add_signing(commands) -> None:
    one = commands.add_parser("sign", help="sign the new lines of logs")
    one.add_argument("log", nargs="+", help="a log")
    one.set_defaults(does=sign)
    one.add_argument("--rotated", action="store_true", help="sign the rotated files of the logs before them. A log may be a pattern, as logrotate gives it to scripts")
    one.add_argument("--closed", action="store_true", help="sign a last line without a line feed too: nothing more is written to the log")
    one.add_argument("--new", action="store_true", help="take a log that differs in a signed line for another log")
    with_store(one)
    with_door(one)
    one = add(commands, "journal", read_journal, "append new entries of the systemd journal to a log, and sign it")
    one.add_argument("--file", action="append", metavar="FILE", help="a file of the journal, as of journalctl; may be given again")
    one.add_argument("--directory", action="append", metavar="FOLDER", help="the folder of the journal, as of journalctl")
    one.add_argument("--unit", action="append", metavar="UNIT", help="only entries of this unit; may be given again")
    one.add_argument("--since", action="append", metavar="TIME", help="only entries from this time on, as of journalctl")
    with_store(one)
    with_door(one)


def add_proving(commands) -> None:
    one = add(commands, "prove", prove, "write the folder that shows when a line existed")
    one.add_argument("-n", dest="number", type=positive, metavar="NUMBER", help="the number of the line, from 1")
    one.add_argument("--grep", metavar="TEXT", help="the line that contains this text")
    one.add_argument("--line", metavar="FILE", help="the text of the line, if the log is not complete any more")
    one.add_argument("--part", type=positive, metavar="NUMBER", help="the part of the store, as status lists them")
    one.add_argument("-o", dest="out", required=True, metavar="FOLDER", help="the folder to write")
    with_store(one)
    with_door(one)
    one = commands.add_parser("verify", help="say what the folder of a line shows")
    one.add_argument("folder", help="the folder that prove wrote")
    one.add_argument("--publications", metavar="FILE", help="a publications file from another source than the folder")
    one.set_defaults(does=verify)


def add_keeping(commands) -> None:
    one = add(commands, "audit", audit, "compare a whole log with its store")
    one.add_argument("--part", type=positive, metavar="NUMBER", help="the part of the store, as status lists them")
    one.add_argument("--proof", metavar="FOLDER", help="say which line of the log a folder that prove wrote is of")
    with_store(one)
    one = add(commands, "status", status, "list the parts of a log, and the lines that are not signed yet")
    one.add_argument("--blocks", action="store_true", help="list each block with its lines and times")
    with_store(one)
    one = commands.add_parser("extend", help="extend the signatures of a log, or of all logs of a folder, to the last publication")
    one.add_argument("log", nargs="?", help="the log")
    one.add_argument("--all", action="store_true", help="all stores of the folder that --store names, and of those below")
    one.set_defaults(does=extend)
    with_store(one, needs_seeds=False)
    with_door(one)
    one = add(commands, "seeds", move_seeds, "move the seeds of a log out of its store")
    one.add_argument("--to", required=True, metavar="FILE", help="the file that gets them")
    with_store(one, needs_seeds=False)


def parser_of() -> argparse.ArgumentParser:
    parser = argparse.ArgumentParser(prog="ksi-log", description="Signs logs in blocks of lines, and proves single lines.")
    parser.add_argument("--version", action="version", version=f"ksi-log {version()}", help="print the version")
    commands = parser.add_subparsers(dest="command", required=True)
    add_signing(commands)
    add_proving(commands)
    add_keeping(commands)
    return parser


def sentence(error: Exception) -> str:
    if isinstance(error, OSError) and error.filename is not None:
        return f"{error.filename}: {error.strerror}"
    return str(error)


def main(arguments: Sequence[str]) -> int:
    words = parser_of().parse_args(arguments)
    try:
        words.does(words)
        sys.stdout.flush()
    except BrokenPipeError:
        # the reader of the lines has ended, as `head` does
        os.dup2(os.open(os.devnull, os.O_WRONLY), sys.stdout.fileno())
        return 1
    except (ServiceError, sqlite3.Error, OSError) as error:
        with contextlib.suppress(OSError):
            sys.stdout.flush()
        print("".join(f"ksi-log: {line}\n" for line in sentence(error).splitlines()), end="", file=sys.stderr)
        return getattr(error, "status", 1)
    except KeyboardInterrupt:
        return 130
    return 0
