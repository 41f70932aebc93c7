"""The commands over folders of services that are stopped: check, digests, backup and forget. And items and doctor, over any folder."""
import contextlib
import json
import os

from . import backup as backing
from . import check as checking
from . import checked, command_asking
from . import digests as digesting
from . import doctor, files, hours
from . import forget as forgetting
from . import replay as replaying
from .command_words import DEFAULT, WORDS, Failed, add, add_folders, at_rest, natural, positive
from .elements import items_file
from .items import items_of


@contextlib.contextmanager
def all_at_rest(folders):
    """Locks several folders, and compresses their records."""
    with contextlib.ExitStack() as held:
        if len({os.path.realpath(it) for it in folders}) < len(folders):
            raise Failed("a folder is named twice")
        for folder in folders:
            held.enter_context(at_rest(folder))
            compress(folder)
        yield


def check(words):
    """Checks the run of a service that is stopped, or compares the digests of its machines."""
    if words.digests:
        count = digesting.compare(words.digests)
        print(f"{checking.many(count, 'line')} between machines were sent before they were taken, in one order")
        return
    folders = words.folder or [DEFAULT]
    if words.hour is not None:
        check_hour(folders, words)
        return
    with all_at_rest(folders):
        checking.check(folders, words.samples, by_node=words.by_node)
        if words.replay:
            replaying.replay(folders, words.replay, words.samples)


def check_hour(folders, words):
    """Checks one closed hour, or each new one. A service may run over the folder."""
    if len(folders) > 1:
        raise Failed("--hour is for one folder: check each machine's by itself")
    if not os.path.exists(os.path.join(folders[0], "plan")):
        raise Failed(f"{folders[0]} has no plan: no service ran over it")
    if words.hour == NEW:
        checked.check_new(folders[0], words.samples)
    else:
        checked.check(folders[0], words.hour, words.samples)


def digests(words):
    """Writes the digests of the lines between this machine and others."""
    with all_at_rest([words.folder]):
        counts = digesting.write(words.folder, words.out)
    print(f"saved {words.out}: {checking.many(counts.lines, 'line')} between machines, of {checking.many(counts.steps, 'step')}")


def compress(folder):
    """Compresses the files of a record that a service had no time for. Not the last one: the next start goes on with it."""
    count = hours.pack_all(os.path.join(folder, "record"))
    if count:
        print(f"compressed {checking.many(count, 'file')} of the record")


def backup(words):
    """Saves the mirrors of all cores, merged, and their journal, by the proved `ksi`; and the plan, the publications and the closed hours.
    A service may run over the folder."""
    sources = words.folder or [DEFAULT]
    folders = [it for it in sources if not backing.is_backup(it)]
    with all_at_rest([it for it in folders if not files.is_held(it)]):
        backing.make(sources, words.out, max(map(backing.last_second, folders), default=0))


def items(words):
    """The items of a second from the record, whether or not the service runs."""
    root, found = items_of(words.folder, words.second)
    if words.save:
        files.write(words.save, items_file(words.second, root, found))
    print(f"root {words.second} {root}", *(it.row(words.second) for it in found), sep="\n")


def examine(words):
    """Prints a line for each thing that may be wrong with a service, with the remedy. Raises Failed if one is wrong."""
    if not os.path.exists(os.path.join(words.folder, "plan")):
        raise Failed(f"{words.folder} has no plan: no service ran over it")
    try:
        status = json.loads(command_asking.ask(words.folder, "/status"))
    except (Failed, ValueError):
        status = None
    found = list(doctor.Patient(words.folder, status).findings())
    print(*(it.line for it in found), sep="\n")
    wrong = sum(it.state == doctor.WRONG for it in found)
    if wrong:
        raise Failed(f"{checking.many(wrong, 'thing')} to repair")


def forget(words):
    """Lets the nodes of a service that is stopped forget old seconds."""
    with at_rest(words.folder):
        forgetting.forget(words.folder, words.before)


NEW = "new"


def hour_of(text):
    return NEW if text == NEW else positive(text)


def add_commands(commands):
    one = add_folders(commands, "check", check, "compare the record of a stopped service, or the records of all its machines, with the proved model")
    one.add_argument("--digests", nargs="+", metavar="FILE", help="compare files that `digests` saved, one of each machine, in place of folders")
    one.add_argument("--samples", type=positive, default=50, metavar="NUMBER", help="extend, verify and audit this many signatures (default 50)")
    one.add_argument("--by-node", action="store_true", help="compare the log of each node with that node alone, which needs the memory of one node; also for one of several machines")
    one.add_argument("--hour", type=hour_of, metavar="NUMBER", help="check one closed hour by itself, by the number of its file in the record, or each one since the last check (`new`); the service may run")
    one.add_argument("--replay", metavar="OUT", help="also replay the run by ksi, and save its schedule and journal in the folder OUT")
    one = add(commands, "forget", forget, "let the nodes of a stopped service forget old seconds", "folder")
    one.add_argument("--before", type=natural, default=3600, metavar="SECONDS", help="forget only seconds that are at least this old (default 3600)")
    one = add(commands, "items", items, "print the root and the items of a second, from the record")
    one.add_argument("folder", help=WORDS["folder"])
    one.add_argument("second", type=natural, help="the second, in Unix time")
    one.add_argument("--save", metavar="FILE", help="also save them as a journal of this second alone, which `ksi_roots audit` takes")
    add(commands, "doctor", examine, "look at a service: the clock, the room on the disk, check sums of files, the plan's end, other machines, the last outside anchor; a line each, with the remedy", "folder")
    add(commands, "digests", digests, "save digests of the lines between a stopped machine and others, for check --digests", "folder", "out")
    add_folders(commands, "backup", backup, "save the mirrors of the cores of folders, merged with other backups; the service may run", "out")
