"""The commands `mirror` and `evidence`."""
import asyncio
import os

from . import evidence, files, logs, mirror_service
from .anchors import Anchors
from .command_running import add_anchoring, address_of
from .command_words import natural, positive
from .errors import ServiceError
from .mirror import Mirror
from .mirror_book import Books
from .probe import Probe
from .programs import program
from .source import FAULTY, UNKNOWN

EVERY_SECONDS = 20


class BadUrl(ServiceError):
    """A source is no URL of a server."""


class ForkKnown(ServiceError):
    """There is evidence of a fork."""

    status = 4


class SourceFaulty(ServiceError):
    """The roots of a source do not give its publications."""

    status = 5


class SourceUnknown(ServiceError):
    """A source does not answer, or what it says cannot be compared yet."""

    status = 6


def mirror(words):
    """Follows services, until it is interrupted or for one look."""
    files.make_folder(words.folder)
    with files.lock(words.folder):
        program("ksi_roots")
        if not words.once:
            logs.begin()
        try:
            made = Mirror(words.folder, words.url, words.also or ())
        except ValueError as fault:
            raise BadUrl(str(fault)) from None
        if words.once:
            once(made, words.on_publication)
            return
        probe = Probe(made, words.probe) if words.probe else None
        asyncio.run(mirror_service.run(made, address_of(words.door), words.every, words.on_publication, probe))


def once(made, on_publication):
    """Looks at all sources once, prints what each of them does, and exits with the status of the worst one."""
    books = Books(made)
    while books.look():
        pass
    for it in made.sources:
        print(f"{it.url} {it.state}{': ' + it.reason if it.reason else ''}")
    published = made.published()
    if published:
        print(f"{len(published)} publications, the last one of second {published[-1][0]}")
        asyncio.run(anchored(made, on_publication, published[-1]))
    see_states(made)


async def anchored(made, on_publication, published):
    anchors = Anchors(made.folder, on_publication)
    anchors.published(*published)
    await anchors.once()


def see_states(made):
    """Raises the worst state of the sources."""
    if made.cases:
        raise ForkKnown(f"there are two calendars: ksi-service evidence {made.folder}")
    for state, error in ((FAULTY, SourceFaulty), (UNKNOWN, SourceUnknown)):
        found = next((it for it in made.sources if it.state == state), None)
        if found:
            raise error(f"{found.url} is {state}: {found.reason}")


def explain(words):
    """Explains the evidence of forks that a mirror's folder has."""
    cases = list(evidence.cases(os.path.join(words.folder, "evidence")))
    for case in cases:
        print("\n".join(evidence.explained(case)))
    print(f"{len(cases)} forks" if len(cases) != 1 else "1 fork")


def add_commands(commands):
    """Adds the commands `mirror` and `evidence`."""
    one = commands.add_parser("mirror", help="follow the calendar of a service, and serve a copy without a core")
    one.add_argument("url", nargs="+", metavar="URL", help="the HTTP server of a machine of the service, as http://10.0.0.1:8080; name several for one service")
    one.add_argument("folder", metavar="FOLDER", help="the folder of the mirror")
    one.add_argument("--also", nargs="+", action="extend", metavar="URL", help="other mirrors, whose calendars are compared with this one's")
    one.add_argument("--door", default="127.0.0.1:8081", metavar="HOST:PORT", help="the address of the HTTP server (default 127.0.0.1:8081); port 0 takes a free port")
    one.add_argument("--every", type=positive, default=EVERY_SECONDS, metavar="SECONDS", help=f"look at all sources every SECONDS (default {EVERY_SECONDS})")
    one.add_argument("--once", action="store_true", help="look once: status 0 if all agree, 4 for a fork, 5 for a source at fault, 6 if one is unknown")
    one.add_argument("--probe", type=natural, default=0, metavar="SECONDS", help="have a random hash signed every SECONDS, and extend and verify it later (default 0: never)")
    add_anchoring(one)
    one.set_defaults(does=mirror)
    one = commands.add_parser("evidence", help="explain the evidence of forks that a mirror found")
    one.add_argument("folder", metavar="FOLDER", help="the folder of the mirror")
    one.set_defaults(does=explain)
