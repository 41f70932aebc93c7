"""The commands over files and trees: sign, extend and verify."""
import json
import os
import sys
import time
from typing import Any, Callable, List, Optional

from . import client, command_asking, files, libksi, links, outcomes, outside, reports, tree_work
from .batches import Doors
from .command_asking import door, local_context
from .command_words import Failed, at_rest, rests
from .elements import published_in, publications_file
from .looks import Look
from .outcomes import ACCEPTED, Outcome, Tally, of_verified
from .progress import Progress
from .resting_door import Resting
from .trees import trees_of
from .tree_work import Work
from .verdicts import existed, recorded

MOST_SAID = 20
"""How many files are named on standard error. A report names all."""


class NotAllWell(Failed):
    """Some files are not well."""


class Run:
    """A command over trees: its files, progress, report and sum."""

    def __init__(self, words: Any, does: str, lost_count: bool = False) -> None:
        into = os.fsencode(words.into) if words.into else None
        self.trees = trees_of([os.fsencode(it) for it in words.path], into, words.recursive)
        self.report = reports.report_at(words.report, does)
        self.progress = Progress(does)
        self.said = 0
        self.tally = Tally(self.on_outcome)
        self.work = Work(self.trees, self.tally, self.progress, words.jobs, getattr(words, "at_once", 0), lost_count)
        self.began = time.monotonic()

    def on_outcome(self, it: Outcome) -> None:
        if self.report:
            self.report.add(it)
        if it.is_bad and it.verdict != outcomes.PENDING:
            self.said += 1
            if self.said <= MOST_SAID:
                self.progress.say(f"ksi-service: {it.line}")
            elif self.said == MOST_SAID + 1:
                self.progress.say("ksi-service: further files are not well; --report FILE names all")

    def go(self, work: Callable[[], None], notes: Callable[[], List[str]] = lambda: []) -> None:
        """Does the work, prints the sum, and raises NotAllWell if a file is not well."""
        try:
            work()
            found = notes()
            if self.report:
                self.report.end(found, self.tally.summary)
        except BaseException:
            if self.report:
                self.report.drop()
            self.progress.close()
            if self.tally.done:
                print(f"ended early: {self.tally.summary}; starting again goes on", file=sys.stderr)
            raise
        finally:
            self.tally.spool.close()
        self.progress.close()
        print(*found, f"{self.tally.summary}; {time.monotonic() - self.began:.1f} s", sep="\n")
        if self.tally.bad:
            raise NotAllWell(f"{self.tally.bad:,} of {self.tally.done:,} files are not well")


def doors_of(words: Any) -> Callable[[int], Doors]:
    """The clients of a connection, by its number: of --door, or of the service over the folder."""
    if getattr(words, "door", None):
        urls = [it if it.startswith(client.HTTPS) else f"http://{it}" for it in client.doors_of(words.door)]
        context = None
    else:
        if not files.is_held(words.folder):
            raise Failed(f"no service runs over {words.folder}: ksi-service start {words.folder}, or --door HOST:PORT names another one")
        urls, context = [door(words.folder).url], local_context()
    return lambda number: Doors(urls, os.environ.get("KSI_KEY"), context, number)


def sign(words: Any) -> None:
    """Signs files by their hashes. An older signature shows more than a new one, so none is replaced."""
    doors = doors_of(words)
    run = Run(words, "sign")
    run.go(lambda: tree_work.sign(run.work, doors))


def extend(words: Any) -> None:
    """Extends the signatures of files that are not extended yet: by a service, or if it does not run by a core's file."""
    if words.door or not rests(words.folder):
        extend_by(words, doors_of(words))
        return
    if words.to is not None:
        raise Failed("--to needs a service that runs")
    with at_rest(words.folder), Resting(words.folder) as resting:
        extend_by(words, lambda number: resting)


def extend_by(words: Any, doors: Callable[[int], Any]) -> None:
    run = Run(words, "extend")
    run.go(lambda: tree_work.extend(run.work, doors, publications_by(doors), words.to))


def publications_by(doors: Callable[[int], Doors]) -> bytes:
    """The publications of the first door that has some."""
    asked = doors(0)
    reason: Any = None
    try:
        for it in asked.clients:
            try:
                return it.publications()
            except libksi.client().Refused as refused:
                reason = refused
    finally:
        asked.close()
    raise Failed(f"the door has no publications: {reason}")


def verify(words: Any) -> None:
    """Verifies files against a publications file, or the print."""
    publications, told = publications_of(words)
    run = Run(words, "verify", lost_count=True)
    run.go(lambda: tree_work.verify(run.work, publications, next_publication(words.folder)), lambda: [*told, *compared(words, sorted(run.tally.publications))])


def compared(words: Any, publications: List[outside.Publication]) -> List[str]:
    return outside.notes_of(publications, outside.listed(words.mirror) if words.mirror else None, bool(words.print))


def publications_of(words: Any) -> Any:
    """The bytes of the publications file to verify against, and a line that names it."""
    if words.print:
        if words.publications:
            raise Failed("--print takes the place of a publications file: give one of them")
        second, root = outside.printed(words.print)
        return publications_file([(second, root)]), [f"by the print of second {second}, root {root}"]
    place = words.publications or place_of(words)
    content = files.content_of(place)
    if content is None:
        raise Failed(f"{place}: no such file; `ksi-service publications` saves it")
    return content, [f"by the publications of {place}"]


def place_of(words: Any) -> str:
    """The publications file that lies nearest: here, next to a path or in it, or in the folder of the service."""
    near = [it if os.path.isdir(it) else os.path.dirname(it) for it in words.path]
    places = [os.path.join(it, "publications") for it in ["", *near, words.folder]]
    found = next((it for it in places if os.path.isfile(it)), None)
    if found is None:
        raise Failed(f"there is no file `publications` here, next to {words.path[0]} or in {words.folder}: `ksi-service publications` saves it, --publications FILE names another one, and --print 'TEXT' takes the printed text")
    return found


def next_publication(folder: str) -> Optional[int]:
    """The time of the next publication, if a service runs over the folder."""
    try:
        return json.loads(command_asking.ask(folder, "/status"))["next_publication"] + 1 if files.is_held(folder) else None
    except (Failed, KeyError, ValueError, OSError):
        return None


def report_one(words: Any, look: Look, publications: bytes, told: List[str]) -> None:
    """Prints the verdict on one file, and saves a report if one is asked for. Raises NotAllWell if the file is not accepted."""
    last = max((second for second, _ in published_in(publications)), default=None)
    report = reports.report_at(words.report, "verify")
    outcome = of_verified(look, last, next_publication(words.folder))
    notes: List[str] = []
    try:
        notes = compared(words, [look.verdict.publication] if look.verdict.publication else [])
    except outside.OtherRoot as reason:
        outcome = outcome._replace(verdict=outcomes.REFUSED, remark=str(reason))
    if report:
        report.add(outcome)
        report.end([*told, *notes], outcome.verdict, links.details(look.signature))
    if outcome.verdict != ACCEPTED:
        raise NotAllWell(told_of(outcome))
    print(f"accepted {outcome.second}", recorded(outcome.second or 0), sep="\n")
    if outcome.publication is not None:
        print(existed((outcome.publication, outcome.root)))
    print(*(note.split(": ", 1)[1] for note in notes), *told, sep="\n")
    if outcome.remark:
        print(outcome.remark)


def told_of(outcome: Outcome) -> str:
    """A verdict that is not accepted, as a sentence on standard error."""
    if outcome.verdict in (outcomes.REFUSED, outcomes.BROKEN):
        return outcome.remark
    code = "refused V1: " if outcome.verdict == outcomes.CHANGED else ""
    return f"{code}{outcome.verdict}: {outcome.remark}" if outcome.remark else f"{code}{outcome.verdict}"
