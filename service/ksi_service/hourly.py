"""Checks a closed hour of a record by itself: each node from the time that it forgot last before that hour to the last time in it.

A node begins with the compacted file of that time, of which the record has a mark. The proved `ksi_serve` takes its lines over a copy of
it, and each block in the record has to be the one that it writes (replayed.py). So the copy is then the node's file after these lines.
When the node forgets, the copy has to have the mark that the record has of the replaced file, and the proved `ksi_serve --forget` over it
has to write the compacted file of the record. At the end that is compared byte for byte with the file with which the node went on
(cuts.py), where the next hour begins.

A node that forgot nothing in the hour is checked with a later hour. Lines between nodes are compared with those that the hours here sent,
and with older hours if they are there."""
import os
import shutil
import tempfile
from typing import BinaryIO, Callable, Dict, List, NamedTuple, Tuple

from . import apart, cuts, hours
from .errors import ServiceError
from .folders import Folders
from .marks import PIECE, Mark, end_of
from .older import Older
from .record import Signed
from .replayed import Forgetting, Replayed
from .retrace import Differs
from .sampled import Sampled
from .segments import Cut, Segment, segments_of, steps_in


class NotKept(ServiceError):
    """A file that the check of an hour begins or ends with is not there any more."""


class Counts(NamedTuple):
    """What was compared."""
    nodes: Dict[str, Segment]
    waiting: List[str]
    """The nodes that are checked with a later hour: they forgot nothing in this one."""
    steps: int
    lines: int
    """How many lines from nodes were sent before."""
    unknown: int
    """How many were sent in hours whose files are not there any more."""
    signatures: int
    """How many signatures that were handed out are the aggregators'."""


def last_closed(record: str) -> int:
    """The number of the last closed file of a record, 0 if there is none."""
    found = hours.names(record)
    return hours.number_of(found[-1]) - 1 if found else 0


def check(folder: str, number: int, samples: int = 50, say: Callable = print) -> Counts:
    """Checks the hour that is in this file of the record. A service may run over the folder. Raises Differs if something is not as the proved
    nodes have it, and NotKept if a file is not there any more."""
    folders = Folders(folder)
    record = os.path.join(folder, "record")
    found = hours.names(record)
    if not 1 <= number <= last_closed(record):
        raise NotKept(f"{record} has no closed file {number:08}: the last one is {last_closed(record):08}")
    segments = segments_of(found, number, list(folders.of_node))
    waiting = [name for name in folders.of_node if name not in segments]
    see_digests(found, number)
    steps = lines = unknown = signatures = 0
    if segments:
        with tempfile.TemporaryDirectory(prefix="ksi-hour-") as room:
            shutil.copy(folders.plan_path, os.path.join(room, "plan"))
            try:
                steps, lines, unknown, signatures = compare(folder, room, files_of(found, record, segments, number), segments, samples)
            except FileNotFoundError as fault:
                raise NotKept(f"{fault.filename} was removed meanwhile") from None
    counts = Counts(segments, waiting, steps, lines, unknown, signatures)
    tell(number, counts, say)
    return counts


def tell(number: int, counts: Counts, say: Callable) -> None:
    for name, segment in sorted(counts.nodes.items()):
        first, last = segment.hours()
        begin = "its first line" if segment.begin is None else f"the time that it forgot in hour {first}"
        say(f"{name} agrees from {begin} to the last time that it forgot in hour {last}; its files of then are the computed ones")
    for name in counts.waiting:
        say(f"{name} forgot nothing in hour {number}: it is checked with a later one")
    say(f"hour {number}: {counts.steps} steps, {counts.lines} lines from nodes were sent before, {counts.signatures} signatures, chosen by chance, are the aggregators'")
    if counts.unknown:
        say(f"{counts.unknown} lines were sent in hours whose files were removed: they are not compared")


def see_digests(found: List[str], number: int) -> None:
    """Raises Broken if the hour, or the one before it, is not the one that was closed."""
    by_number = {hours.number_of(it): it for it in found}
    for it in (number - 1, number):
        digest = hours.digest_before(by_number[it + 1]) if it in by_number and it + 1 in by_number else None
        if digest is not None:
            hours.see_end(by_number[it], digest)


def files_of(found: List[str], record: str, segments: Dict[str, Segment], number: int) -> List[str]:
    """The files of a record with the segments, in order."""
    by_number = {hours.number_of(it): it for it in found}
    first = min(it.hours()[0] for it in segments.values())
    for it in range(first, number + 1):
        if it not in by_number:
            raise hours.not_there(record, it)
    return [by_number[it] for it in range(first, number + 1)]


def compare(folder: str, room: str, paths: List[str], segments: Dict[str, Segment], samples: int) -> Tuple[int, int, int, int]:
    """Compares the nodes of segments, all at once, and joins their lines. Returns how many steps and lines were compared, how many lines
    were sent before all that is here, and how many signatures were compared."""
    cutting = {name: list(it.cuts) for name, it in segments.items()}
    nodes: Dict[str, Replayed] = {}
    sampled, older = Sampled(samples), Older(os.path.dirname(paths[0]), paths[0])
    first = hours.number_of(paths[0])

    def forget(name: str) -> None:
        cut = cutting[name].pop(0)
        nodes[name].forget(Forgetting(cut, kept_at(folder, cut).before, sampled.due(name)))

    try:
        for name, segment in segments.items():
            nodes[name] = begun(folder, room, segment)
        with apart.joining() as joined:
            for place, count, it in steps_in(paths):
                if isinstance(it, Signed):
                    sampled.signed(it)
                    continue
                if it.node in nodes and segments[it.node].has(place):
                    while place > cutting[it.node][0].place:
                        forget(it.node)
                    nodes[it.node].take(it)
                    sampled.step(count, it)
                joined.add_at(count, it, older, place[0] > first or first == 1)
            older.see()
            for name in nodes:
                while cutting[name]:
                    forget(name)
            for it in nodes.values():
                it.end()
    finally:
        for it in nodes.values():
            it.stop()
    for segment in segments.values():
        see_last(folder, room, segment)
    return sum(it.steps for it in nodes.values()), joined.lines + older.found, older.unknown, sampled.compared


def begun(folder: str, room: str, segment: Segment) -> Replayed:
    """A node at the beginning of its segment, over a copy of its file."""
    path = os.path.join(room, f"{segment.name}.facts")
    for cut in segment.cuts:
        see_marks(cut)
    if segment.begin is not None:
        see_marks(segment.begin)
        kept = cuts.first(folder, segment.name, segment.hours()[1]) or kept_at(folder, segment.cuts[0])
        copy_front(kept.path, segment.begin.mark_left, path)
        if end_of(path) != segment.begin.mark_left:
            raise Differs(f"{kept.path} does not begin with the compacted file of {segment.name} that the record has")
    return Replayed(room, segment.name)


def kept_at(folder: str, cut: Cut) -> cuts.Kept:
    kept = cuts.kept_at(folder, cut.name, cut.place)
    if kept is None:
        raise NotKept(f"the file of {cut.name} from before it forgot in hour {cut.place[0]} is not in {folder}/{cuts.FOLDER}: it is kept for one closed hour")
    return kept


def see_marks(cut: Cut) -> None:
    if None in (cut.mark_found, cut.mark_left):
        raise NotKept(f"the record has no marks of the files of {cut.name} in hour {cut.place[0]}: an older version wrote it")


def copy_front(source: str, mark: Mark, made: str) -> None:
    """Copies a node's file up to the end of its first facts, and closes it there."""
    with open(source, "rb") as file, open(made, "wb") as out:
        left = mark.place
        while left:
            piece = file.read(min(left, PIECE))
            if not piece:
                raise Differs(f"{source} has fewer than {mark.place} bytes")
            out.write(piece)
            left -= len(piece)
        out.write(b"\0")


def see_last(folder: str, room: str, segment: Segment) -> None:
    """Raises Differs unless the file with which the node went on begins with the computed one, without its closed commit byte."""
    name, size = segment.name, segment.cuts[-1].mark_left.place
    with open(os.path.join(room, f"{name}.facts"), "rb") as one, went_on(folder, segment) as other:
        left = size
        while left:
            piece = one.read(min(left, PIECE))
            if not piece or other.read(len(piece)) != piece:
                raise Differs(f"{other.name} does not begin with the computed file of {name}: they differ before byte {size - left + max(1, len(piece))}")
            left -= len(piece)


def went_on(folder: str, segment: Segment) -> BinaryIO:
    """The file with which a node went on. If it forgets meanwhile, that is a file that is kept."""
    name, hour = segment.name, segment.hours()[1]
    while True:
        path = cuts.after(folder, name, hour)
        file = open(path, "rb")
        if cuts.after(folder, name, hour) == path:
            return file
        file.close()
