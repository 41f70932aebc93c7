"""The files from before nodes forgot, with which the check of an hour begins (hourly.py).

A node's file only grows until the node forgets: then the compacted file takes its place. So the file that is replaced begins with the
compacted file of the time before, byte for byte up to its closed commit byte. The first file of a node that is replaced in an hour is
kept as a second name of the same file, in the folder `cuts`, and costs no write. Of later ones in the same hour the name alone is kept,
as an empty file. The name has the node, the place of the entry `forgot` in the record, and the second before which the node was asked to
forget.

The names of this file of the record and of the one before it are kept. A crash may leave a name of a file that the node still uses: then
the node forgot nothing, and the record says so by the next `ready`."""
import os
from typing import Iterator, NamedTuple, Optional, Tuple

from . import files

FOLDER = "cuts"
HOURS = 2
"""The files of this many hours are kept: of the last one, which is not closed, and of closed ones before it."""

Place = Tuple[int, int]
"""The number of a file of the record, and the byte in it at which an entry begins."""


class Kept(NamedTuple):
    """A time at which a node forgot, and its file from before, if that is kept."""
    path: str
    name: str
    place: Place
    """The place of the entry `forgot` in the record."""
    before: int
    """The second before which the node was asked to forget."""


def path_of(folder: str, name: str, place: Place, before: int) -> str:
    return os.path.join(folder, FOLDER, f"{name}.{place[0]:08}.{place[1]}.{before}")


def keep(folder: str, name: str, place: Place, before: int) -> None:
    """Keeps a node's file, which another one is to replace now, or its name alone. Removes those of earlier hours."""
    files.make_folder(os.path.join(folder, FOLDER))
    made = path_of(folder, name, place, before)
    files.remove(made)
    if first(folder, name, place[0]) is None:
        os.link(os.path.join(folder, f"{name}.facts"), made)
    else:
        files.write(made, b"")
    for it in list(kept_in(folder)):
        if it.place[0] <= place[0] - HOURS:
            files.remove(it.path)


def kept_in(folder: str) -> Iterator[Kept]:
    """All that is kept, in no order."""
    try:
        found = os.listdir(os.path.join(folder, FOLDER))
    except FileNotFoundError:
        return
    for it in found:
        words = it.split(".")
        if len(words) == 4 and all(word.isascii() and word.isdigit() for word in words[1:]):
            yield Kept(os.path.join(folder, FOLDER, it), words[0], (int(words[1]), int(words[2])), int(words[3]))


def kept_at(folder: str, name: str, place: Place) -> Optional[Kept]:
    """The time at which a node forgot by this place of the record, if its name is kept."""
    return next((it for it in kept_in(folder) if (it.name, it.place) == (name, place)), None)


def first(folder: str, name: str, hour: int) -> Optional[Kept]:
    """The first file of a node that was kept in an hour."""
    return min((it for it in kept_in(folder) if it.name == name and it.place[0] == hour), key=lambda it: it.place, default=None)


def after(folder: str, name: str, hour: int) -> str:
    """The file that begins with the last compacted file of a node in an hour: the next one that is kept, or the node's own."""
    later = [it for it in kept_in(folder) if it.name == name and it.place[0] > hour]
    return min(later, key=lambda it: it.place).path if later else os.path.join(folder, f"{name}.facts")
