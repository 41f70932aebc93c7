"""The folder of a proof: the files for a reader who has no store (docs/FORMATS.md, "Folders of proofs")."""
import json
import os
import stat
import tempfile
from typing import Any, Dict, NamedTuple, Optional

from ksi_service import files
from ksi_service.elements import Malformed, number_of, parts_of, published_in, read

from .errors import LogError, date
from .lines import recorded

LINE, MARKED, PROOF, SIGNATURE, PUBLICATIONS, ABOUT, README = "line", "marked-line", "proof", "signature", "publications", "about.json", "README.txt"
MOST_BYTES = 64 << 20


class Folder(NamedTuple):
    """The content of a folder."""

    line: bytes
    """The line as it is in the log, without its line feed."""
    proof: bytes
    signature: bytes
    publications: bytes
    about: Dict[str, Any]
    """Statements of whoever made the folder, which nothing proves: the log, the number of the line."""


class Rests(NamedTuple):
    """The publication that an extended signature leads to."""

    second: int
    root: Optional[str]
    """Its root by the publications file, or None if that has none."""


def rests_on(signature: bytes, publications: bytes) -> Optional[Rests]:
    """The publication that a signature names, or None if it names none. Whether it leads to it `ksi` decides."""
    try:
        inner = next(read(signature)).body
        chain = next((it.body for it in read(inner) if it.kind == 0x802), None)
        if chain is None:
            return None
        second = next(number_of(it.body) for it in read(chain) if it.kind == 0x01)
        return Rests(second, next((root for at, root in published_in(publications) if at == second), None))
    except (Malformed, StopIteration):
        return None


def write(path: str, folder: Folder) -> None:
    """Writes a folder that is complete or missing. Raises LogError if the path exists."""
    if os.path.lexists(path):
        raise LogError(f"{path} is there already, and is not replaced")
    above = os.path.dirname(os.path.abspath(path))
    made = tempfile.mkdtemp(prefix=f".{os.path.basename(os.path.abspath(path))}-", dir=above)
    marked = recorded(folder.line)
    contents = {LINE: folder.line, PROOF: folder.proof, SIGNATURE: folder.signature, PUBLICATIONS: folder.publications,
                ABOUT: (json.dumps(folder.about, indent=1) + "\n").encode(), README: readme(folder).encode(),
                **({MARKED: marked} if marked != folder.line else {})}
    for name, content in contents.items():
        with open(os.path.join(made, name), "wb") as file:
            file.write(content)
            file.flush()
            os.fsync(file.fileno())
    files.sync_folder(made)
    os.rename(made, path)
    files.sync_folder(above)


def loaded(path: str) -> Folder:
    """A folder that somebody gave. Raises LogError if a file is missing or too large."""
    line, proof, signature, publications = (content_of(os.path.join(path, name)) for name in (LINE, PROOF, SIGNATURE, PUBLICATIONS))
    return Folder(line, proof, signature, publications, about_in(path))


def content_of(path: str) -> bytes:
    """A file that somebody gave. Raises LogError if it is too large, or no regular file, which could keep the reader waiting."""
    with open(path, "rb", opener=lambda name, flags: os.open(name, flags | os.O_NONBLOCK)) as file:
        if not stat.S_ISREG(os.fstat(file.fileno()).st_mode):
            raise LogError(f"{path} is not a regular file")
        content = file.read(MOST_BYTES + 1)
    if len(content) > MOST_BYTES:
        raise LogError(f"{path} has more than {MOST_BYTES} bytes")
    return content


def about_in(path: str) -> Dict[str, Any]:
    """The statements of a folder, or none if they are not readable: nothing rests on them."""
    try:
        found = json.loads(content_of(os.path.join(path, ABOUT)))
        return found if isinstance(found, dict) else {}
    except (OSError, LogError, ValueError, RecursionError):
        return {}


def readme(folder: Folder) -> str:
    """The page for the reader."""
    second, rests = parts_of(folder.signature).second, rests_on(folder.signature, folder.publications)
    marked = recorded(folder.line)
    name = LINE if marked == folder.line else MARKED
    long = "" if name == LINE else f"""
The line is long, so a line with its length and SHA-256 takes its place in the
block: {MARKED}. Compare it with `wc -c line` and `sha256sum line`.
"""
    return f"""This folder shows that a line of a log existed in second {date(second)}.

  {LINE:<13} the line, without its line feed
  {PROOF:<13} hashes that lead from the line to the root of its block of lines
  {SIGNATURE:<13} hashes that lead from that root to a publication
  {PUBLICATIONS:<13} publications, with that of second {date(rests.second) if rests else '?'}
  {ABOUT:<13} the log and the number of the line, as its keeper states them
{long}
To verify it, with the program ksi-log (or with ksi alone):

    ksi-log verify .
    ksi checkline {SIGNATURE} {PUBLICATIONS} {name} {PROOF}

The second command prints `line accepted {second}`. Both rest on this publication:

    second {rests.second if rests else '?'}
    root   {rests.root if rests else '?'}

Compare it with a print, or with a publications file from another source
(`ksi-log verify . --publications FILE`): whoever made this folder could have
written another one. Then nobody has to be trusted for the second: not the
keeper of the log, and not the service.

It does not show who wrote the line, that it is true, what the other lines are,
or that the log is complete.
"""
