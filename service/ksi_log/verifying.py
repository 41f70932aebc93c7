"""Says in words what a folder shows, by the proved `ksi checkline`."""
import os
from typing import Iterator, List, NamedTuple, Optional, Tuple

from . import folders, programs
from .errors import LogError, date
from .lines import recorded

SHOWN_BYTES = 200
REASONS = {
    "V1": "the line and its proof lead to another hash than the one that was signed: it is another line, or one of the files is of another proof",
    "V13": "the publications file has no publication of the second to which the signature leads",
    "V14": "the publications file has another root than the one to which the signature leads",
}


class Verdict(NamedTuple):
    is_accepted: bool
    line: str
    """The line of `ksi checkline`."""
    note: str
    """How the line was read, if not as it is."""


def forms_of(line: bytes) -> List[Tuple[bytes, str]]:
    """The forms in which a line is tried: as it is, and without its line feed or with one."""
    without = (line[:-1], "without the line feed at the end of the file `line`, which is not part of the line")
    return [(line, ""), without if line.endswith(b"\n") else (line + b"\n", "with a line feed at its end, which the file `line` lacks")]


def verdict_of(folder: folders.Folder, publications: bytes) -> Verdict:
    found: Optional[Verdict] = None
    for line, note in forms_of(folder.line):
        ran = programs.checked_line(folder.signature, publications, recorded(line), folder.proof)
        is_accepted = ran.status == 0 and ran.line.startswith("line accepted ")
        if is_accepted or found is None:
            found = Verdict(is_accepted, ran.line, note)
        # only V1 says that other bytes would have another verdict
        if is_accepted or not ran.line.startswith("refused V1 "):
            break
    assert found is not None
    return found


def shown(line: bytes) -> str:
    """The line as printable text."""
    text = line[:SHOWN_BYTES].decode(errors="backslashreplace")
    return "".join(it if it.isprintable() else it.encode("unicode_escape").decode() for it in text) + (" .." if len(line) > SHOWN_BYTES else "")


def shown_in(folder: folders.Folder, name: str) -> str:
    """A statement of a folder as printable text."""
    return shown(str(folder.about[name]).encode(errors="replace"))


def see_marked(path: str, folder: folders.Folder) -> None:
    """Raises LogError if the folder's `marked-line` is not that of its line."""
    name = os.path.join(path, folders.MARKED)
    if os.path.exists(name):
        if folders.content_of(name) not in {recorded(line) for line, _ in forms_of(folder.line)}:
            raise LogError(f"{name} has another length or hash than the file `line`")


def verify(path: str, publications: Optional[str]) -> Iterator[str]:
    """Yields lines on a folder. Raises LogError if it does not show what it should."""
    folder = folders.loaded(path)
    see_marked(path, folder)
    content = folders.content_of(publications) if publications else folder.publications
    verdict = verdict_of(folder, content)
    rests = folders.rests_on(folder.signature, content)
    if not verdict.is_accepted:
        words = verdict.line.split(" ")
        reason = REASONS.get(words[1] if words[1:] else "", "`ksi-why` explains this line")
        raise LogError(f"not shown: {reason} ({verdict.line})")
    yield f"This line existed in second {date(int(verdict.line.split(' ')[-1]))}:"
    yield f"    {shown(folder.line)}"
    if verdict.note:
        yield f"It was read {verdict.note}."
    if recorded(folder.line) != folder.line:
        yield f"It has {len(folder.line)} bytes. A line with its length and SHA-256 is in its place, and fits."
    if rests:
        yield f"This rests on the publication of second {date(rests.second)} with the root"
        yield f"    {rests.root}"
        whose = f"It is in {publications}." if publications else "It is in the folder's own file, so compare it with a print or another copy (--publications FILE)."
        yield f"{whose} Then nobody has to be trusted for the second."
    if {"log", "line"} <= folder.about.keys():
        yield f"Its keeper says that it is line {shown_in(folder, 'line')} of {shown_in(folder, 'log')}. Nothing here shows that."
    yield "Nothing here shows who wrote the line, that it is true, or that the log is complete."
