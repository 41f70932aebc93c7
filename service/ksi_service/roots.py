"""The proved program `ksi_roots` over a folder of calendar files. Nothing else here computes a calendar's root."""
import os
import re
import subprocess
import tempfile
from typing import List, Optional

from .errors import ServiceError
from .programs import program

ROOT = re.compile(r"\b([0-9a-f]{64})$")
ALL = re.compile(r"extended \d+ of \d+")
"""The last line of a run that went through its list."""
LONGEST_SECONDS = 600
"""After this time a run of the program is given up."""


REFUSED = (1, 3, 7)
"""The statuses of a refusal: the files or the words of a question do not give an answer."""


class NotComputed(ServiceError):
    """The program refuses the files: its line."""


class NotRun(ServiceError):
    """The program could not do its work, as without memory. That says nothing of the files."""


def ran(*words: str) -> subprocess.CompletedProcess[str]:
    """A run that has ended."""
    try:
        return subprocess.run([program("ksi_roots"), *words], capture_output=True, text=True, check=False, timeout=LONGEST_SECONDS)
    except subprocess.TimeoutExpired:
        raise NotRun(f"ksi_roots {words[0]} did not end within {LONGEST_SECONDS} seconds") from None


def run(*words: str) -> str:
    """The line of a run that ends well."""
    return line_of(ran(*words), words[0])


def line_of(told: subprocess.CompletedProcess[str], command: str) -> str:
    """What a run printed, if it ended well."""
    line = told.stdout.strip()
    if told.returncode in REFUSED:
        raise NotComputed(line or f"ksi_roots exited with status {told.returncode}")
    if told.returncode:
        raise NotRun(f"ksi_roots {command} exited with status {told.returncode} {line}".rstrip())
    return line


def root(folder: str, second: int) -> str:
    """The root of the calendar to a second, in hex."""
    found = ROOT.search(run("root", folder, str(second)))
    if not found:
        raise NotRun("ksi_roots printed no root")
    return found[1]


def root_if_any(folder: str, second: int) -> Optional[str]:
    """The same, or None if the files do not give one: they are fetched again, or their source is at fault."""
    try:
        return root(folder, second)
    except NotComputed:
        return None


def written(name: str, *words: str) -> bytes:
    """The file that a run writes as its last word."""
    with tempfile.TemporaryDirectory(prefix="ksi-roots-") as room:
        out = os.path.join(room, name)
        run(*words, out)
        with open(out, "rb") as file:
            return file.read()


def front(folder: str, older: int, newer: int) -> bytes:
    """The consistency proof of the calendar to `older` in that to `newer` (docs/FORMATS.md, "Fronts")."""
    return written("front", "front", folder, str(older), str(newer))


def extended(folder: str, signature: bytes, second: int) -> bytes:
    """A signature that is extended to a second."""
    with tempfile.NamedTemporaryFile(prefix="ksi-signature-") as file:
        file.write(signature)
        file.flush()
        return written("extended", "extend", folder, file.name, str(second))


def extend_all(folder: str, names: List[str], second: int, out: str) -> List[str]:
    """Saves the signatures of files, extended to a second, in the folder `out` under the last parts of their names. Returns a line for each
    name: `extended SECOND P`, or why it is not extended."""
    with tempfile.NamedTemporaryFile(prefix="ksi-list-") as file:
        file.write(b"".join(os.fsencode(name) + b"\n" for name in names))
        file.flush()
        told = ran("extend-all", folder, file.name, str(second), out)
    lines = told.stdout.splitlines()
    if told.returncode not in (0, 1) or not lines or not ALL.fullmatch(lines[-1]):
        raise NotRun(line_of(told, "extend-all") or "ksi_roots printed no line")
    return [line.partition(" ")[2] for line in lines[:-1]]
