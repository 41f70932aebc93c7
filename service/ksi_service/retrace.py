"""Writes the record of a run as a stream of entries to the proved `ksi_retrace`, and reads its verdict.

`ksi_retrace` steps the proved model through the record. It compares each block that a node wrote with the model's, each line that
came from a node with the message that was sent, and each signature that was handed out. What the record leaves out it cannot
compare: refused lines, questions, and the blocks of steps whose reply was lost."""
import subprocess
import tempfile
from collections import deque
from typing import Iterable, Iterator

from .errors import ServiceError
from .programs import program
from .record import Signed


TITLE = "ksi-record 2\n"
"""The first line of a record whose deliveries have the line that the node took."""


class Differs(ServiceError):
    """The run is not that of its record."""


def head_of(step):
    """The line that states which event a step was."""
    if step.line is None:
        return f"restart {step.node}"
    words = f"{step.node} {step.line}"
    if step.message is not None:
        words = "deliver %d %d " % tuple(step.message) + words
    return words if step.block is not None else f"unsaid {words}"


def entry_of(it):
    """A step or a signature that was handed out, as an entry."""
    if isinstance(it, Signed):
        return f"sign {it.step}\nsignature {it.text}\n.\n"
    rows = [head_of(it), *(it.block + ["."] if it.block is not None else [])]
    return "".join(f"{row}\n" for row in rows)


def entries(run: Iterable[object]) -> Iterator[str]:
    """The line of the version, and the entries of a run's steps and signatures."""
    yield TITLE
    yield from map(entry_of, run)


def feed(run, rows):
    """Writes entries to a program until it reads no more, for example after one that differs: its last line has the reason. The rest is
    dropped, since a write to a program that has ended would fail."""
    try:
        with run.stdin:
            for row in rows:
                run.stdin.write(row.encode())
    except BrokenPipeError:
        pass


def retrace(plan, run):
    """Compares the steps and signatures of a run. Returns the counts of steps, of steps without a reply, and of signatures. Raises Differs with the program's last line if one differs.

    Its output goes to a file: a pipe that nobody empties while the record is written would block both."""
    with tempfile.TemporaryFile() as out:
        with subprocess.Popen([program("ksi_retrace"), plan], stdin=subprocess.PIPE, stdout=out, stderr=subprocess.DEVNULL) as process:
            feed(process, entries(run))
        out.seek(0)
        said = b"".join(deque(out, maxlen=1)).decode().strip()
    words = said.split(" ")
    if process.returncode or words[::2] != ["agrees", "unsaid", "signatures"]:
        raise Differs(f"ksi_retrace: {said or process.returncode}")
    return tuple(map(int, words[1::2]))
