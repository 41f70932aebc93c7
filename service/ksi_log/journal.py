"""Entries of the systemd journal as lines of a log of our own, read by cursor (docs/LOGS.md, "journald").

Each entry is a line of JSON with sorted keys, so the same entry gives the same line again. Its cursor is one of the keys. The log is written by this program alone, so its last complete line says
where to go on. A line that was cut off by a crash is removed before that: it was never signed."""
import json
import os
import subprocess
from typing import Any, Dict, List, Optional

from .errors import LogError
from .seeds import MODE
from .store import Store

PIECE = 1 << 16
CURSOR = "__CURSOR"


def cut_end(path: str) -> Optional[bytes]:
    """Removes a last line without a line feed from a file, and returns the last complete line, or None if there is none."""
    with open(path, "r+b") as file:
        size = file.seek(0, os.SEEK_END)
        tail, start = b"", size
        while start and tail.count(b"\n") < 2:
            start = max(0, start - PIECE)
            file.seek(start)
            tail = file.read(size - start)
        end = tail.rfind(b"\n") + 1
        if start + end < size:
            file.truncate(start + end)
            os.fsync(file.fileno())
    return tail[:end].splitlines()[-1] if end else None


def line_of(entry: Dict[str, Any]) -> bytes:
    """The line of an entry that journalctl printed as JSON, whose keys are in any order."""
    return json.dumps(entry, sort_keys=True, ensure_ascii=False, separators=(",", ":")).encode() + b"\n"


def last_cursor(store: Store, path: str) -> Optional[str]:
    """The cursor of the last entry: that of the log's last line, or, if it was rotated, the one that the store kept."""
    line = cut_end(path) if os.path.exists(path) else None
    if line is None:
        return store.cursor()
    try:
        return json.loads(line)[CURSOR]
    except (ValueError, KeyError, TypeError):
        raise LogError(f"{path} is not written by `ksi-log journal`: its last line has no {CURSOR}") from None


def append(store: Store, path: str, words: List[str]) -> int:
    """Appends the new entries of the journal to the log, and returns how many. `words` are further arguments of journalctl, as --file or --unit."""
    after = last_cursor(store, path)
    command = ["journalctl", "--no-pager", "--quiet", "--all", "--output=json", *words, *([f"--after-cursor={after}"] if after else [])]
    number, entries, last = os.open(path, os.O_WRONLY | os.O_CREAT | os.O_APPEND, MODE), 0, after
    with open(number, "ab") as file, subprocess.Popen(command, stdout=subprocess.PIPE, stderr=subprocess.PIPE) as process:
        assert process.stdout and process.stderr
        for line in process.stdout:
            entry = json.loads(line)
            file.write(line_of(entry))
            entries, last = entries + 1, entry[CURSOR]
        reason = process.stderr.read().decode(errors="replace").strip()
        file.flush()
        os.fsync(file.fileno())
    if last:
        store.keep_cursor(last)
    if process.returncode:
        raise LogError(f"journalctl exited with status {process.returncode}: {reason}")
    return entries
