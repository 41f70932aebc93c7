"""Reports on files: CSV or JSON with a row for each file, or text to paste. A report has its name only once it is complete."""
import csv
import json
import os
import time
from typing import Any, Dict, List, Optional, TextIO

from . import files
from .errors import ServiceError
from .hashing import EMPTY
from .outcomes import Outcome, shown
from .verdicts import SHOWS, SHOWS_NOT, date, existed, recorded
from .version import version

COLUMNS = ["path", "size", "sha256", "verdict", "second", "date", "publication", "published", "root", "remark", "path_hex"]


class BadReport(ServiceError):
    """The name of a report has no known ending."""


def row_of(it: Outcome) -> Dict[str, Any]:
    """The values of COLUMNS. `path_hex` has the bytes of a path that is no printable UTF-8."""
    path = shown(it.path)
    return {"path": path, "size": it.size, "sha256": it.digest.hex() or None, "verdict": it.verdict, "second": it.second,
            "date": None if it.second is None else date(it.second), "publication": it.publication,
            "published": None if it.publication is None else date(it.publication), "root": it.root or None, "remark": it.remark or None,
            "path_hex": None if path.encode() == it.path else it.path.hex()}


def lines_of(it: Outcome) -> List[str]:
    """A file in a text."""
    rows = [shown(it.path), f"  {it.verdict}{f': {it.remark}' if it.remark else ''}"]
    if it.digest:
        rows.append(f"  {it.size:,} bytes, SHA-256 {it.digest.hex()}" if it.digest.hex() != EMPTY else f"  0 bytes, SHA-256 {it.digest.hex()}")
    if it.publication is not None and it.second is not None:
        rows += [f"  {recorded(it.second)}", f"  {existed((it.publication, it.root))}"]
    return rows


class Report:
    """A report that is written row by row."""

    def __init__(self, path: str, does: str) -> None:
        self.path = path
        self.head = {"program": f"ksi-service {version()}", "command": does, "time": date(int(time.time()))}
        self.file: TextIO = open(f"{path}.new", "w", encoding="utf-8", newline="")
        self.begin()

    def begin(self) -> None:
        pass

    def add(self, it: Outcome) -> None:
        raise NotImplementedError

    def end(self, notes: List[str], summary: str, details: Optional[Dict[str, Any]] = None) -> None:
        """Completes the report with sentences on publications, and puts it in its place."""
        self.close_with(notes, summary, details or {})
        self.file.close()
        files.keep(f"{self.path}.new", self.path)

    def close_with(self, notes: List[str], summary: str, details: Dict[str, Any]) -> None:
        pass

    def drop(self) -> None:
        self.file.close()
        files.remove(f"{self.path}.new")


class Csv(Report):
    def begin(self) -> None:
        self.rows = csv.DictWriter(self.file, COLUMNS)
        self.rows.writeheader()

    def add(self, it: Outcome) -> None:
        self.rows.writerow(row_of(it))


class Json(Report):
    is_first = True

    def begin(self) -> None:
        self.file.write(json.dumps(self.head, ensure_ascii=False)[:-1] + ', "files": [')

    def add(self, it: Outcome) -> None:
        self.file.write(("\n" if self.is_first else ",\n") + json.dumps(row_of(it), ensure_ascii=False))
        self.is_first = False

    def close_with(self, notes: List[str], summary: str, details: Dict[str, Any]) -> None:
        rest = {"summary": summary, "publications": notes, **details, "shows": SHOWS, "does_not_show": SHOWS_NOT}
        self.file.write("\n], " + json.dumps(rest, ensure_ascii=False)[1:] + "\n")


class Text(Report):
    def begin(self) -> None:
        self.file.write(f"Report of {self.head['program']}, {self.head['command']}, {self.head['time']}\n\n")

    def add(self, it: Outcome) -> None:
        self.file.write("\n".join(lines_of(it)) + "\n\n")

    def close_with(self, notes: List[str], summary: str, details: Dict[str, Any]) -> None:
        links = [f"  {row}" for row in details.get("links", [])]
        rest = [f"Result: {summary}", *notes, *(["", "Links, from the hash of the document up:", *links] if links else []), "", f"Shown by an accepted signature: {SHOWS}", f"Not shown: {SHOWS_NOT}"]
        self.file.write("\n".join(rest) + "\n")


KINDS = {".csv": Csv, ".json": Json, ".txt": Text}


def report_at(path: Optional[str], does: str) -> Optional[Report]:
    """The report of a name that ends with .csv, .json or .txt, or None without a name."""
    if path is None:
        return None
    kind = KINDS.get(os.path.splitext(path)[1].lower())
    if kind is None:
        raise BadReport(f"{path} does not end with .csv, .json or .txt")
    return kind(path, does)
