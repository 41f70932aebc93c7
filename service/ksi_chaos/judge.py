"""Judges a run. Every signature that a client got is on the record, equals the proved model's, extends, is accepted and is found in the
cores' mirrors. No fact that a node acknowledged is lost. The record, as a schedule, replays to the same bytes."""
import os

from ksi_service import check, replay
from ksi_service.record import Signed, told


def picked(spans, share):
    return f"{sorted(spans)[min(len(spans) - 1, int(share * len(spans)))]:.1f} s" if spans else "-"


def judge(run, room, extensions, audits):
    """The rows of the table, with this many signatures extended and audited. Raises Differs if anything is wrong."""
    handed = {bytes.fromhex(it.text) for it in told(os.path.join(run.folder, "record")) if isinstance(it, Signed)}
    lost = sum(content not in handed for content in run.signed.values())
    if lost:
        raise check.Differs(f"{lost} signatures that clients got are not on the record")
    found = check.check(run.folder, extensions, audits=audits)
    rows = [("signatures that clients got, all on the record", len(run.signed)),
            ("from a request to its signature: median, 99 in 100, longest", ", ".join(picked(run.spans, share) for share in (0.5, 0.99, 1))),
            ("steps, each with the proved model's block (`ksi_retrace`); of them without a reply", f"{found.steps}; {found.unsaid}"),
            ("signatures handed out, each byte for byte the model's", found.signatures),
            ("facts that nodes acknowledged and did not forget, all in their files", found.facts),
            ("publications, all answers of cores", found.publications),
            ("signatures extended, and accepted by `ksi verify`", found.extended),
            ("of these found in the cores' mirrors by `ksi audit`", found.audited)]
    if found.steps <= replay.MOST_EVENTS:
        again = replay.replay(run.folder, os.path.join(room, "replay"), audits)
        rows.append(("events replayed by `ksi replay`: its journal has each of these signatures, byte for byte", again.events))
    return rows


def table(rows):
    """Rows as a table of Markdown."""
    return "\n".join(["| What | How much |", "|---|---|", *(f"| {name} | {value} |" for name, value in rows)])
