"""Checks a run: `ksi_retrace` compares each block that a node wrote, and each signature that was handed out, with those of the model.

The folders of several machines are checked as one run, merged by causes (merging.py)."""
import contextlib
import os
import random
import tempfile
from typing import Callable, Dict, List, NamedTuple, Optional, Sequence, Tuple, Union

from . import apart, backup, extension, hours, watched
from .elements import Malformed, parts_of
from .folders import Folders
from .messages import last_second_to_core
from .proved import Refused, Stopped, ksi
from .publications import Publications
from .record import NodeState, Signed, last_state, told
from .retrace import Differs, retrace
from .storing import LostFacts

MOST_AUDITED = 1 << 17
"""An audit needs the journal of the whole run: only runs of at most this many seconds are audited."""


class Counts(NamedTuple):
    """The counts of what was compared and found right."""
    steps: int
    unsaid: int
    """How many of the steps happened, and their replies were lost."""
    signatures: int
    """How many signatures that were handed out equal the model's byte for byte. None is compared if logs are compared node by node."""
    facts: int
    """How many facts nodes acknowledged and did not forget. All are in their files."""
    publications: int
    extended: int
    """How many signatures were extended, and accepted by `ksi verify`."""
    audited: int
    """How many of these were found in the cores' mirrors by `ksi audit`."""


def many(count, word):
    return f"{count} {word}" + ("" if count == 1 else "s")


def look(records, samples):
    """All published answers of the records, the last second sealed, and some of the signatures, mixed."""
    published, chosen, count, last, dice = set(), [], 0, 0, random.Random(1)
    for it in (it for record in records for it in told(record)):
        if isinstance(it, Signed):
            count += 1
            if len(chosen) < samples:
                chosen.append(it.text)
            elif dice.random() < samples / count:
                chosen[dice.randrange(samples)] = it.text
        elif it.line is not None and it.message is None:
            words = it.line.split(" ")
            if words[0] == "publish" and it.block and it.block[0].startswith("answer published "):
                published.add((int(words[1]), it.block[0].split(" ")[2]))
            if words[0] == "seal":
                last = max(last, int(words[1]))
    dice.shuffle(chosen)
    try:
        return published, [bytes.fromhex(text) for text in chosen], last
    except ValueError as fault:
        raise Differs(f"the text of an entry `signed` is no signature: {fault}") from None


def second_of(signature):
    """The second of a signature that was handed out."""
    try:
        return parts_of(signature).second
    except Malformed as fault:
        raise Differs(f"the text of an entry `signed` is no signature: {fault}") from None


def compare(folders: Folders, say: Callable, by_node: bool) -> Tuple[int, int, int]:
    """Compares the blocks: with the model's, or each node's with that node's own."""
    if by_node:
        counts = apart.hold_all(folders)
        say(f"ksi_retrace --node agrees: the blocks of {many(counts.steps, 'step')} ({counts.unsaid} of them without a reply) are the proved nodes'; {many(counts.lines, 'line')} from nodes were sent before")
        if counts.others:
            say(f"{many(counts.others, 'line')} are from other machines: compare digests with theirs")
        return counts.steps, counts.unsaid, 0
    with apart.joining() as joined:
        # ksi_retrace compares these lines too; here a fault names its step and its line
        entries = apart.joined_in(folders.entries(), joined)
        steps, unsaid, signatures = retrace(folders.plan_path, entries)
    say(f"ksi_retrace agrees: the blocks of {many(steps, 'step')} ({unsaid} of them without a reply) and {many(signatures, 'signature')} are the proved model's")
    return steps, unsaid, signatures


def check(folder: Union[str, Sequence[str]], samples: int = 50, say: Callable = print, audits=None, by_node: bool = False) -> Counts:
    """Checks the run of a folder, or of the folders of all machines. Raises Differs if its records are wrong. Reports and returns
    the counts. At most `samples` signatures are extended, and at most `audits` of these audited, or all."""
    folders = Folders(folder)
    if not (by_node and folders.is_of_others()):
        folders.see_all()
    see_hours(folders, say)
    see_retirements(folders, say)
    steps, unsaid, signatures = compare(folders, say, by_node)
    facts = facts_there(folders)
    say(f"all of {many(facts, 'fact')} that nodes acknowledged and did not forget are in their files")
    published, chosen, last = look(folders.records, samples)
    seconds = roots_agree(folders, last)
    say(f"{many(seconds, 'second')} held by {many(len(folders.cores), 'core')}, each with one root")
    publications = publications_agree(folders)
    for it in publications.published:
        if it not in published:
            raise Differs(f"the publication of second {it[0]} is no answer of a core")
    say(f"all of {many(len(publications.published), 'publication')} are answers of cores{', and the same on all machines' if len(folders.paths) > 1 else ''}")
    extended = audited = 0
    if publications.last() is not None and folders.cores:
        extended, audited = use(folders, chosen, publications, last, samples if audits is None else audits)
        say(f"{many(extended, 'signature')}, extended to second {publications.last()}, accepted by ksi verify; {audited} found in the cores' mirrors by ksi audit")
    return Counts(steps, unsaid, signatures, facts, len(publications.published), extended, audited)


def see_retirements(folders: Folders, say: Callable) -> None:
    """Raises Differs if a machine's cores retired, and one of them was given a line of the vote about a later second, or any line about
    one after that."""
    for record in folders.records:
        state = last_state(record)[0]
        last = state.retired.second if state.retired else None
        if last is None and state.freed is None:
            continue
        now: Optional[int] = None
        for entry in (entry for path in hours.all_names(record) for entry, _ in hours.entries_of(path, True)):
            if entry[0] in ("retired", "freed"):
                now = entry[1] if entry[0] == "retired" else None
            elif entry[0] == "given" and entry[1][0] == "c" and (now is not None or last is not None):
                see_second(record, last if now is None else now, now is not None, *entry[1:3])
        if last is not None:
            say(f"{record}: the cores retired at second {last}, and were given nothing about a later one")


def see_second(record: str, last: int, is_after: bool, name: str, line: str) -> None:
    """Raises Differs if a line to a core of a machine that retired is one that it should not have been given."""
    second = last_second_to_core(line)
    if (second is None or second > last) and (is_after or line.split(" ", 1)[0] in ("seal", "ballot", "synod")):
        raise Differs(f"{record}: {name} retired at second {last}, and was given this line: {line}")


def facts_there(folders: Folders) -> int:
    """Raises Differs if a node's file has another count of facts than the node acknowledged and did not forget; one more may be
    there, which it had no time to report. Returns how many these are."""
    acknowledged = 0
    for path, record in zip(folders.paths, folders.records):
        state = last_state(record)[0]
        for name in folders.nodes_of(path):
            known = state.node(name).facts or 0
            with Stopped(path, name) as node:
                if node.facts != known + 1 and not state.node(name).may_have(node.facts):
                    raise Differs(f"{name} acknowledged {known} facts, and its file has {node.facts}")
                see_file(node, state.node(name))
            acknowledged += known
    return acknowledged


def see_file(node: Stopped, state: NodeState) -> None:
    """Raises Differs if a node's file does not begin with the bytes of the mark that the record has."""
    try:
        watched.see_at_rest(node.name, node.path, state, node.facts)
    except LostFacts as reason:
        raise Differs(str(reason)) from None


def see_hours(folders: Folders, say: Callable) -> None:
    """Raises Broken if a closed hour of a record is not the one that was closed."""
    count = sum(hours.see_digests(record) for record in folders.records)
    say(f"{many(count, 'closed file')} of the record with the digest that the next one has")


def roots_agree(folders: Folders, last: int) -> int:
    """Raises Differs if two cores hold different roots of one second. Returns how many seconds up to this one any core holds."""
    seconds = 0
    with contextlib.ExitStack() as opened:
        cores = [opened.enter_context(Stopped(folders.of_node[name], name)) for name in folders.cores]
        for first in range(folders.plan.start, last + 1, backup.AT_ONCE):
            roots: Dict[str, Tuple[str, str]] = {}
            for core in cores:
                add_roots(roots, core, core.ask(f"held {first} {min(backup.AT_ONCE, last + 1 - first)}"))
            seconds += len(roots)
    return seconds


def add_roots(roots: Dict[str, Tuple[str, str]], core: Stopped, rows: List[str]) -> None:
    """Adds the roots that a core holds to those of other cores, by second."""
    for row in rows:
        word, second, root = (row.split(" ") + ["", ""])[:3]
        if word == "root" and roots.setdefault(second, (root, core.name))[0] != root:
            other, name = roots[second]
            raise Differs(f"second {second} has two roots: {other} at {name}, and {root} at {core.name}")


def publications_agree(folders: Folders) -> Publications:
    """The longest publications file. Raises Differs if the file of another machine is not a beginning of it."""
    all_files = [Publications(path) for path in folders.paths]
    longest = max(all_files, key=lambda it: len(it.published))
    for it in all_files:
        if it.published != longest.published[:len(it.published)]:
            second = next(a for a, b in zip(it.published, longest.published) if a != b)[0]
            raise Differs(f"{it.path} and {longest.path} differ from second {second} on")
    return longest


def use(folders: Folders, signatures, publications: Publications, last: int, audits: int) -> Tuple[int, int]:
    """Extends signatures that the last publication covers by a core, and audits the first of them against the mirrors of all, if the run
    is short enough. Returns how many were extended and audited."""
    extended = audited = 0
    with tempfile.TemporaryDirectory(prefix="ksi-check-") as room:
        if last - folders.plan.start >= MOST_AUDITED or len(folders.cores) < folders.plan.cores:
            audits = 0
        if audits:
            backup.make(folders.paths, room, last, say=lambda text: None)
        name = holder(folders, publications.last())
        with Stopped(folders.of_node[name], name) as core:
            for signature in signatures:
                if second_of(signature) > publications.last():
                    continue
                try:
                    parts, content = extension.extend_by(core, signature, publications)
                except extension.NotExtended as reason:
                    raise Differs(f"a signature is not extended: {reason}") from None
                extended += 1
                if audited < audits:
                    audit(room, parts, content, publications)
                    audited += 1
    return extended, audited


def holder(folders: Folders, last: int) -> str:
    """The first core whose file holds all seconds up to one: others may lack some, as one that was down or late at the end. If none
    does, the first core."""
    for name in folders.cores:
        with Stopped(folders.of_node[name], name) as core:
            if core.ask(f"chain {last} {last}") != ["not held"]:
                return name
    return folders.cores[0]


def audit(room, parts, content, publications):
    with open(os.path.join(room, "extended"), "wb") as file:
        file.write(content)
    try:
        line = ksi("audit", "journal.0", "extended", parts.imprint, os.path.abspath(publications.path), cwd=room)
    except Refused as refused:
        raise Differs(f"the audit reports {refused}") from None
    if not line.startswith((f"inside {parts.second} ", f"beneath {parts.second} ")):
        raise Differs(f"the audit reports {line}")
