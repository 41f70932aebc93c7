"""Which folder of a plan runs on this machine, and how far it got: kept outside the folder, so that an older copy never goes on.

A core that forgot a vote may vote again, and two roots for one second are then possible. So each machine keeps, for every plan that it
ever ran, an identity: the folder's own number and the last step whose effects may have left the machine. It is written after the step
is on the disk, and before anything of that step leaves. A folder that is ahead of its identity is normal, since a power loss may come
between the two writes. A folder behind it is an older copy and is refused for good.

The identity is a file of two slots that are written in turn, each with its own check sum: a write that is torn by a power loss damages
one slot, and the other still has the step before, of which everything had left. A lock next to it, on the plan and not on the folder,
refuses a second host of the same plan and machine."""
import fcntl
import hashlib
import os
import secrets
from typing import IO, Callable, List, NamedTuple, Optional, Tuple

from . import files
from .errors import NeedsOperator

SLOT = 512
"""The bytes of one slot: a sector, which no disk tears in a way that the check sum would not show."""
MARK = "identity"
"""The file in the folder that has the folder's number."""


class NotHere(NeedsOperator):
    """The folder may not go on on this machine."""


class Slot(NamedTuple):
    """The content of one slot."""

    plan: str
    machine: str
    folder: str
    """The folder's number."""
    step: int
    """How many steps of its record may have had effects."""
    confirmed: bool
    """Whether the folder's own mark was written too. It is not between the first two writes of a new identity."""
    retired: str = ""
    """The second and the name of the next plan, if the folder's cores retired."""


def text_of(slot: Slot) -> bytes:
    """A slot's bytes: words, a checksum over them, spaces, and a line feed."""
    machine = slot.machine or "-"
    state = f"retired:{slot.retired}" if slot.retired else "confirmed" if slot.confirmed else "new"
    words = f"ksi-identity 1 {slot.plan} {machine} {slot.folder} {slot.step} {state}"
    line = f"{words} {hashlib.sha256(words.encode()).hexdigest()}"
    if len(line) >= SLOT:
        raise NotHere(f"the machine's name {slot.machine} is too long for an identity")
    return line.ljust(SLOT - 1).encode() + b"\n"


def slot_in(content: bytes) -> Optional[Slot]:
    """The slot in bytes, or None if they are not complete."""
    try:
        words = content.decode("ascii").split()
        kind, version, plan, machine, folder, step, state, check = words
        whole = hashlib.sha256(" ".join(words[:-1]).encode()).hexdigest() == check
        state, _, retired = state.partition(":")
        if not whole or (kind, version) != ("ksi-identity", "1") or state not in (("retired",) if retired else ("new", "confirmed")):
            return None
        return Slot(plan, "" if machine == "-" else machine, folder, int(step), state != "new", retired)
    except (UnicodeDecodeError, ValueError):
        return None


def state_folder() -> str:
    """Where this user's identities are: the folder that systemd gives the unit, else that of the XDG base directories."""
    given = os.environ.get("STATE_DIRECTORY", "").split(":")[0]
    if given:
        return given
    state = os.environ.get("XDG_STATE_HOME") or os.path.join(os.path.expanduser("~"), ".local", "state")
    return os.path.join(state, "ksi")


def path_of(plan: str, machine: str, given: Optional[str] = None) -> str:
    """The path of an identity. A plan is named by its SHA-256, so that a second plan has another file."""
    name = f"{plan[:32]}-{machine}" if machine else plan[:32]
    return given or os.path.join(state_folder(), f"{name}.identity")


def digest_of(plan: bytes) -> str:
    return hashlib.sha256(plan).hexdigest()


class Identity:
    """The identity of a plan on this machine, held by a lock."""

    def __init__(self, path: str, slot: Slot, held: IO[str]) -> None:
        self.path = path
        self.slot = slot
        self.held = held
        self.file = os.open(path, os.O_RDWR)
        self.turn = older_of(slots_in(os.pread(self.file, 2 * SLOT, 0)))
        """Which slot is written next: never the newest one, which a torn write would lose."""

    def reached(self, step: int) -> None:
        """Records that the effects of all steps before `step` may leave now. Returns once that is on the disk."""
        if step > self.slot.step:
            self.write(self.slot._replace(step=step))

    def retired(self, second: int, name: str) -> None:
        """Records that the folder's cores retired. From then on a copy of the folder from before is refused, also if it lacks no step.
        An older program takes the identity for damaged, and starts nothing."""
        text = f"{second}:{name}"
        if text != self.slot.retired:
            self.write(self.slot._replace(confirmed=True, retired=text))

    def write(self, slot: Slot) -> None:
        try:
            os.pwrite(self.file, text_of(slot), self.turn * SLOT)
            os.fdatasync(self.file)
        except OSError as fault:
            raise files.named(fault, self.path) from None
        self.slot = slot
        self.turn = 1 - self.turn

    def close(self) -> None:
        os.close(self.file)
        self.held.close()


def lock(path: str, plan: str) -> IO[str]:
    """Holds the plan on this machine until the file is closed."""
    files.make_folder(os.path.dirname(path))
    file = open(f"{path}.lock", "a", encoding="ascii")
    try:
        fcntl.flock(file, fcntl.LOCK_EX | fcntl.LOCK_NB)
    except BlockingIOError:
        file.close()
        raise NotHere(f"another host of the plan {plan[:16]} runs on this machine, over this folder or a copy of it") from None
    return file


def slots_in(content: bytes) -> List[Optional[Slot]]:
    """Both slots of an identity, each None if it is not whole."""
    return [slot_in(content[at:at + SLOT]) for at in (0, SLOT)]


def age_of(slot: Optional[Slot]) -> Tuple[bool, int, bool]:
    """How new a slot is: a damaged one is the oldest."""
    return (False, -1, False) if slot is None else (bool(slot.retired), slot.step, slot.confirmed)


def older_of(slots: List[Optional[Slot]]) -> int:
    return 0 if age_of(slots[0]) <= age_of(slots[1]) else 1


def read(path: str) -> Optional[Slot]:
    """The newest whole slot of an identity, or None if there is no identity. Raises NotHere if it is damaged."""
    try:
        content = files.content_of(path)
    except OSError as fault:
        raise NotHere(f"the identity {path} cannot be read: {fault.strerror}") from None
    if content is None:
        return None
    newest = max(slots_in(content), key=age_of)
    if len(content) != 2 * SLOT or newest is None:
        raise NotHere(f"the identity {path} is damaged: no program can decide whether the folder is the newest one of its plan. Begin a new plan")
    return newest


def mark_of(folder: str) -> Optional[str]:
    """The folder's number, or None if it has none yet."""
    content = files.content_of(os.path.join(folder, MARK))
    return None if content is None else content.decode("ascii", "replace").strip()


def opened(
    folder: str,
    plan: str,
    steps: int,
    machine: str = "",
    path: Optional[str] = None,
    say: Callable[[str], None] = lambda _: None,
    has_retired: bool = False,
) -> Identity:
    """Opens the identity of a plan (its digest) for a folder whose record has `steps` steps, and holds the plan on this machine. Raises
    NotHere if the folder may not go on here. A folder without a mark and without an identity is a new one, or one of a version
    before 0.2: it is taken in once, and `say` reports the latter. `has_retired` is whether the cores retired by the record."""
    path = path_of(plan, machine, path)
    held = lock(path, plan)
    try:
        slot = read(path)
        mark = mark_of(folder)
        if slot is None:
            slot = begun(path, folder, plan, machine, steps, mark, say)
        else:
            compare(path, folder, slot, plan, machine, steps, mark, has_retired)
        return confirmed(path, folder, slot, mark, held)
    except BaseException:
        held.close()
        raise


def begun(path: str, folder: str, plan: str, machine: str, steps: int, mark: Optional[str], say: Callable[[str], None]) -> Slot:
    """A new identity for a folder that never had one."""
    if mark is not None and not machine:
        for name in machines_of(path, plan):
            raise NotHere(f"{folder} is the folder of machine {name}, one of several: start it with --machines")
    if mark is not None:
        raise NotHere(
            f"{folder} was run elsewhere: this machine has no identity of its plan at {path}. If it was stopped there and carried here, "
            f"use --moved; a backup never goes on: begin a new plan"
        )
    if steps:
        say(f"{folder} is of a version without identities: its identity is now kept at {path}")
    slot = Slot(plan, machine, secrets.token_hex(16), steps, False)
    files.write(path, text_of(slot) * 2)
    return slot


def machines_of(path: str, plan: str) -> List[str]:
    """The machines of several whose identities of a plan are in the same place."""
    beginning, end = f"{plan[:32]}-", ".identity"
    names = sorted(os.listdir(os.path.dirname(path)))
    return [it[len(beginning):-len(end)] for it in names if it.startswith(beginning) and it.endswith(end)]


def compare(path: str, folder: str, slot: Slot, plan: str, machine: str, steps: int, mark: Optional[str], has_retired: bool = False) -> None:
    """Raises NotHere unless the identity is this folder's, and the folder is not behind it."""
    if (slot.plan, slot.machine) != (plan, machine):
        raise NotHere(f"the identity {path} is of another plan or machine")
    if mark is None and slot.confirmed and not steps:
        raise NotHere(f"{folder} is empty, and its plan ran on this machine before, {slot.step} steps far: bring that folder back, or begin a new plan")
    if mark is None and (slot.confirmed or steps != slot.step):
        raise NotHere(f"{folder} is not the folder of its plan that runs on this machine: a plan goes on only in its own folder")
    if mark is not None and mark != slot.folder:
        raise NotHere(f"{folder} is not the folder of its plan that ran on this machine last: a plan goes on only in its own folder")
    if slot.retired and not has_retired:
        raise NotHere(f"{folder} is an older copy: its cores retired at second {slot.retired.split(':')[0]}, and its record has no such entry. It never goes on: bring the newest folder back")
    if steps < slot.step:
        raise NotHere(
            f"{folder} is an older copy: its record has {steps} steps, and {slot.step} were made on this machine. It never goes on: "
            f"bring the newest folder back, or begin a new plan"
        )


def confirmed(path: str, folder: str, slot: Slot, mark: Optional[str], held: IO[str]) -> Identity:
    """Writes the folder's mark, then notes in the identity that it was written."""
    if mark is None:
        files.write(os.path.join(folder, MARK), f"{slot.folder}\n".encode())
    identity = Identity(path, slot, held)
    if not slot.confirmed:
        identity.write(slot._replace(confirmed=True))
        identity.write(identity.slot)
    return identity


def moved_in(folder: str, plan: str, steps: int, machine: str = "", path: Optional[str] = None, has_retired: bool = False) -> Identity:
    """Opens the identity of a folder that was stopped on another machine and carried here. The caller has made sure that nobody knows a
    later step of it: this function cannot tell a carried folder from an older copy."""
    path = path_of(plan, machine, path)
    held = lock(path, plan)
    try:
        mark = mark_of(folder)
        if mark is None:
            raise NotHere(f"{folder} has no mark of its own, so it was not run by a version with identities: start it without --moved")
        slot = read(path)
        if slot is None:
            slot = Slot(plan, machine, mark, steps, True)
            files.write(path, text_of(slot) * 2)
        compare(path, folder, slot, plan, machine, steps, mark, has_retired)
        return Identity(path, slot, held)
    except BaseException:
        held.close()
        raise
