"""Looks at a file and its signature: the work of the processes of workers.py. A look never raises for a file; its reason is in the result."""
import os
from typing import Any, Callable, NamedTuple, Optional, Tuple

from . import hashing, libksi
from .elements import Malformed, head_of
from .errors import ServiceError
from .hashing import NotHashed
from .verifying import ACCEPTED, NOT_PUBLISHED, OTHER_HASH, ByStatement, Verdict, Verifier, verifier

MOST_SIGNATURE = 65_539
"""The most bytes of a signature file."""
Job = Tuple[bytes, bytes]
"""The path of a file, and that of its signature."""
# the states of a signature
NONE, OURS, OTHER, DAMAGED, UNREAD = "none", "ours", "other", "damaged", "unread"


class Look(NamedTuple):
    """A file and its signature."""

    path: bytes
    signature: bytes
    size: int = 0
    digest: bytes = b""
    fault: str = ""
    """Why the file was not read."""
    state: str = NONE
    reason: str = ""
    """Why the signature is damaged, or was not read, or cannot be saved."""
    verdict: Verdict = Verdict("")


Looker = Callable[[Job], Look]


def reason_of(error: Exception) -> str:
    return (error.strerror or str(error)) if isinstance(error, OSError) else str(error)


def signature_at(path: bytes) -> Tuple[Optional[bytes], str]:
    """The bytes of a signature file, or None and a reason. Without a file there is no reason."""
    try:
        return hashing.content_of(path, MOST_SIGNATURE), ""
    except FileNotFoundError:
        return None, "it is a symbolic link to a file that is not there" if os.path.islink(path) else ""
    except (OSError, NotHashed) as error:
        return None, reason_of(error)


def hashed(path: bytes, signature: bytes, on_bytes: Callable[[int], None]) -> Look:
    try:
        return Look(path, signature, *hashing.hashed(path, on_bytes))
    except (OSError, NotHashed) as error:
        return Look(path, signature, fault=reason_of(error))


def with_signature(look: Look, by: Verifier) -> Look:
    """A look at a file that was hashed, with the verdict on its signature."""
    content, reason = signature_at(look.signature)
    if content is None:
        return look._replace(state=UNREAD if reason else NONE, reason=reason)
    try:
        verdict = by.verify(content, look.digest)
    except ServiceError as error:
        return look._replace(state=UNREAD, reason=str(error))
    if verdict.code in (ACCEPTED, NOT_PUBLISHED):
        return look._replace(state=OURS, verdict=verdict)
    return look._replace(state=OTHER if verdict.code == OTHER_HASH else DAMAGED, verdict=verdict)


def reader() -> Verifier:
    """A verifier for signatures that are there already, without publications: by libksi, or if it is not found by their statements alone."""
    return ByStatement() if libksi.library() is None else verifier()


class Target:
    """Whether signatures can be saved in a folder. Files come folder by folder, so the last one is remembered."""

    def __init__(self) -> None:
        self.folder: Optional[bytes] = None
        self.reason = ""

    def refusal(self, signature: bytes) -> str:
        """Why this signature cannot be saved, or nothing."""
        if len(os.path.basename(signature)) > 255 - len(".new"):
            return "the name is too long for a signature next to it"
        folder = os.path.dirname(signature) or b"."
        if folder != self.folder:
            self.folder, self.reason = folder, self.look(folder)
        return self.reason

    def look(self, folder: bytes) -> str:
        # a folder of a mirrored tree is made when it is needed
        while not os.path.lexists(folder) and os.path.dirname(folder) != folder:
            folder = os.path.dirname(folder) or b"."
        if os.access(folder, os.W_OK | os.X_OK):
            return ""
        return f"{os.fsdecode(folder)} is read-only for this user: --into FOLDER saves signatures elsewhere"


def to_sign(_: Any, on_bytes: Callable[[int], None]) -> Looker:
    """A file that may have a signature already, which is verified but for its publication."""
    by, target = reader(), Target()

    def look(job: Job) -> Look:
        path, signature = job
        # a file whose signature cannot be saved is not read
        refusal = "" if os.path.lexists(signature) else target.refusal(signature)
        if refusal:
            return Look(path, signature, state=UNREAD, reason=refusal)
        found = hashed(path, signature, on_bytes)
        return found if found.fault else with_signature(found, by)
    return look


def to_hash(_: Any, on_bytes: Callable[[int], None]) -> Looker:
    """A file alone."""
    return lambda job: hashed(*job, on_bytes)


def to_verify(publications: bytes, on_bytes: Callable[[int], None]) -> Looker:
    by = verifier(publications)

    def look(job: Job) -> Look:
        found = hashed(*job, on_bytes)
        return found if found.fault else with_signature(found, by)
    return look


def to_extend(_: Any, __: Callable[[int], None]) -> Looker:
    """A signature alone. Its statements are read and not verified: whether it is right is seen when it is extended."""
    target = Target()

    def look(job: Job) -> Look:
        path, signature = job
        content, reason = signature_at(signature)
        if content is None:
            return Look(path, signature, state=UNREAD if reason else NONE, reason=reason)
        try:
            head = head_of(content)
        except Malformed as error:
            return Look(path, signature, state=DAMAGED, reason=str(error))
        found = Look(path, signature, state=OURS, verdict=Verdict("", head.second, None, head.imprint, head.calendar_to, head.is_extended))
        refusal = target.refusal(signature)
        return found._replace(state=UNREAD, reason=refusal) if refusal else found
    return look
