"""Extends signatures by the calendar files of a mirror: of the plan that it follows, and of those from before."""
from typing import NoReturn, Optional

from . import extension, roots, subtrees
from .earlier import by_files, plan_of
from .mirror import Mirror

LATER = ("not-yet-published", "seconds-missing")
"""The codes of a signature that a later publication may cover."""


def extended(mirror: Mirror, signature: bytes, to: Optional[int] = None) -> bytes:
    """A signature that is extended to a publication of its plan, the last one if none is named, and that `ksi verify` accepts against
    the mirror's publications. Raises NotExtended."""
    calendar, seen = mirror.calendar, mirror.seen
    plan = plan_of(mirror.earlier, calendar.plan.start if calendar else 1 << 63, signature)
    if plan is not None:
        return plan.extended(signature, to)
    last = (seen.last() if seen else 0) if to is None else to
    if calendar is None or seen is None:
        nothing_of(signature, last)
    if last not in seen.root_of:
        return by_files(calendar, signature, last, seen.path)
    parts = extension.wanted(signature, last)
    try:
        return subtrees.extend(mirror.subtrees, signature, parts, (last, seen.root_of[last]), seen.path)
    except roots.NotComputed as reason:
        raise extension.NotExtended("not-accepted", str(reason)) from None


def nothing_of(signature: bytes, last: int) -> NoReturn:
    """Raises NotExtended: the mirror has no calendar of the signature's plan yet."""
    extension.wanted(signature, last)
    raise extension.NotExtended("seconds-missing", "the mirror has no calendar of that second yet")
