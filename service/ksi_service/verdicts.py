"""The words for a verdict: both times, the publication, and with which outside copy it was compared."""
import time
from typing import Optional, Tuple

from .verifying import NOT_PUBLISHED, OTHER_HASH, Verdict

UNCOMPARED = "publication not compared with any outside copy"
SHOWS = ("The hash of the document was in the service's calendar before the named root was published. Whoever trusts that root, as by a print or a "
         "mirror of another party, needs to trust nobody else for that. The second is the one in which the service recorded the hash.")
SHOWS_NOT = "It does not show who wrote or submitted the document, whether its content is true, or that no older version exists."
EMPTY = "the file is empty: did an upload fail?"


def date(second: int) -> str:
    """A second of Unix time in UTC."""
    try:
        return time.strftime("%Y-%m-%d %H:%M:%S UTC", time.gmtime(second))
    except (ValueError, OverflowError, OSError):
        return "after the year 9999"


def dated(second: int) -> str:
    return f"second {second} ({date(second)})"


def recorded(second: int) -> str:
    return f"recorded in {dated(second)}"


def existed(publication: Tuple[int, str]) -> str:
    second, root = publication
    return f"existed before {date(second)}, by the publication of root {root}"


def is_pending(verdict: Verdict) -> bool:
    """Whether a signature passes every check but for the missing publication, because it is not extended to one."""
    return verdict.code == NOT_PUBLISHED and not verdict.is_extended and verdict.second is not None


def pending(verdict: Verdict, last: Optional[int] = None, following: Optional[int] = None) -> str:
    """A pending signature in words. `last` is the last second of the publications at hand, `following` the time of the next publication."""
    begun = f"of {dated(verdict.second or 0)}, of this document"
    if last is not None and last >= (verdict.second or 0):
        return f"{begun}, not extended to the publication of {dated(last)}: ksi-service extend"
    return f"{begun}, not yet published" + (f" (next publication {time.strftime('%H:%M:%S', time.gmtime(following))} UTC)" if following else "")


def refused(verdict: Verdict) -> str:
    """A verdict that is neither accepted nor pending, in words that need no look at docs/ANSWERS.md."""
    if verdict.code == OTHER_HASH and verdict.second is not None:
        return f"{verdict.line}: the signature, of {dated(verdict.second)}, is of other bytes: the file has changed since, or the signature is another file's"
    if verdict.code == NOT_PUBLISHED and verdict.calendar_to is not None:
        return f"{verdict.line}: the signature is extended to the publication of {dated(verdict.calendar_to)}, which these publications lack: ksi-service publications gets newer ones"
    return f"{verdict.line}: ksi-why {verdict.line} explains it"
