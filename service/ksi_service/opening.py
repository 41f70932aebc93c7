"""What a service opens before it runs: enough files, its door, and the identity that lets its folder go on."""
import logging
import os
import resource
from typing import NamedTuple, Optional

from . import files, identity
from .door import MOST_ACCEPTED
from .newest import Folder, see_newest
from .notify import notify

log = logging.getLogger(__name__)

OTHER_FILES = MOST_ACCEPTED + 1024
"""How many files may be open in addition to the connections that are served and to those of nodes."""
FILES_OF_NODE = 3
"""Two pipes, and the number of its process."""


def open_files(most, nodes):
    """Lets the process have this many connections open, or as many as it may. Returns how many. Further files are left for connections
    that are accepted at once, for nodes and for the record: a host that could not open its record would end."""
    soft, hard = resource.getrlimit(resource.RLIMIT_NOFILE)
    others = OTHER_FILES + FILES_OF_NODE * nodes
    wanted = most + others if hard == resource.RLIM_INFINITY else min(most + others, hard)
    if soft < wanted:
        resource.setrlimit(resource.RLIMIT_NOFILE, (wanted, hard))
    return min(most, max(wanted - others, wanted // 8))


async def opened(door, host, port):
    """Opens the door, or raises the reason why it cannot listen."""
    try:
        await door.begin(host, port)
    except OSError as error:
        reason = os.strerror(error.errno) if error.errno and error.errno > 0 else error.strerror
        raise OSError(f"the door cannot listen at {host}:{port}: {reason}") from None


async def show(door, folder, address):
    """Opens the door, writes where it is into the folder, and reports to systemd that the service is ready."""
    await opened(door, *address)
    rows = [door.where(), str(os.getpid()), *(["https"] if door.certificate else [])]
    files.write(os.path.join(folder, "door"), "".join(f"{row}\n" for row in rows).encode())
    log.info("the door is open at %s://%s", door.scheme, door.where())
    notify("READY=1")


class Start(NamedTuple):
    """What guards a start against an older copy of the folder."""

    identity_at: Optional[str] = None
    """The file of the identity, if it is not in the usual place."""
    moved: bool = False
    """Whether the folder was stopped on another machine and carried here."""
    mirror: Optional[str] = None
    """The URL of a mirror, or of a door, that has the publications."""
    printed: Optional[str] = None
    """The last print."""


async def opened_identity(folder, service, start):
    """Whether this folder may go on on this machine: raises NotHere or NotNewest if not. From then on no effect of a step leaves before the
    identity has the step."""
    host = service.host
    before = host.succession.before
    await see_newest(Folder(folder, service.publications.published, not host.trusted, log.warning, host.plan.start if before else 0), start.mirror, start.printed, start.moved)
    digest = identity.digest_of(host.plan.text().encode())
    # a file that is named is that of the first plan's identity
    path = f"{start.identity_at}.{digest[:16]}" if start.identity_at and before else start.identity_at
    words = folder, digest, host.record.state.steps, host.places.me, path
    retired = host.record.state.retired
    has_retired = retired is not None or host.record.state.freed is not None
    found = identity.moved_in(*words, has_retired=has_retired) if start.moved else identity.opened(*words, log.warning, has_retired)
    if retired is not None:
        found.retired(*retired)
    host.record.on_synced = found.reached
    host.record.on_retired = found.retired
    return found
