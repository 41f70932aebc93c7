"""The versions of the program and of the protocol between hosts."""
import functools
import os

from .programs import BESIDE, TOP

PROTOCOL = 2
"""The version of the messages between hosts: inbox.py and heartbeat.py have them. A host runs together with hosts of the same version and
of the two next to it, so that machines are upgraded one after the other. A change that those cannot bear needs two versions: the first
one understands both. Version 2 has the messages `retired`, `find` and `found`, which a host of version 1 drops: no plan is succeeded while one
runs, and a lookup has no answer from it."""


def is_neighbour(protocol: int) -> bool:
    """Whether a host of this version of the protocol and this host run together."""
    return abs(protocol - PROTOCOL) <= 1


@functools.lru_cache(maxsize=1)
def version() -> str:
    """The version of the program: by the file VERSION next to this package after an installation, or else at the top of this checkout."""
    for folder in (BESIDE, TOP):
        try:
            with open(os.path.join(folder, "VERSION"), encoding="ascii") as file:
                return file.read().strip()
        except FileNotFoundError:
            continue
    return "unknown"
