"""The parts of the design for overload. KSI_OVERLOAD names those that are on, so that the gain of each can be measured; all are on without
it. docs/SERVICE.md, "More requests than a service can sign", describes them, and bench/README.md, "Overload", what was measured."""
import os

PARTS = {
    "admission": "a door holds only as many unsigned requests as are signed in time",
    "growth": "that number grows only as fast as it is seen to be borne",
    "after": "Retry-After grows with the lateness of the oldest undecided second",
    "left": "a request whose client left is dropped",
    "ahead": "a request goes only to a second whose machine it still reaches in time",
    "lean": "a core is not given lines of the vote that change nothing any more",
    "gate": "few connections are accepted at once, and a full door refuses them before it reads them",
    "kept": "a full door refuses small requests on kept connections before it reads them",
}
ON = frozenset(filter(None, os.environ.get("KSI_OVERLOAD", ",".join(PARTS)).split(",")))


def is_on(part: str) -> bool:
    return part in ON
