"""Reads the lines that nodes send to each other: `synod CORE SECOND KIND ..`, `submission AGGREGATOR SECOND ..` and
`response SECOND ..` (docs/FORMATS.md, "Lines of nodes")."""
from typing import Optional

FORGOTTEN = ["refused forgotten"]
"""The block of a core for a line about a second of which it keeps the root alone."""


def second_of(text: str) -> int:
    """The second of a message."""
    words = text.split(" ", 4)
    return int(words[1] if words[0] == "response" else words[2])


def decree_of(text: str) -> Optional[str]:
    """The root that a message reports as decided, or None."""
    words = text.split(" ", 4)
    return words[4] if words[0] == "synod" and words[3] == "success" else None


def is_of_vote(text: str) -> bool:
    """Whether a message is one of the vote."""
    return text.startswith("synod ")


def last_second_to_core(line: str) -> Optional[int]:
    """The last second that a line to a core is about. None for a line of another form: what it is about is not known."""
    words = line.split(" ")
    try:
        if words[0] in ("seal", "ballot", "tell", "respond", "publish"):
            return int(words[1])
        if words[0] in ("synod", "submission"):
            return int(words[2])
        if words[0] == "held":
            return int(words[1]) + int(words[2]) - 1
        return max(int(words[1]), int(words[2])) if words[0] == "chain" else None
    except (IndexError, ValueError):
        return None
