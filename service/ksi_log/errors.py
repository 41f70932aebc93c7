"""The error of the command, and the words that its messages share."""
import time

from ksi_service.errors import ServiceError


class LogError(ServiceError):
    """A reason for the user, and exit status 1."""


class Changed(LogError):
    """A signed part of a log was changed."""


def date(second: int) -> str:
    """A second of Unix time, with its date."""
    try:
        return f"{second} ({time.strftime('%Y-%m-%d %H:%M:%S', time.gmtime(second))} UTC)"
    except (ValueError, OverflowError):
        return str(second)


def counted(number: int, word: str) -> str:
    """A number with its word, as `1 line` or `2 lines`."""
    return f"{number} {word}" + ("" if number == 1 else "s")
