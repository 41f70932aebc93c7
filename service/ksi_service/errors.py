"""The errors of the command, each with its exit status."""
import sys


class ServiceError(Exception):
    """A reason for the user. Any other exception is a bug."""

    status = 1


class MissingPackage(ServiceError):
    """A package of Debian that this Python does not have."""

    def __init__(self, package: str) -> None:
        super().__init__(f"{sys.executable} has no {package}: apt-get install {package} adds it to /usr/bin/python3")


class NeedsOperator(ServiceError):
    """Starting again does not help: the unit does not restart at this status."""

    status = 3
