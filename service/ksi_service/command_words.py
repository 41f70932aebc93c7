"""What the commands share: how they fail, their words, and a folder over which no service runs."""
import contextlib
import os

from . import files
from .errors import ServiceError

DEFAULT = os.environ.get("KSI_SERVICE", "ksi-service-data")
WORDS = {"folder": "the folder of the service", "file": "the file to sign or to verify", "signature": "its signature", "out": "the path of the result"}


class Failed(ServiceError):
    """A reason to exit with status 1."""


def natural(text):
    number = int(text)
    if number < 0:
        raise ValueError(text)
    return number


def seconds_of(text):
    """A number of seconds above 0, with a fraction."""
    number = float(text)
    if not 0 < number < 3600:
        raise ValueError(text)
    return number


def positive(text):
    number = int(text)
    if number < 1:
        raise ValueError(text)
    return number


def rests(folder):
    """Whether a folder has been a service's, and none runs over it."""
    return os.path.exists(os.path.join(folder, "plan")) and not files.is_held(folder)


@contextlib.contextmanager
def at_rest(folder):
    """Locks a folder over which no service runs. The door of a service that was killed is removed: its number may be another process's
    by now, which would be taken for the service."""
    if not os.path.exists(os.path.join(folder, "plan")):
        raise Failed(f"{folder} has no plan: no service ran over it")
    with files.lock(folder):
        files.remove(os.path.join(folder, "door"))
        yield


def add(commands, name, does, told, *words):
    """Adds a command with these words; `folder` may be left out."""
    one = commands.add_parser(name, help=told)
    for word in words:
        one.add_argument(word, help=WORDS[word], **({"nargs": "?", "default": DEFAULT} if word == "folder" else {}))
    one.set_defaults(does=does)
    return one


def add_folders(commands, name, does, told, *words):
    """Adds a command over the folder of a service, or over the folders of all its machines."""
    one = commands.add_parser(name, help=told)
    one.add_argument("folder", nargs="*", help=f"the folder of the service, or those of all machines (default {DEFAULT})")
    for word in words:
        one.add_argument(word, help=WORDS[word])
    one.set_defaults(does=does)
    return one
