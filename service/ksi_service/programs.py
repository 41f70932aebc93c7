"""The places of the proved programs and of the page: in this checkout, as `rt ci` or `make` left them, or installed."""
import functools
import os
import shutil

from .errors import ServiceError

BESIDE = os.path.dirname(os.path.dirname(os.path.abspath(__file__)))
"""The folder of this package: service/ of a checkout, or lib/ksi after an installation."""
TOP = os.path.dirname(BESIDE)


class Missing(ServiceError):
    """A program that is missing, with the command that makes it."""


def program(name):
    """The path of a program: in the folder KSI_BIN, in this checkout, next to this package, or on the PATH."""
    named = os.environ.get("KSI_BIN")
    folders = ([named] if named else []) + [os.path.join(TOP, "crates", name, "out"), BESIDE]
    for folder in folders:
        path = os.path.join(folder, name)
        if os.path.isfile(path) and os.access(path, os.X_OK):
            return os.path.abspath(path)
    found = shutil.which(name)
    if found:
        return found
    raise Missing(f"{name} is not built: `make programs` at the top builds it, and so does `rt ci`")


def missing(names):
    """A sentence on the programs that are not built, or None if all are."""
    absent = []
    for name in names:
        try:
            program(name)
        except Missing:
            absent.append(name)
    return f"not built yet: {', '.join(absent)}. `make programs` at the top builds them, and so does `rt ci`" if absent else None


def page():
    """The page's content, or None if it is not installed."""
    for path in (os.path.join(BESIDE, "page.html"), os.path.join(TOP, "page", "page.html")):
        if os.path.isfile(path):
            return content_since(path, os.stat(path).st_mtime_ns)
    return None


@functools.lru_cache(maxsize=1)
def content_since(path, _):
    """A file's bytes since a time: all requests share them in memory."""
    with open(path, "rb") as file:
        return file.read()
