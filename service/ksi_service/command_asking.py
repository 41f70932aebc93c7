"""Asks a service, by its folder or by a door. And the command publications."""
import http.client
import os
import ssl
import urllib.error
import urllib.request
from typing import NamedTuple

from . import client, extension, files, libksi, printing
from .book import book_in
from .command_words import DEFAULT, WORDS, Failed, add, at_rest, rests
from .earlier import AllPublications, earlier_plans, plan_of
from .elements import Malformed, published_in
from .newest import line_of
from .plan import Plan
from .plans import newest
from .publications import Publications


class DoorOf(NamedTuple):
    """The door of a service over a folder."""

    address: str
    process: int
    scheme: str

    @property
    def url(self) -> str:
        return f"{self.scheme}://{self.address}"


def door(folder):
    """The door of a folder's service."""
    try:
        with open(os.path.join(folder, "door"), encoding="ascii") as file:
            address, number, *scheme = file.read().split()
    except FileNotFoundError:
        if files.is_held(folder):
            raise Failed(f"{folder} is in use, and its door is not open: a service starts or stops, or no service runs and another command has the folder") from None
        raise Failed(f"no service runs over {folder}: ksi-service start {folder}") from None
    return DoorOf(address, int(number), *scheme or ["http"])


def local_context():
    """The TLS of a door of this machine. The folder says where the door is, so its certificate shows nothing more."""
    context = ssl.create_default_context()
    context.check_hostname = False
    context.verify_mode = ssl.CERT_NONE
    return context


def opener():
    """Opens URLs of this machine: by no proxy, whatever the environment names."""
    return urllib.request.build_opener(urllib.request.ProxyHandler({}), urllib.request.HTTPSHandler(context=local_context()))


class NoAnswer(Failed):
    """The door refuses, with this status."""

    def __init__(self, status, reason):
        super().__init__(reason)
        self.code = status


def ask(folder, path, content=None, kind="text/plain"):
    """The body of the door's answer."""
    it = door(folder)
    if not files.is_held(folder):
        # another program listens at that address now
        raise Failed(f"no service runs over {folder}, and the last one was not stopped: ksi-service start {folder}")
    request = urllib.request.Request(f"{it.url}{path}", data=content, headers={"Content-Type": kind, **client.key_header()})
    try:
        with opener().open(request, timeout=90) as answer:
            return answer.read()
    except urllib.error.HTTPError as error:
        raise NoAnswer(error.code, error.read().decode(errors="replace").strip()) from None
    except (OSError, http.client.HTTPException) as error:
        if files.is_held(folder):
            raise Failed(f"the door at {it.address} does not answer: {getattr(error, 'reason', error)}") from None
        raise Failed(f"no service runs over {folder}, and the last one was not stopped: ksi-service start {folder}") from None


def signature_by(words, imprint):
    """The signature of a hash by the first door that gives one, or by the service over the folder."""
    if words.door:
        return client.sign(client.doors_of(words.door), imprint)
    return ask(words.folder, "/sign", imprint.encode())


def extension_by(folder, signature):
    """An extended signature: by the service, or if it does not run by a core's file, and for earlier plans by their calendar files."""
    if rests(folder):
        return extended_by_file(folder, signature)
    return ask(folder, "/extend", signature, "application/octet-stream")


def book_of(folder):
    """The book of a service or a mirror with its signature, or None if it has none."""
    if rests(folder):
        return book_in(newest(folder))
    try:
        return ask(folder, "/v1/book")
    except NoAnswer as reason:
        if reason.code != 404:
            raise
        return None


def extended_by_file(folder, signature):
    with at_rest(folder):
        last = newest(folder)
        plan = plan_of(earlier_plans(last), Plan.read(os.path.join(last, "plan")).start, signature)
        published = Publications(last)
        if plan is None and published.last() is None:
            raise Failed(f"nothing was published yet over {last}")
        try:
            return plan.extended(signature) if plan else extension.extend_stopped(last, signature, published)
        except extension.NotExtended as reason:
            raise Failed(str(reason)) from None


def published_over(folder):
    """The publications of a service that does not run, of all its plans."""
    last = newest(folder)
    return AllPublications().file(earlier_plans(last), Publications(last).published)


def publications(words):
    if words.qr and not words.print:
        raise Failed("--qr needs --print")
    content = publications_of(words)
    if content is None:
        raise Failed(f"nothing was published yet over {words.folder}")
    kept = files.content_of(words.out)
    if kept is not None:
        see_kept(words, kept, content)
    files.write(words.out, content)
    print(f"saved {words.out}")
    last, root = published_in(content)[-1]
    print(f"to be printed: {line_of(last, root)}")
    if words.print:
        print_last(words, last)


def publications_of(words):
    """The publications file of the first door that has one, or of the service over the folder."""
    if not words.door:
        return published_over(words.folder) if rests(words.folder) else ask(words.folder, "/publications")
    reason = ""
    for address in client.doors_of(words.door):
        url = address if address.startswith(client.HTTPS) else f"http://{address}"
        try:
            return libksi.client().Client(url, os.environ.get("KSI_KEY"), patience=5.0).publications()
        except libksi.client().Refused as refused:
            reason = f"{address}: {refused}"
    raise Failed(reason)


def print_last(words, second):
    """Prints the publication of a second as text for a newspaper, and saves the text as a QR code if one is asked for."""
    text = printing.text(words.out, second)
    if words.qr:
        files.write(words.qr, printing.picture(text))
        print(f"saved {words.qr}")
    print(text, end="")


def see_kept(words, kept, content):
    """Raises Failed if a file that is to be replaced has publications that the new one lacks, as those of another plan."""
    hint = "is not replaced: -o NAME saves these in another file"
    try:
        lost = set(published_in(kept)) - set(published_in(content))
    except Malformed:
        raise Failed(f"{words.out} is not a publications file, and {hint}") from None
    if lost:
        raise Failed(f"{words.out} has publications that {words.folder} does not have, and {hint}")


def add_asking(commands, name, does, told, *words, out=None):
    """Adds a command that asks a service, and saves the answer."""
    one = add(commands, name, does, told, *words)
    one.add_argument("-o", dest="out", default=out, metavar="OUT", help="the file to save")
    one.add_argument("--folder", default=DEFAULT, help=WORDS["folder"])
    return one


def add_commands(commands):
    one = add_asking(commands, "publications", publications, "save the publications file", out="publications")
    one.add_argument("--print", action="store_true", help="print the last publication as text for a newspaper")
    one.add_argument("--qr", metavar="FILE.svg", help="with --print: save this text as a QR code")
    one.add_argument("--door", metavar="HOST:PORT,..", help="the doors of a service's machines, in place of --folder")
