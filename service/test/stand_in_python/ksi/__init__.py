"""A module `ksi` for tests where libksi is not built: examples/verify.py verifies."""
import os
import sys
import typing

TOP = os.path.dirname(os.path.dirname(os.path.dirname(os.path.dirname(os.path.dirname(os.path.abspath(__file__))))))
sys.path[:0] = [os.path.join(TOP, "examples"), os.path.join(TOP, "service")]
import verify as by_hand  # noqa: E402
from ksi_service.elements import Malformed, head_of, published_in  # noqa: E402
sys.path.remove(os.path.join(TOP, "examples"))
# the client is the real one
__path__.append(os.path.join(TOP, "lang", "python", "ksi"))


class Publication(typing.NamedTuple):
    second: int
    root: bytes


class Answer(typing.NamedTuple):
    name: str
    second: int = 0
    publication: typing.Optional[Publication] = None

    @property
    def accepted(self):
        return self.name == "accepted"


def verify(signature, digest, publications):
    try:
        second = by_hand.verify(signature, digest, publications)
    except by_hand.Failed as failed:
        return Answer(str(failed) if str(failed).startswith("V") else "S1")
    last = head_of(signature).calendar_to
    return Answer("accepted", second, Publication(last, bytes.fromhex(dict(reversed(published_in(publications)))[last])))


def second(signature):
    try:
        return head_of(signature).second
    except Malformed:
        return None


def steps(_):
    return iter(())
