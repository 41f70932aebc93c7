"""A line in flight to a node, and its answer."""
import asyncio

from .errors import ServiceError
from .record import QUESTIONS
from .storing import word


class Down(ServiceError):
    """The node ended before it answered."""


def always():
    return True


def allow(text):
    return True


def second_of_request(text):
    """The second of a line `request NUMBER SECOND HASH`."""
    return text.split(" ", 3)[2]


def ignore(block):
    pass


class Line:
    """A line in flight to a node."""

    def __init__(self, text, message=None, is_needed=always, heard=ignore):
        self.text = text
        self.message = message
        self.is_needed = is_needed
        """Asked when its turn comes: a line that is not needed is lost, as messages may be."""
        self.heard = heard
        """Called with the block as soon as the node has answered. That is not on the disk then: nothing may leave because of it."""
        self.answer = asyncio.get_running_loop().create_future()
        self.sent = 0
        """How often its node had been seen to be slow before."""
        self.step = None
        """Which step of the record it was."""
        first = word(text)
        self.is_question = first in QUESTIONS
        self.is_request = first == "request"
        self.closes = first == "close"
        self.is_sign = first == "sign"
        """Whether it asks for a signature, which leaves only with an entry of its own."""
        self.may_store = False
        """Whether its step may store a fact, by the record that it was given after."""

    def fail(self, name):
        if not self.answer.done():
            self.answer.set_exception(Down(name))
            self.answer.exception()

    def answered(self, block):
        if not self.answer.done():
            self.answer.set_result(block)
