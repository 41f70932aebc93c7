"""The publications of a service: a file that is written whole, synced and renamed at each of them."""
import os

from . import files
from .elements import Malformed, publications_file, published_in
from .hours import Broken


class Publications:
    def __init__(self, folder):
        self.path = os.path.join(folder, "publications")
        self.content = files.content_of(self.path)
        """The file's bytes, or None if nothing was published."""
        try:
            self.published = [] if self.content is None else published_in(self.content)
        except Malformed as fault:
            raise Broken(f"{self.path} is damaged: {fault}") from None

    def last(self):
        """The last published second, or None."""
        return self.published[-1][0] if self.published else None

    def has(self, second):
        """Whether a second was published."""
        return any(it == second for it, _ in self.published)

    def root(self, second):
        """The root of a published second, in hex."""
        return next(root for it, root in self.published if it == second)

    def add(self, second, root):
        """Publishes the root of the calendar to a second, in hex, unless a later one was. Returns whether it did."""
        if self.last() is not None and second <= self.last():
            return False
        published = [*self.published, (second, root)]
        content = publications_file(published)
        files.write(self.path, content)
        self.published = published
        self.content = content
        return True
