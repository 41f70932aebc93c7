"""The parts of the commands `extend` and `verify` that are about bundles (bundles.py)."""
from . import bundles, files
from .elements import published_in
from .evidence import date
from .newest import line_of


def save(name, signature, book):
    """Saves the bundle of an extended signature next to it, if a book has its publication: then its plan is over."""
    parts = bundles.unpacked(book, (bundles.BOOK, bundles.BOOK_SIGNATURE)) if book else {}
    last = bundles.publication_of(signature)
    if parts and any(second == last for second, _ in published_in(parts[bundles.BOOK])):
        files.write(f"{name}.bundle", bundles.packed({bundles.SIGNATURE: signature, **parts}))
        print(f"saved {name}.bundle: its plan is over, and the bundle leads to the publication of second {bundles.publication_of(parts[bundles.BOOK_SIGNATURE])}")


def verify(content, digest, publications):
    """Verifies the bundle of a hash, and prints the two times that it shows."""
    shown = bundles.verified(bundles.unpacked(content, bundles.PARTS), digest, publications)
    print(f"recorded in second {shown.second} ({date(shown.second)}); existed before {date(shown.printed[0])}, the date of the print that you compared")
    print(f"to be compared with a print: {line_of(*shown.printed)}")
    if shown.note:
        print(f"the book notes of the plan after: {shown.note}")
