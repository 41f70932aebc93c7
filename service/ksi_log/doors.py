"""Has the roots of blocks signed, and signatures extended, by the HTTP servers of a service (docs/API.md)."""
import os
from typing import Callable, Dict, List, NamedTuple, Optional, Sequence

from ksi_service.elements import Malformed, parts_of

from .client import Client, Refused, Result, Signature
from .errors import LogError

DEFAULT = "http://127.0.0.1:8080"
ANSWER_SECONDS = 30.0
ALONE_SECONDS, OTHERS_SECONDS = 60.0, 5.0
"""For how long a busy server is asked again: the only one, and one of several."""
WAITS = ("nothing-published", "not-yet-published", "no-publication")
"""The codes of a signature whose second no publication covers yet."""


class Answers(NamedTuple):
    """Signatures by the place of what was sent, and the last reason for each of the others."""

    signatures: Dict[int, Signature]
    reasons: Dict[int, Refused]


class Doors:
    """The servers of a service's machines. If one is away or busy, the next one is asked."""

    def __init__(self, words: str) -> None:
        """The URLs or addresses, separated by commas. Raises LogError if one is malformed."""
        urls = [it if "://" in it else f"http://{it}" for it in words.split(",") if it]
        patience = ALONE_SECONDS if len(urls) == 1 else OTHERS_SECONDS
        try:
            self._clients = [Client(it, key=os.environ.get("KSI_KEY"), timeout=ANSWER_SECONDS, patience=patience) for it in urls]
        except ValueError as fault:
            raise LogError(str(fault)) from None
        if not urls:
            raise LogError("--door names no server")

    def __enter__(self) -> "Doors":
        return self

    def __exit__(self, *_: object) -> None:
        for it in self._clients:
            it.close()

    def sign(self, roots: Sequence[bytes]) -> Answers:
        """Signatures of the roots of blocks."""
        answers = self._each(roots, lambda client, portion: client.sign_many(portion))
        for place, it in list(answers.signatures.items()):
            if not is_of(it, roots[place]):
                answers.reasons[place] = Refused(0, "no-answer", "the server returned a signature of another hash")
                del answers.signatures[place]
        return answers

    def extend(self, signatures: Sequence[bytes]) -> Answers:
        """The signatures, extended to the last publication."""
        return self._each(signatures, lambda client, portion: client.extend_many(portion))

    def publications(self) -> bytes:
        """The publications file. Raises LogError if no server gives one."""
        reason: Optional[Refused] = None
        for client in self._clients:
            try:
                return client.publications()
            except Refused as fault:
                reason = fault
        raise LogError(f"no publications: {reason}")

    def _each(self, sent: Sequence[bytes], ask: Callable[[Client, List[bytes]], List[Result]]) -> Answers:
        answers = Answers({}, {})
        for client in self._clients:
            left = [place for place in range(len(sent)) if place not in answers.signatures]
            for place, result in zip(left, ask(client, [sent[place] for place in left])):
                if isinstance(result, Signature):
                    answers.signatures[place] = result
                    answers.reasons.pop(place, None)
                else:
                    answers.reasons[place] = result
        return answers


def is_of(signature: Signature, root: bytes) -> bool:
    """Whether a signature states this hash and its second. Whether it is good `ksi` decides."""
    try:
        parts = parts_of(signature.content)
    except Malformed:
        return False
    return (parts.imprint, parts.second) == (root.hex(), signature.second)
