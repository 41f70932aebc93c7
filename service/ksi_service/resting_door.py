"""Extends many signatures by a core's file of a service that is stopped, in the place of its door: a folder whose plan is over still extends."""
import threading
from typing import Any, Callable, List, Optional

from . import extension, libksi
from .elements import Malformed, head_of
from .extension import NotExtended
from .plan import Plan
from .proved import Refused, Stopped
from .publications import Publications


class Resting:
    """The first core of a folder that can be read, for all connections. It has the methods of `Doors` and of a client."""

    def __init__(self, folder: str) -> None:
        self.folder = folder
        self.published = Publications(folder)
        self.clients = [self]
        self.lock = threading.Lock()
        self.core: Optional[Stopped] = None

    def __enter__(self) -> "Resting":
        names = Plan.read(f"{self.folder}/plan").names()
        reason: Optional[Exception] = None
        for name in (it for it in names if it[0] == "c"):
            try:
                core = Stopped(self.folder, name)
                core.__enter__()
                self.core = core
                return self
            except Refused as refused:
                reason = refused
        raise reason or Refused(1, f"{self.folder} has no core")

    def __exit__(self, *words: Any) -> None:
        if self.core is not None:
            self.core.__exit__(*words)

    def send(self, send: Callable[[Any, List[bytes]], List[Any]], entries: List[bytes]) -> List[Any]:
        with self.lock:
            return send(self, entries)

    def close(self) -> None:
        """Connections come and go; the core stays."""

    def publications(self) -> bytes:
        if self.published.content is None:
            raise libksi.client().Refused(404, "no-publication", "nothing was published yet")
        return self.published.content

    def extend_many(self, entries: List[bytes], _: Optional[int]) -> List[Any]:
        """Each signature, extended to the last publication, or the reason why it is not."""
        return [self.extended(it) for it in entries]

    def extended(self, content: bytes) -> Any:
        try:
            parts, made = extension.extend_by(self.core, content, self.published)
            return libksi.client().Signature(bytes.fromhex(parts.imprint), parts.second, made, head_of(made).calendar_to)
        except NotExtended as reason:
            return libksi.client().Refused(409, reason.code, str(reason))
        except Malformed as reason:
            return libksi.client().Refused(409, "malformed-signature", str(reason))
