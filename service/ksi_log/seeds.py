"""Seeds that are kept in a file of their own, apart from the store (docs/FORMATS.md, "Stores of logs")."""
import os
from typing import Dict, Iterable, Optional, Tuple

from .errors import LogError

SIZE = 32
MODE = 0o600


def new() -> bytes:
    """The seed of a new block."""
    return os.urandom(SIZE)


class SeedFile:
    """A file with a line for each block: its root and its seed in hex."""

    def __init__(self, path: str) -> None:
        self.path = path
        self._known: Optional[Dict[bytes, bytes]] = None

    def get(self, root: bytes) -> Optional[bytes]:
        """The seed of the block with this root, or None."""
        if self._known is None:
            self._known = dict(self._rows())
        return self._known.get(root)

    def add(self, rows: Iterable[Tuple[bytes, bytes]]) -> None:
        """Adds roots with their seeds. They are on the disk when it returns."""
        known = dict(rows)
        number = os.open(self.path, os.O_RDWR | os.O_CREAT | os.O_APPEND, MODE)
        try:
            # a line that was cut off by a crash is of a block that no store has
            end = os.lseek(number, 0, os.SEEK_END)
            is_cut_off = end > 0 and os.pread(number, 1, end - 1) != b"\n"
            text = ("\n" if is_cut_off else "") + "".join(f"{root.hex()} {seed.hex()}\n" for root, seed in known.items())
            os.write(number, text.encode())
            os.fsync(number)
        finally:
            os.close(number)
        if self._known is not None:
            self._known.update(known)

    def _rows(self) -> Iterable[Tuple[bytes, bytes]]:
        try:
            with open(self.path, encoding="ascii") as file:
                lines = file.read().splitlines()
        except FileNotFoundError:
            return
        except UnicodeDecodeError:
            raise LogError(f"{self.path} is no file of seeds") from None
        for line in lines:
            try:
                root, seed = (bytes.fromhex(it) for it in line.split(" "))
            except ValueError:
                continue
            if len(root) == len(seed) == SIZE:
                yield root, seed
