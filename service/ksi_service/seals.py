"""Seals: one signature for a whole tree. A seal is a folder with the hashes of all files as the lines of masked blocks (docs/FORMATS.md,
"Masked blocks of lines"), so that a file can be proved alone, without a word on the others.

    0000.manifest   at most 65,536 lines, as `sha256sum` prints them, in the order of the tree
    0000.seed       the seed of the masks, of mode 600: whoever has it and a proof can test guesses of other lines
    0000.ksig       the signature of the block's root

The blocks are computed by the proved `ksi_blocks`, and a proof is checked by `ksi checkline`."""
import os
import secrets
import subprocess
from typing import Iterator, List, NamedTuple, Optional, Tuple

from .errors import ServiceError
from .programs import program

MOST_LINES, MOST_LINE = 65_536, 8_000
ENDING = ".seal"
LINE, PROOF, SIGNATURE, PUBLICATIONS = "line", "proof", "signature", "publications"
"""The files of a proof."""


class BadSeal(ServiceError):
    """A seal or a proof cannot be read, or is not of a file."""


class Sealed(NamedTuple):
    """A file of a seal."""

    path: bytes
    """Below the top of the tree."""
    digest: bytes
    block: int
    number: int
    """The line in its block, from 0."""
    line: bytes


def escaped(path: bytes) -> Tuple[bytes, bytes]:
    """The mark of a line with escapes, and a path without line feeds, as `sha256sum` writes it."""
    if b"\n" in path or b"\\" in path:
        return b"\\", path.replace(b"\\", b"\\\\").replace(b"\n", b"\\n")
    return b"", path


def line_of(path: bytes, digest: bytes) -> bytes:
    """The line of a manifest, without its line feed. Raises BadSeal if it is too long."""
    mark, name = escaped(path)
    line = mark + digest.hex().encode() + b"  " + name
    if len(line) > MOST_LINE:
        raise BadSeal(f"its path is too long for a line of {MOST_LINE:,} bytes")
    return line


def parsed(line: bytes) -> Tuple[bytes, bytes]:
    """The path and the hash of a line."""
    is_escaped, bare = line[:1] == b"\\", line.removeprefix(b"\\")
    try:
        digest, name = bytes.fromhex(bare[:64].decode("ascii")), bare[66:]
    except ValueError:
        raise BadSeal("a line is not that of a manifest") from None
    if len(digest) != 32 or bare[64:66] != b"  ":
        raise BadSeal("a line is not that of a manifest")
    if is_escaped:
        name = b"\\".join(it.replace(b"\\n", b"\n") for it in name.split(b"\\\\"))
    return name, digest


def order_of(path: bytes) -> List[Tuple[bool, bytes]]:
    """The place of a path in the order of a tree: in each folder the files, and then the folders."""
    *folders, name = path.split(b"/")
    return [*((True, it) for it in folders), (False, name)]


class Writer:
    """Writes the blocks of a seal."""

    def __init__(self, folder: str) -> None:
        self.folder = folder
        self.blocks = 0
        self.lines = 0
        self.file: Optional[object] = None

    def add(self, path: bytes, digest: bytes) -> None:
        line = line_of(path, digest)
        if self.file is None or self.lines % MOST_LINES == 0:
            self.close()
            self.file = open(place(self.folder, self.blocks, "manifest"), "wb")
            self.blocks += 1
        self.file.write(line + b"\n")
        self.lines += 1

    def close(self) -> None:
        if self.file is not None:
            self.file.flush()
            os.fsync(self.file.fileno())
            self.file.close()
            self.file = None


def place(folder: str, block: int, kind: str) -> str:
    return os.path.join(folder, f"{block:04}.{kind}")


def blocks_of(folder: str) -> int:
    """How many blocks a seal has. Raises BadSeal if it is none."""
    count = 0
    while os.path.exists(place(folder, count, "manifest")):
        count += 1
    if not count:
        raise BadSeal(f"{folder} is no seal: `ksi-service seal TREE` makes TREE{ENDING}")
    return count


def sealed_in(folder: str) -> Iterator[Sealed]:
    """The files of a seal, in the order of the tree."""
    for block in range(blocks_of(folder)):
        with open(place(folder, block, "manifest"), "rb") as file:
            for number, line in enumerate(file):
                line = line.removesuffix(b"\n")
                yield Sealed(*parsed(line), block, number, line)


def make_seed(folder: str, block: int) -> None:
    """A new seed in a file that only its user can read, from the first byte on."""
    number = os.open(place(folder, block, "seed"), os.O_WRONLY | os.O_CREAT | os.O_EXCL, 0o600)
    with open(number, "w", encoding="ascii") as file:
        file.write(secrets.token_hex(32) + "\n")
        file.flush()
        os.fsync(number)


def run(name: str, *words: str) -> str:
    """The line of a proved program. Raises BadSeal with the line that reports a failure."""
    ran = subprocess.run([program(name), *words], capture_output=True, text=True, errors="replace", check=False)
    if ran.returncode:
        raise BadSeal(ran.stdout.strip() or f"{name} ended with status {ran.returncode}")
    return ran.stdout.strip()


def root_of(folder: str, block: int) -> bytes:
    """The root of a block, by the proved `ksi_blocks`."""
    words = run("ksi_blocks", "block", os.path.abspath(place(folder, block, "manifest")), os.path.abspath(place(folder, block, "seed"))).split(" ")
    if len(words) != 3 or words[0] != "block":
        raise BadSeal(f"ksi_blocks says {' '.join(words)}")
    return bytes.fromhex(words[2])


def prove_line(folder: str, it: Sealed, out: str) -> None:
    """Saves the proof of a line."""
    run("ksi_blocks", "line", os.path.abspath(place(folder, it.block, "manifest")), os.path.abspath(place(folder, it.block, "seed")), str(it.number), out)


def check_line(signature: str, publications: str, line: str, proof: str) -> int:
    """The second of a line's signature, by the proved `ksi checkline`. Raises BadSeal with its line."""
    said = run("ksi", "checkline", *map(os.path.abspath, (signature, publications, line, proof)))
    words = said.split(" ")
    if words[:2] != ["line", "accepted"]:
        raise BadSeal(f"ksi says {said}")
    return int(words[2])
