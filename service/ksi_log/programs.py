"""Runs the proved programs over blocks in memory: no line and no seed is on a command line or in a temporary file."""
import contextlib
import os
import subprocess
from typing import Iterator, List, NamedTuple

from ksi_service.programs import program

from .errors import LogError


class Ran(NamedTuple):
    """The line of a program, and its status."""

    line: str
    status: int


@contextlib.contextmanager
def in_memory(content: bytes) -> Iterator[int]:
    """A descriptor of a file in memory with this content."""
    number = os.memfd_create("ksi-log")
    try:
        with open(number, "wb", closefd=False) as file:
            file.write(content)
        yield number
    finally:
        os.close(number)


def path_of(number: int) -> str:
    return f"/proc/self/fd/{number}"


def run(name: str, *words: str, keep: List[int]) -> Ran:
    """Runs a program that may read these descriptors. Raises LogError if it prints nothing."""
    ran = subprocess.run([program(name), *words], pass_fds=keep, stdout=subprocess.PIPE, stderr=subprocess.PIPE, check=False)
    line = ran.stdout.decode(errors="replace").strip()
    if not line:
        raise LogError(f"{name} exited with status {ran.returncode}: {ran.stderr.decode(errors='replace').strip() or 'it printed nothing'}")
    return Ran(line, ran.returncode)


def over_block(command: str, text: bytes, seed: bytes, *words: str, keep: List[int]) -> Ran:
    """Runs a command of `ksi_blocks` over the text of a block and its seed."""
    with in_memory(text) as log, in_memory(seed.hex().encode()) as secret:
        return run("ksi_blocks", command, path_of(log), path_of(secret), *words, keep=[log, secret, *keep])


def root_of(text: bytes, seed: bytes) -> bytes:
    """The root of a block, by the proved program."""
    ran = over_block("block", text, seed, keep=[])
    words = ran.line.split(" ")
    if ran.status or len(words) != 3 or words[0] != "block":
        raise LogError(f"ksi_blocks makes no block: {ran.line}")
    return bytes.fromhex(words[2])


def located(text: bytes, seed: bytes, line: bytes, proof: bytes) -> Ran:
    """Which line of a block this line and its proof are of: `in K`, counted from 0."""
    with in_memory(line) as one, in_memory(proof) as other:
        return over_block("locate", text, seed, path_of(one), path_of(other), keep=[one, other])


def checked_line(signature: bytes, publications: bytes, line: bytes, proof: bytes) -> Ran:
    """The verdict of `ksi checkline`."""
    with contextlib.ExitStack() as stack:
        files = [stack.enter_context(in_memory(it)) for it in (signature, publications, line, proof)]
        return run("ksi", "checkline", *map(path_of, files), keep=files)


def verified(signature: bytes, root: bytes, publications: bytes) -> Ran:
    """The verdict of `ksi verify`."""
    with in_memory(signature) as one, in_memory(publications) as other:
        return run("ksi", "verify", path_of(one), root.hex(), path_of(other), keep=[one, other])
