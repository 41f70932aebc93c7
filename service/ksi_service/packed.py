"""Compressed files of which any part can be read: members of gzip (RFC 1952), each of at most 1 MiB before it was compressed.

`gunzip` reads them as one file. The extra field of each member has its sizes, so that a reader goes from member to member."""
import os
import struct
import zlib
from typing import BinaryIO, Iterator, NamedTuple, Optional

PIECE = 1 << 20
LEVEL = 4
EXTRA = struct.Struct("<HBBHII")
"""The extra field: its length, `K`, `S`, the length of the rest, how many bytes the member has, and how many it had before."""
HEAD = b"\x1f\x8b\x08\x04\0\0\0\0\0\xff"
ENDS = struct.Struct("<II")
MOST_LINE = 64 << 20
"""The longest line that is read."""


class Member(NamedTuple):
    at: int
    """Where it begins in the compressed file."""
    size: int
    begins: int
    """Where its content begins in the file as it was."""
    length: int


def member_of(piece: bytes) -> bytes:
    """A piece of a file as a member."""
    squeezing = zlib.compressobj(LEVEL, zlib.DEFLATED, -zlib.MAX_WBITS)
    body = squeezing.compress(piece) + squeezing.flush()
    size = len(HEAD) + EXTRA.size + len(body) + ENDS.size
    return HEAD + EXTRA.pack(EXTRA.size - 2, ord("K"), ord("S"), 8, size, len(piece)) + body + ENDS.pack(zlib.crc32(piece), len(piece))


def members_in(file: BinaryIO) -> Iterator[Member]:
    """The members of a file. It ends at one that has no sizes, as those of files that older versions wrote."""
    at = begins = 0
    while True:
        file.seek(at)
        head = file.read(len(HEAD) + EXTRA.size)
        if len(head) < len(HEAD) + EXTRA.size or not head.startswith(HEAD[:4]):
            return
        words = EXTRA.unpack(head[len(HEAD):])
        if words[:4] != (EXTRA.size - 2, ord("K"), ord("S"), 8) or words[4] < len(head) + ENDS.size:
            return
        yield Member(at, words[4], begins, words[5])
        at += words[4]
        begins += words[5]


def content_of(file: BinaryIO, member: Member) -> bytes:
    """What a member has. Raises zlib.error if it is damaged."""
    file.seek(member.at + len(HEAD) + EXTRA.size)
    body = file.read(member.size - len(HEAD) - EXTRA.size)
    content = zlib.decompress(body[:-ENDS.size], -zlib.MAX_WBITS)
    if ENDS.unpack(body[-ENDS.size:]) != (zlib.crc32(content), len(content)):
        raise zlib.error("the check value of a member differs")
    return content


def line_of_members(file: BinaryIO, at: int) -> Optional[bytes]:
    """The line that begins at a place of the file as it was, or None if the members do not reach it."""
    found = b""
    for member in members_in(file):
        if member.begins + member.length <= at:
            continue
        content = content_of(file, member)
        found += content[max(0, at - member.begins):]
        if b"\n" in found or len(found) > MOST_LINE:
            break
    line, end, _ = found.partition(b"\n")
    return line + end if end else None


def line_of_stream(lines: Iterator[bytes], at: int) -> Optional[bytes]:
    """The same by reading all lines before: for files without sizes."""
    place = 0
    for line in lines:
        if place >= at:
            return line if place == at else None
        place += len(line)
    return None


def line_of_file(path: str, at: int) -> Optional[bytes]:
    """The line that begins at a place of a file that is not compressed."""
    with open(path, "rb") as file:
        file.seek(at)
        line = file.readline(MOST_LINE)
    return line if line.endswith(b"\n") else None


def has_sizes(path: str) -> bool:
    with open(path, "rb") as file:
        return next(members_in(file), None) is not None or os.path.getsize(path) == 0
