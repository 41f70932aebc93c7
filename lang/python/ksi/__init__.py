"""Verifies signatures of Keyless Signatures' Infrastructure with the proved library libksi, through ctypes.

    >>> answer = ksi.verify(signature, ksi.digest(document), publications)
    >>> answer.accepted, answer.time, answer.name

ksi.h documents each function and each field.
"""
import ctypes, datetime, os, typing

__version__ = "0.2.0"
ABI = 2
ACCEPTED, REFUSED, MALFORMED = 0, 1, 3
SIGNATURE, PUBLICATIONS, FRONT = 1, 3, 4
Lender = typing.Union[bytes, bytearray, memoryview]
"""An object whose bytes are read. Other objects with the buffer protocol, such as those of `array` and `mmap`, work too."""


def _loaded() -> ctypes.CDLL:
    """Loads the library, and compares its interface before it looks up any other function."""
    inside = os.path.join(os.path.dirname(os.path.abspath(__file__)), "libksi.so")
    path = os.environ.get("KSI_LIBRARY") or (inside if os.path.exists(inside) else "libksi.so.1")
    try:
        library = ctypes.CDLL(path)
        abi = library.ksi_abi
    except (OSError, AttributeError) as error:
        raise ImportError(f"{error}; the wheel contains libksi.so, and without the wheel install libksi1 or name a library by KSI_LIBRARY") from error
    abi.restype, abi.argtypes = ctypes.c_uint32, ()
    if abi() != ABI:
        raise ImportError("libksi has another interface than this module")
    return library


_library = _loaded()
_bytes = [ctypes.c_char_p, ctypes.c_size_t]


class _Answer(ctypes.Structure):
    _fields_ = [("status", ctypes.c_uint32), ("file", ctypes.c_uint32), ("code", ctypes.c_uint32), ("detail", ctypes.c_uint32),
                ("second", ctypes.c_uint64), ("numbers", ctypes.c_uint64 * 4), ("one", ctypes.c_ubyte * 32), ("other", ctypes.c_ubyte * 32)]


class _Hasher(ctypes.Structure):
    _fields_ = [("h", ctypes.c_uint32 * 8), ("buffer", ctypes.c_ubyte * 64), ("total", ctypes.c_uint64)]


class _Step(ctypes.Structure):
    _fields_ = [("chain", ctypes.c_uint64), ("place", ctypes.c_uint64), ("size", ctypes.c_uint64), ("calendar", ctypes.c_uint32),
                ("side", ctypes.c_uint32), ("level", ctypes.c_uint32), ("raw", ctypes.c_uint32), ("node", ctypes.c_ubyte * 32),
                ("join", ctypes.c_ubyte * 32), ("sibling", ctypes.c_ubyte * 4096)]


def _function(name: str, result: typing.Any, *arguments: typing.Any) -> typing.Any:
    function = getattr(_library, name)
    function.restype, function.argtypes = result, arguments
    return function


_hash = _function("ksi_hash", None, *_bytes, ctypes.c_char_p)
_start = _function("ksi_hash_start", None, ctypes.POINTER(_Hasher))
_more = _function("ksi_hash_more", None, ctypes.POINTER(_Hasher), *_bytes)
_end = _function("ksi_hash_end", None, ctypes.POINTER(_Hasher), ctypes.c_char_p)
_verify = _function("ksi_verify", ctypes.c_uint32, *_bytes, ctypes.c_char_p, *_bytes, ctypes.POINTER(_Answer))
_second = _function("ksi_second", ctypes.c_uint32, *_bytes, ctypes.POINTER(ctypes.c_uint64))
_check_front = _function("ksi_check_front", ctypes.c_uint32, *_bytes, ctypes.c_uint64, ctypes.c_char_p, ctypes.c_uint64, ctypes.c_char_p, ctypes.POINTER(_Answer))
_step = _function("ksi_step", ctypes.c_uint32, *_bytes, ctypes.c_size_t, ctypes.POINTER(_Step))


_LETTERS = {(REFUSED, 0): "V", (MALFORMED, SIGNATURE): "S", (MALFORMED, PUBLICATIONS): "Q", (REFUSED, FRONT): "F", (MALFORMED, FRONT): "C"}


def _time(second: int) -> typing.Optional[datetime.datetime]:
    return datetime.datetime.fromtimestamp(second, datetime.timezone.utc) if second <= 253402300799 else None


class Publication(typing.NamedTuple):
    """The last second of a calendar, and the SHA-256 digest that is its root."""

    second: int
    root: bytes

    @property
    def time(self) -> typing.Optional[datetime.datetime]:
        """The second as a time; None if it is after the year 9999."""
        return _time(self.second)


class Answer(typing.NamedTuple):
    """The result of `verify` and `check_front`: the fields of `struct ksi_answer`."""

    status: int
    file: int
    code: int
    detail: int
    second: int
    numbers: typing.Tuple[int, ...]
    one: bytes
    other: bytes

    @property
    def accepted(self) -> bool:
        return self.status == ACCEPTED

    @property
    def time(self) -> typing.Optional[datetime.datetime]:
        """The signature's second as a time; None if the signature is not accepted or if the second is after the year 9999."""
        return _time(self.second) if self.accepted else None

    @property
    def publication(self) -> typing.Optional["Publication"]:
        """The publication that an accepted signature rests on; None if it is not accepted, and for the answer of `check_front`."""
        return Publication(self.numbers[0], self.one) if self.accepted and any(self.one) else None

    @property
    def name(self) -> str:
        """The code as the program `ksi` prints it (V1, S7, Q3, F2, C4), or `accepted`."""
        letter = _LETTERS[self.status, self.file] if not self.accepted else ""
        return f"{letter}{self.code}" if letter else "accepted"


class Step(typing.NamedTuple):
    """A link of a signature with both parts and their join: the fields of `struct ksi_step`."""

    calendar: bool
    chain: int
    place: int
    side: int
    level: int
    raw: bool
    node: bytes
    sibling: bytes
    join: bytes


def _bytes_of(it: Lender) -> bytes:
    """Returns the bytes of an object's buffer, whose `len` is right. A number has no buffer, though `bytes(n)` would make n zeros of it."""
    return it if type(it) is bytes else bytes(memoryview(it))


def verify(signature: Lender, digest: Lender, publications: Lender) -> Answer:
    """Verifies a signature for the SHA-256 digest of a document, against a publications file."""
    signature, digest, publications = _bytes_of(signature), _digest_of(digest), _bytes_of(publications)
    it = _Answer()
    _verify(signature, len(signature), digest, publications, len(publications), it)
    return _answer(it)


def second(signature: Lender) -> typing.Optional[int]:
    """Returns the second that a signature states, before or after it is published. No check runs. None if the bytes are no signature."""
    signature, it = _bytes_of(signature), ctypes.c_uint64()
    return it.value if _second(signature, len(signature), it) == ACCEPTED else None


def check_front(front: Lender, old: Publication, new: Publication) -> Answer:
    """Checks a consistency proof (a front): that the calendar to the old publication is the beginning of that to the new one."""
    front, roots = _bytes_of(front), [_digest_of(it.root) for it in (old, new)]
    if not all(0 <= it.second < 1 << 64 for it in (old, new)):
        raise ValueError("a second is a number of 64 bits")
    it = _Answer()
    _check_front(front, len(front), old.second, roots[0], new.second, roots[1], it)
    return _answer(it)


def _answer(it: _Answer) -> Answer:
    return Answer(it.status, it.file, it.code, it.detail, it.second, tuple(it.numbers), bytes(it.one), bytes(it.other))


def _digest_of(it: Lender) -> bytes:
    """Returns the 32 bytes of a digest. The library reads 32 bytes; len() of the caller's object may count something else."""
    digest = _bytes_of(it)
    if len(digest) != 32:
        raise ValueError("a SHA-256 digest has 32 bytes")
    return digest


def digest(document: Lender) -> bytes:
    """Returns the SHA-256 of bytes."""
    document, out = _bytes_of(document), ctypes.create_string_buffer(32)
    _hash(document, len(document), out)
    return out.raw


class Hasher:
    """The SHA-256 of bytes that arrive in pieces, as an object of `hashlib` computes it."""

    def __init__(self, piece: Lender = b"") -> None:
        self._state = _Hasher()
        _start(self._state)
        self.update(piece)

    def update(self, piece: Lender) -> None:
        """Adds the bytes of a piece."""
        content = _bytes_of(piece)
        _more(self._state, content, len(content))

    def digest(self) -> bytes:
        """Returns the SHA-256 of the bytes so far. More may be added after it."""
        out = ctypes.create_string_buffer(32)
        _end(self._state, out)
        return out.raw

    def copy(self) -> "Hasher":
        """Returns a hasher of the same bytes, which goes on by itself."""
        other = Hasher()
        ctypes.pointer(other._state)[0] = self._state
        return other


def file_digest(name: typing.Union[str, bytes, "os.PathLike[str]", int]) -> bytes:
    """Returns the SHA-256 of a file of any size, read in pieces. A descriptor is read from its position, and stays open."""
    hasher = Hasher()
    with open(name, "rb", closefd=not isinstance(name, int)) as file:
        while piece := file.read(1 << 20):
            hasher.update(piece)
        if piece is None:
            raise BlockingIOError(f"{name} has no bytes yet, and is not blocking")
    return hasher.digest()


def steps(signature: Lender) -> typing.Iterator[Step]:
    """Returns the links of a signature from the document's hash up. If the bytes are no signature, there are none."""
    return _steps(_bytes_of(signature))


def _steps(signature: bytes) -> typing.Iterator[Step]:
    it, number = _Step(), 0
    while _step(signature, len(signature), number, it) == 0:
        sibling = bytes(it.sibling)[: it.size]
        yield Step(bool(it.calendar), it.chain, it.place, it.side, it.level, bool(it.raw), bytes(it.node), sibling, bytes(it.join))
        number += 1
