"""test.py SAMPLES runs the module on the stored files, and compares its hash with that of hashlib."""
import array, glob, hashlib, json, os, subprocess, sys
import ksi

samples = sys.argv[1]


def read(name):
    with open(os.path.join(samples, name), "rb") as file:
        return file.read()


def refuses(error, call, *words):
    try:
        call(*words)
    except error:
        return
    raise AssertionError((call, words))


signature, document, publications = read("deed.ksig"), read("deed.txt"), read("publications.bin")
right, wrong = hashlib.sha256(document).digest(), hashlib.sha256(b"abc").digest()
for size in [*range(0, 200), 4096, 100001]:
    assert ksi.digest(b"x" * size) == hashlib.sha256(b"x" * size).digest(), size
assert ksi.file_digest(os.path.join(samples, "deed.ksig")) == hashlib.sha256(signature).digest()
# a descriptor stays open, since the caller owns it
with open(os.path.join(samples, "deed.txt"), "rb") as file:
    assert ksi.file_digest(file.fileno()) == right and os.fstat(file.fileno()).st_size == len(document)
# a descriptor without bytes yet is not at its end
reads, writes = os.pipe()
os.set_blocking(reads, False)
refuses(BlockingIOError, ksi.file_digest, reads)

# a hasher of pieces goes on after its digest was read, and a copy of it goes on by itself
hasher = ksi.Hasher(document[:10])
assert hasher.digest() == hashlib.sha256(document[:10]).digest()
other = hasher.copy()
hasher.update(memoryview(document)[10:])
other.update(b"x" * 200)
assert (hasher.digest(), other.digest()) == (right, hashlib.sha256(document[:10] + b"x" * 200).digest())
with open(os.path.join(samples, "../../VERSION"), encoding="ascii") as file:
    assert ksi.__version__ == file.read().strip(), ksi.__version__

answer = ksi.verify(signature, right, publications)
assert answer.accepted and answer.second == 1700000000 and str(answer.time) == "2023-11-14 22:13:20+00:00", answer
assert answer.publication == ksi.Publication(0x6553FF0F, publications[-79:-47]) and str(answer.publication.time) == "2023-11-14 23:13:19+00:00", answer
answer = ksi.verify(signature, wrong, publications)
assert answer.publication is None and answer.time is None, answer
assert (answer.name, answer.one, answer.other) == ("V1", right, wrong), answer
# without its second and third publications, the file has none for the time of the calendar chain
answer = ksi.verify(signature, right, publications[:-94])
assert answer.name == "V13" and answer.numbers[0] == 0x6553FF0F, answer
answer = ksi.verify(publications, right, publications)
assert (answer.status, answer.file, answer.name, answer.numbers[0]) == (ksi.MALFORMED, ksi.SIGNATURE, "S3", 0x4B & 0x1F), answer
answer = ksi.verify(signature, right, signature)
assert (answer.status, answer.file, answer.name) == (ksi.MALFORMED, ksi.PUBLICATIONS, "Q1"), answer

# the second of a signature does not need a publication
assert (ksi.second(signature), ksi.second(signature[:-1]), ksi.second(publications)) == (1700000000, None, None)

# a consistency proof between both publications of a calendar
front, calendar = read("front.bin"), read("calendar.bin")
old, new = ksi.Publication(1700000000, calendar[-79:-47]), ksi.Publication(1700003599, calendar[-32:])
answer = ksi.check_front(front, old, new)
assert answer.accepted and answer.name == "accepted" and answer.publication is None, answer
for bytes_, one, other, name, numbers in [
    (front[:-35], old, new, "F1", (25, 24)), (front, new, old, "F5", (old.second, new.second)), (front, old._replace(root=new.root), new, "F2", (0, 0)),
    (front, old, new._replace(root=old.root), "F3", (0, 0)), (signature, old, new, "C1", (0, 0)), (front[:-1], old, new, "C2", (len(front) - 35, 0)),
]:
    answer = ksi.check_front(bytes_, one, other)
    assert (answer.accepted, answer.name, answer.numbers[:2]) == (False, name, numbers), answer
refuses(ValueError, ksi.check_front, front, old._replace(root=b""), new)
refuses(ValueError, ksi.check_front, front, old._replace(second=1 << 64), new)
refuses(ValueError, ksi.check_front, front, old, new._replace(second=-1))
refuses(TypeError, ksi.check_front, "text", old, new)
refuses(TypeError, ksi.second, "text")

# the test cases for all verifiers: an answer's name, and the numbers in the line that `ksi verify` prints
for path in glob.glob(os.path.join(samples, "../../vectors/*.json")):
    with open(path, encoding="ascii") as file:
        cases = json.load(file)
    for case in cases:
        answer = ksi.verify(*(bytes.fromhex(case[it]) for it in ("signature", "hash", "publications")))
        words = case["prints"].split()
        numbers = [int(it) for it in words if it.isdecimal() and len(it) < 21]
        assert answer.name == ("accepted" if answer.accepted else words[1] if words[0] == "refused" else words[2]), (case["name"], answer)
        assert not answer.accepted or answer.second == numbers[0], (case["name"], answer)

# if the library is missing or is another one, the error says how to name it
for other in ["/absent", "libc.so.6"]:
    ran = subprocess.run([sys.executable, "-c", "import ksi"], env={**os.environ, "KSI_LIBRARY": other}, capture_output=True, text=True)
    last = ran.stderr.splitlines()[-1]
    assert last.startswith("ImportError: ") and other in last and "KSI_LIBRARY" in last, ran.stderr

# any object with a buffer is accepted, and nothing else; the length of a digest counts bytes
assert ksi.verify(bytearray(signature), memoryview(right), array.array("B", publications)).accepted and ksi.digest(bytearray(b"abc")) == wrong


class Long(bytes):
    def __len__(self):
        return 1 << 16


# nothing after the bytes is read, even if a subclass returns another length
assert ksi.digest(Long(b"abc")) == wrong and ksi.verify(Long(signature), Long(right), Long(publications)).accepted
assert len(list(ksi.steps(Long(signature)))) == 32


class Counted:
    def __len__(self):
        return 32

    def __bytes__(self):
        return b""


for other in [5, "text", None, Counted()]:
    refuses(TypeError, ksi.digest, other)
    refuses(TypeError, ksi.verify, other, right, publications)
    refuses(TypeError, ksi.verify, signature, other, publications)
    refuses(TypeError, ksi.verify, signature, right, other)
    refuses(TypeError, ksi.steps, other)
for other in [b"", right[:31], right + b"x", array.array("I", range(32))]:
    refuses(ValueError, ksi.verify, signature, other, publications)

# the links are those of the bytes at the time of the call, even if these change before the first link is read
lent = bytearray(signature)
links = ksi.steps(lent)
lent.clear()
assert len(list(links)) == 32

way = list(ksi.steps(signature))
assert [step.calendar for step in way] == [False] * 8 + [True] * 24 and way[0].node == right
for below, step in zip(way, way[1:]):
    assert below.join == step.node, step
for step in way:
    parts = [b"\1" + step.node, step.sibling]
    assert step.join == hashlib.sha256(b"".join(parts[:: 1 - 2 * step.side]) + bytes([step.level])).digest(), step
names = [step.sibling[6:-1].decode() for step in way if step.raw]
assert names == ["bob", "archive-7"], names
assert way[-1].join in publications and not list(ksi.steps(publications))
print("Python: all answers as they should be")
