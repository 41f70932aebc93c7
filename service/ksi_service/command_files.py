"""The commands over files: sign, extend and verify. Several files and trees are the work of command_trees.py."""
import os

from . import bundles, command_asking, command_bundles, command_seals, command_trees, files, hashing, looks
from .command_words import DEFAULT, WORDS, Failed, natural, positive
from .elements import Malformed, head_of
from .looks import OTHER, OURS, Look, Target
from .verdicts import EMPTY, dated
from .verifying import verifier


class NotHere(Failed):
    """A file that a command needs is missing."""


def is_single(words) -> bool:
    """Whether a command is about one file, and its words are those of one."""
    return not words.recursive and not words.into


def sign(words):
    """Signs a file by its hash: the file does not leave its owner. An older signature shows more than a new one, so none is replaced."""
    if not is_single(words) or len(words.path) > 1 or words.report:
        see_no_out(words)
        return command_trees.sign(words)
    path = words.path[0]
    name = words.out or f"{path}.ksig"
    is_there = os.path.lexists(name)
    refusal = "" if is_there else Target().refusal(os.fsencode(name))
    if refusal:
        raise Failed(f"{path}: {refusal}")
    digest = digest_of(path)
    if is_there:
        print(f"already signed: {name} is of these bytes{see_ours(path, name, digest)}")
        return None
    content = command_asking.signature_by(words, digest.digest.hex())
    files.write(name, content)
    print(f"signed {name}{time_of(content)}" + (f" ({EMPTY})" if not digest.size else ""))
    return None


def digest_of(path):
    """The size and the hash of a file. Raises Failed with its name."""
    try:
        return hashing.hashed(path)
    except hashing.NotHashed as reason:
        raise Failed(f"{path}: {reason}") from None


def see_ours(path, name, digest):
    """Raises Failed if a signature that is there is not of these bytes. Returns its second in words."""
    look = looks.with_signature(Look(os.fsencode(path), os.fsencode(name), *digest), looks.reader())
    if look.state == OURS:
        return f": {dated(look.verdict.second)}" if look.verdict.second is not None else ""
    if look.state == OTHER:
        raise Failed(f"{name} is there already, of {dated(look.verdict.second)}, and is of OTHER bytes: {path} has changed since, or it is another file's signature. It is not replaced: -o NAME saves a new one")
    raise Failed(f"{name} is there already, and is no signature that can be read{f' ({look.reason})' if look.reason else ''}: it is not replaced, and -o NAME saves another signature")


def time_of(signature):
    """The second of a signature, with its date."""
    try:
        return f": {dated(head_of(signature).second)}"
    except Malformed:
        return ""


def see_no_out(words):
    if words.out:
        raise Failed("-o names the result for one file: --into FOLDER saves those of several elsewhere")


def extend(words):
    """Extends one signature to the last publication, or those of several files. One of an earlier plan also gets a bundle."""
    if not is_single(words) or len(words.path) > 1 or words.report or words.door or words.to is not None:
        see_no_out(words)
        return command_trees.extend(words)
    name = signature_of(words.path[0])
    try:
        content = hashing.content_of(name, looks.MOST_SIGNATURE)
    except hashing.NotHashed as reason:
        raise Failed(f"{name}: {reason}") from None
    out, extended = words.out or name, command_asking.extension_by(words.folder, content)
    files.write(out, extended)
    print(f"extended {out}")
    command_bundles.save(out, extended, command_asking.book_of(words.folder))
    return None


def signature_of(path):
    """The signature that a user means by a path: it, or the one next to it."""
    return path if path.endswith(".ksig") or not os.path.exists(f"{path}.ksig") else f"{path}.ksig"


def verify(words):
    """Verifies a file and its signature, which is next to it if no other one is named, or a bundle. Or several files, or by a seal."""
    if words.proof or words.seal:
        return command_seals.verify_proof(words) if words.proof else command_seals.verify_seal(words)
    if not is_single(words):
        return command_trees.verify(words)
    if len(words.path) > 3 or len(words.path) == 3 and words.publications:
        raise Failed("it is verify FILE [SIGNATURE [PUBLICATIONS]]; -r verifies several files, each with its FILE.ksig")
    path, name, place = [*words.path, None, None][:3]
    words.publications = place or words.publications
    words.path = [path]
    publications, told = command_trees.publications_of(words)
    name = name or f"{path}.ksig"
    if not os.path.exists(name):
        raise NotHere(f"{name}: no such file; `ksi-service sign {path}` makes one")
    if bundles.is_bundle(files.content_of(name)):
        return command_bundles.verify(files.content_of(name), digest_of(path).digest.hex(), publications)
    look = looks.with_signature(Look(os.fsencode(path), os.fsencode(name), *digest_of(path)), verifier(publications))
    command_trees.report_one(words, look, publications, told)
    return None


def add_files(commands, name, does, told):
    """Adds a command over files and trees."""
    one = commands.add_parser(name, help=told)
    one.add_argument("-r", dest="recursive", action="store_true", help="take all files in the folders among the paths")
    one.add_argument("--into", metavar="FOLDER", help="the signatures are not next to the files, but at the same paths below FOLDER")
    one.add_argument("--report", metavar="FILE", help="save a report: FILE ends with .csv, .json or .txt")
    one.add_argument("--jobs", type=natural, default=0, metavar="NUMBER", help="how many processes hash (default: one for each processor, at most 8)")
    one.add_argument("--folder", default=DEFAULT, help=WORDS["folder"])
    one.set_defaults(does=does)
    return one


def add_out(one):
    one.add_argument("-o", dest="out", metavar="OUT", help="the file to save, for one path without -r")
    one.add_argument("--door", metavar="HOST:PORT,..", help="the doors of a service's machines, each HOST:PORT or https://HOST:PORT: if one is away or busy, the next one is asked")


def add_commands(commands):
    one = add_files(commands, "sign", sign, "sign files: FILE.ksig")
    one.add_argument("path", nargs="+", help="a file; with -r also a folder")
    one.add_argument("--at-once", type=positive, default=4000, metavar="NUMBER", help="how many hashes of a tree are sent before their signatures are back (default 4000)")
    add_out(one)
    one = add_files(commands, "extend", extend, "extend signatures to the last publication")
    one.add_argument("path", nargs="+", help="a signature, or the file next to which it lies; with -r also a folder, whose signatures are extended if they are not extended yet")
    one.add_argument("--to", type=natural, metavar="SECOND", help="extend to the publication of this second")
    add_out(one)
    one = add_files(commands, "verify", verify, "verify a file and its signature; with -r the files of folders")
    one.add_argument("path", nargs="+", metavar="path", help="FILE [SIGNATURE [PUBLICATIONS]]: the signature is FILE.ksig and the publications the file `publications` here, next to FILE or of the service, if they are not named; with -r files and folders")
    one.add_argument("--publications", metavar="FILE", help="the publications file")
    one.add_argument("--print", metavar="'TEXT'", help="verify by this print alone, without a publications file: the text as a newspaper prints it, the line `second .., root ..`, or a file with one of them")
    one.add_argument("--mirror", metavar="LIST|URL", help="compare the publication with the list of a mirror: a publications file or the URL of a mirror")
    one.add_argument("--seal", metavar="FOLDER", help="verify a tree against its seal, which `seal` made")
    one.add_argument("--proof", metavar="FOLDER", help="verify a file by its proof, which `prove` made")
