"""The commands over seals: seal, prove, and verify with --seal or --proof."""
import os
import shutil
import tempfile
from typing import Any, Iterator, List, Optional, Tuple

from . import command_trees, files, hashing, libksi, outcomes, seals, tree_work
from .command_words import DEFAULT, WORDS, Failed, natural
from .elements import Malformed, head_of, published_in
from .looks import Look, reader
from .outcomes import Outcome, of_look, shown
from .seals import ENDING, BadSeal, Sealed
from .verdicts import dated, existed, is_pending, pending, recorded, refused
from .verifying import ACCEPTED, NOT_PUBLISHED, Verdict, verifier


def seal_of(words: Any) -> str:
    return words.seal or words.tree.rstrip("/") + ENDING


def below(tree: str, path: bytes) -> bytes:
    """A path of a tree, from its top."""
    return os.path.relpath(path, os.fsencode(tree))


def seal(words: Any) -> None:
    """Seals a tree: one signature for each 65,536 files. The seal has its name only once it is complete."""
    out = seal_of(words)
    if os.path.lexists(out):
        raise Failed(f"{out} is there already, and is not replaced: verify -r {words.tree} --seal {out} verifies it, and --seal FOLDER makes another one")
    doors = command_trees.doors_of(words)
    words.path, words.recursive, words.into = [words.tree], True, None
    run = command_trees.Run(words, "seal")
    if not run.trees[0].is_folder:
        raise Failed(f"{words.tree} is no folder: ksi-service sign signs a file")
    made = f"{out}.new"
    shutil.rmtree(made, ignore_errors=True)
    files.make_folder(made)
    try:
        run.go(lambda: write_seal(run, made, words, doors))
        files.sync_folder(made)
        os.rename(made, out)
        files.sync_folder(os.path.dirname(os.path.abspath(out)))
    except BaseException:
        shutil.rmtree(made, ignore_errors=True)
        raise
    print(f"sealed {out}")


def write_seal(run: command_trees.Run, made: str, words: Any, doors: Any) -> None:
    writer = seals.Writer(made)
    for look in tree_work.looked_at(run.work, "to_hash"):
        if look.fault:
            run.tally.add(Outcome(look.path, outcomes.NOT_READ, look.fault))
            continue
        try:
            writer.add(below(words.tree, look.path), look.digest)
            run.tally.add(of_look(look, outcomes.SIGNED))
        except BadSeal as reason:
            run.tally.add(of_look(look, outcomes.NOT_SIGNED, str(reason)))
    writer.close()
    if run.tally.bad:
        raise Failed(f"nothing is sealed: {run.tally.bad:,} files are not well")
    if not writer.blocks:
        raise Failed(f"{words.tree} has no files to seal")
    for block in range(writer.blocks):
        seals.make_seed(made, block)
    roots = [seals.root_of(made, block) for block in range(writer.blocks)]
    for block, content in enumerate(signatures_of(doors, roots)):
        files.write(seals.place(made, block, "ksig"), content)


def signatures_of(doors: Any, roots: List[bytes]) -> List[bytes]:
    """The signature of each root. Raises Failed if one is missing."""
    asked = doors(0)
    try:
        found = asked.send(lambda client, entries: client.sign_many(entries), roots)
    finally:
        asked.close()
    by = reader()
    for root, it in zip(roots, found):
        if isinstance(it, libksi.client().Refused):
            raise Failed(f"the door does not sign: {it}")
        if by.verify(it.content, root).code not in (ACCEPTED, NOT_PUBLISHED):
            raise Failed("the door returned no signature of the root")
    return [it.content for it in found]


def prove(words: Any) -> None:
    """Writes the folder that proves one file of a sealed tree."""
    folder, path = seal_of(words), os.fsencode(words.file)
    name = below(words.tree, path)
    it = next((it for it in seals.sealed_in(folder) if it.path == name), None)
    if it is None:
        raise Failed(f"{words.file} is not in {folder}")
    if os.path.exists(path) and hashing.hashed(path).digest != it.digest:
        raise Failed(f"{words.file} has changed since the tree was sealed")
    out = words.out or f"{words.file}.proof"
    if os.path.lexists(out):
        raise Failed(f"{out} is there already, and is not replaced")
    made = f"{out}.new"
    shutil.rmtree(made, ignore_errors=True)
    files.make_folder(made)
    try:
        told = write_proof(words, folder, it, made)
        os.rename(made, out)
    except BaseException:
        shutil.rmtree(made, ignore_errors=True)
        raise
    print(f"proof {out}: {told}")


def write_proof(words: Any, folder: str, it: Sealed, made: str) -> str:
    """Writes the files of a proof, and returns how far it is verified."""
    at = lambda name: os.path.join(made, name)
    files.write(at(seals.LINE), it.line)
    seals.prove_line(folder, it, os.path.abspath(at(seals.PROOF)))
    files.write(at(seals.SIGNATURE), files.content_of(seals.place(folder, it.block, "ksig")))
    words.path, words.print = [words.file, folder], None
    try:
        publications, _ = command_trees.publications_of(words)
    except Failed:
        return "without publications; ksi-service publications saves them, and then make the proof again"
    files.write(at(seals.PUBLICATIONS), publications)
    verdict = proof_verdict(made, at(seals.PUBLICATIONS), publications)
    return recorded(verdict.second or 0) if verdict.is_accepted else words_of(verdict, publications)


def proof_verdict(folder: str, place: str, publications: bytes) -> Verdict:
    """The verdict of `ksi checkline` on a proof. Raises BadSeal if the proof cannot be read."""
    signature = os.path.join(folder, seals.SIGNATURE)
    content = files.content_of(signature)
    if content is None:
        raise BadSeal(f"{folder} is no proof: it has no file `signature`")
    try:
        head = head_of(content)
        second = seals.check_line(signature, place, os.path.join(folder, seals.LINE), os.path.join(folder, seals.PROOF))
    except Malformed as reason:
        raise BadSeal(f"{signature}: {reason}") from None
    except BadSeal as reason:
        words = str(reason).split(" ")
        if words[0] == "refused" and words[1:2] == [NOT_PUBLISHED]:
            return Verdict(NOT_PUBLISHED, head.second, None, head.imprint, head.calendar_to, head.is_extended)
        raise BadSeal(f"{folder}: {reason}") from None
    root = dict(reversed(published_in(publications))).get(head.calendar_to)
    return Verdict(ACCEPTED, second, None if root is None else (head.calendar_to, root), head.imprint, head.calendar_to, True)


def words_of(verdict: Verdict, publications: bytes, following: Optional[int] = None) -> str:
    """A verdict that is not accepted, in words."""
    if is_pending(verdict):
        return f"pending: {pending(verdict, max((it for it, _ in published_in(publications)), default=None), following)}"
    return refused(verdict)


def verify_proof(words: Any) -> None:
    """Verifies a file by its proof: that its hash is in the line, and that the line leads to the signature and to a publication."""
    path, folder = words.path[0], words.proof
    line = files.content_of(os.path.join(folder, seals.LINE))
    if line is None or len(words.path) > 1:
        raise Failed(f"{folder} is no proof: it has no file `line`" if line is None else "--proof is for one file")
    name, digest = seals.parsed(line)
    if hashing.hashed(path).digest != digest:
        raise Failed(f"{path} is not the file of this proof, or it has changed: the line is of {shown(name)} with the SHA-256 {digest.hex()}")
    if not words.print and not words.publications and os.path.exists(os.path.join(folder, seals.PUBLICATIONS)):
        words.publications = os.path.join(folder, seals.PUBLICATIONS)
    publications, told = command_trees.publications_of(words)
    with tempfile.NamedTemporaryFile(prefix="ksi-publications-") as file:
        file.write(publications)
        file.flush()
        verdict = proof_verdict(folder, file.name, publications)
    if not verdict.is_accepted or verdict.publication is None:
        raise command_trees.NotAllWell(words_of(verdict, publications, command_trees.next_publication(words.folder)))
    notes = command_trees.compared(words, [verdict.publication])
    print(f"accepted {verdict.second}", f"as {shown(name)} of a sealed tree", recorded(verdict.second or 0), existed(verdict.publication), notes[0].split(": ", 1)[1], *told, sep="\n")


def verify_seal(words: Any) -> None:
    """Verifies a tree against its seal: each block by its signature, and each file by its line."""
    if len(words.path) != 1:
        raise Failed("--seal is for one tree")
    publications, told = command_trees.publications_of(words)
    by, words.recursive = verifier(publications), True
    verdicts = [by.verify(content_or_refusal(seals.place(words.seal, block, "ksig")), seals.root_of(words.seal, block)) for block in range(seals.blocks_of(words.seal))]
    run = command_trees.Run(words, "verify")
    last = max((second for second, _ in published_in(publications)), default=None)
    following = command_trees.next_publication(words.folder)

    def work() -> None:
        for look, it in paired(run, words):
            run.tally.add(outcome_of(look, it, verdicts, words.path[0], last, following))
        run.tally.end()
    run.go(work, lambda: [*told, *command_trees.compared(words, sorted(run.tally.publications))])


def content_or_refusal(path: str) -> bytes:
    content = files.content_of(path)
    if content is None:
        raise BadSeal(f"{path}: no such file")
    return content


Pair = Tuple[Optional[Look], Optional[Sealed]]


def paired(run: command_trees.Run, words: Any) -> Iterator[Pair]:
    """The files of a tree with their lines. One of both may be missing. Both are in one order, so neither is kept."""
    lines = seals.sealed_in(words.seal)
    line = next(lines, None)
    for look in tree_work.looked_at(run.work, "to_hash"):
        name = below(words.path[0], look.path)
        place = seals.order_of(name)
        while line is not None and seals.order_of(line.path) < place:
            yield None, line
            line = next(lines, None)
        if line is not None and line.path == name:
            yield look, line
            line = next(lines, None)
        else:
            yield look, None
    while line is not None:
        yield None, line
        line = next(lines, None)


def outcome_of(look: Optional[Look], it: Optional[Sealed], verdicts: List[Verdict], tree: str, last: Optional[int], following: Optional[int]) -> Outcome:
    if look is None:
        return Outcome(os.path.join(os.fsencode(tree), it.path), outcomes.NO_FILE, "it is in the seal")
    if look.fault:
        return Outcome(look.path, outcomes.NOT_READ, look.fault)
    if it is None:
        return of_look(look, outcomes.NO_SIGNATURE, "it is not in the seal")
    verdict = verdicts[it.block]
    look = look._replace(verdict=verdict)
    if look.digest != it.digest:
        return of_look(look, outcomes.CHANGED, f"sealed{f' in {dated(verdict.second)}' if verdict.second else ''} with the SHA-256 {it.digest.hex()}")
    if verdict.is_accepted:
        return of_look(look, outcomes.ACCEPTED)
    if is_pending(verdict):
        return of_look(look, outcomes.PENDING, pending(verdict, last, following))
    return of_look(look, outcomes.REFUSED, refused(verdict))


def add_sealing(commands: Any, name: str, does: Any, told: str) -> Any:
    one = commands.add_parser(name, help=told)
    one.add_argument("tree", help="the folder")
    one.add_argument("--seal", metavar="FOLDER", help="the seal (default: TREE.seal)")
    one.add_argument("--folder", default=DEFAULT, help=WORDS["folder"])
    one.set_defaults(does=does)
    return one


def add_commands(commands: Any) -> None:
    one = add_sealing(commands, "seal", seal, "have a whole tree signed by one signature for each 65,536 files: TREE.seal")
    one.add_argument("--door", metavar="HOST:PORT,..", help="the doors of a service's machines, each HOST:PORT or https://HOST:PORT")
    one.add_argument("--report", metavar="FILE", help="save a report: FILE ends with .csv, .json or .txt")
    one.add_argument("--jobs", type=natural, default=0, metavar="NUMBER", help="how many processes hash (default: one for each processor, at most 8)")
    one = add_sealing(commands, "prove", prove, "write the folder that proves one file of a sealed tree, without a word on the others")
    one.add_argument("file", help="a file of the tree")
    one.add_argument("-o", dest="out", metavar="OUT", help="the folder (default: FILE.proof)")
    one.add_argument("--publications", metavar="FILE", help="the publications file")
