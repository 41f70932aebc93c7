"""A node whose lines are given to the proved `ksi_serve`, over a copy of its file. Each block that it writes is compared with the record.

By its contract the program answers each line as the node of this file does (clause `served` of `serve_core` and `serve_aggregator`). Each
start of the process in the record is a start of the program over the same file, which then has all facts of the lines before. A line that
a core which forgets would refuse is refused here too, so a record with an answer to it differs."""
import concurrent.futures
import contextlib
import os
import queue
import subprocess
import threading
from typing import List, NamedTuple, Optional, Tuple, Union

from .marks import end_of
from .programs import program
from .proved import Refused
from .record import Step
from .retrace import Differs
from .segments import Cut

PIECE = 1 << 16
"""How many bytes of lines and blocks are given to the program at once."""
PIECES = 8
"""How many pieces wait for a program at most."""
END = b"\n.\n"
"""How the text of each block ends, and nothing else in it."""


class Piece(NamedTuple):
    """Steps that follow one another: the lines, and the text of each block. None if the reply was lost."""
    lines: List[str]
    blocks: List[Optional[bytes]]


class Forgetting(NamedTuple):
    """The node forgets the seconds before one. Until then it has these signatures of requests, by their numbers."""
    cut: Cut
    before: int
    signatures: List[Tuple[str, str]]


class Replayed(threading.Thread):
    """The steps of a node are taken in the order of the record, and compared by a thread of its own: so nodes run at once."""

    def __init__(self, room: str, node: str) -> None:
        super().__init__(daemon=True)
        self.room, self.node = room, node
        self.path = os.path.join(room, f"{node}.facts")
        """Its file: after each step that was compared it is the node's, with the facts of all steps so far."""
        self.pieces: "queue.Queue[Union[Piece, Forgetting, None]]" = queue.Queue(PIECES)
        """The pieces to be compared; a piece without lines if the process was started again, and None at the end."""
        self.piece, self.size = Piece([], []), 0
        self.steps = 0
        """How many steps were compared."""
        self.fault: Optional[Exception] = None
        self.process: Optional[subprocess.Popen] = None
        self.writer = concurrent.futures.ThreadPoolExecutor(1)
        self.start()

    def take(self, step: Step) -> None:
        """Takes the next step. Raises Differs if one before it differs."""
        if step.line is None:
            self.put()
            self.pieces.put(Piece([], []))
            return
        text = None if step.block is None else "".join(f"{row}\n" for row in [*step.block, "."]).encode()
        self.piece.lines.append(step.line)
        self.piece.blocks.append(text)
        self.size += len(step.line) + len(text or b"")
        if self.size >= PIECE:
            self.put()

    def forget(self, forgetting: Forgetting) -> None:
        """Has the node forget, and its files of then compared with their marks."""
        self.put()
        self.pieces.put(forgetting)

    def put(self) -> None:
        if self.fault is not None:
            raise self.fault
        if self.piece.lines:
            self.pieces.put(self.piece)
            self.piece, self.size = Piece([], []), 0

    def end(self) -> None:
        """Waits until all steps are compared. Raises Differs if one differs."""
        self.put()
        self.pieces.put(None)
        self.join()
        if self.fault is not None:
            raise self.fault

    def stop(self) -> None:
        """Ends the program, if it runs."""
        while self.is_alive():
            if self.process is not None:
                self.process.kill()
            with contextlib.suppress(queue.Full):
                self.pieces.put(None, timeout=0.1)
                self.join(0.1)
        self.writer.shutdown()

    def run(self) -> None:
        while True:
            piece = self.pieces.get()
            if piece is None:
                self.guarded(self.finish)
                return
            if isinstance(piece, Forgetting):
                self.guarded(self.see_forgetting, piece)
            elif piece.lines:
                self.guarded(self.compare, piece)
            else:
                self.guarded(self.finish)

    def guarded(self, work, *words) -> None:
        """Does work unless something failed before. The thread that reads the record raises the failure."""
        if self.fault is None:
            try:
                work(*words)
            except Exception as fault:
                self.fault = fault
                self.drop()

    def drop(self) -> None:
        """Ends the program at once."""
        if self.process is not None:
            self.process.kill()
            for pipe in (self.process.stdin, self.process.stdout):
                with contextlib.suppress(OSError):
                    pipe.close()
            self.process.wait()

    def begin(self) -> None:
        """Starts the program, if it does not run. An empty file becomes one of a node to which nothing came."""
        if self.process is not None:
            return
        words = [program("ksi_serve"), os.path.join(self.room, "plan"), self.node, self.room, f"{self.node}.facts"]
        self.process = subprocess.Popen(words, stdin=subprocess.PIPE, stdout=subprocess.PIPE, stderr=subprocess.DEVNULL)
        row = self.process.stdout.readline()
        if not row.startswith(b"ready ") or self.process.stdout.readline() != b".\n":
            raise Differs(f"{self.node} does not start over its file of that time: {row.decode().strip()}")

    def finish(self) -> None:
        """Ends the program, if it runs. It has said all then."""
        if self.process is None:
            return
        process, self.process = self.process, None
        process.stdin.close()
        rest = process.stdout.read(1)
        process.stdout.close()
        if process.wait() or rest:
            raise Differs(f"ksi_serve of {self.node} ended with status {process.returncode} after {self.steps} steps")

    def compare(self, piece: Piece) -> None:
        self.begin()
        lines = "".join(f"{line}\n" for line in piece.lines).encode()
        said = [it for it in piece.blocks if it is not None]
        if lines.count(b"\n") != len(piece.lines) or b"".join(said).count(END) != len(said):
            raise Differs(f"the record has a line or block of {self.node} that is none, between steps {self.steps} and {self.steps + len(piece.lines)} of it")
        writing = self.writer.submit(self.write, lines)
        begin = 0
        for end in [*(number for number, it in enumerate(piece.blocks) if it is None), len(piece.blocks)]:
            self.see(piece.lines[begin:end], piece.blocks[begin:end])
            if end < len(piece.blocks):
                self.skip()
            begin = end + 1
        writing.result()
        self.steps += len(piece.lines)

    def write(self, lines: bytes) -> None:
        # if the program has ended, its output ends too
        with contextlib.suppress(BrokenPipeError):
            self.process.stdin.write(lines)
            self.process.stdin.flush()

    def see(self, lines: List[str], blocks: List[bytes]) -> None:
        """Compares the program's answers to lines with these blocks, as they come: a block that differs may be shorter."""
        text, at = b"".join(blocks), 0
        while at < len(text):
            found = self.process.stdout.read1(len(text) - at)
            if not found or text[at:at + len(found)] != found:
                raise self.differs(lines, blocks, text[:at] + found)
            at += len(found)

    def skip(self) -> None:
        """Reads the block of a step whose reply was lost."""
        while (row := self.process.stdout.readline()) != b".\n":
            if not row:
                raise Differs(f"ksi_serve of {self.node} ended after some {self.steps} steps")

    def differs(self, lines: List[str], blocks: List[bytes], found: bytes) -> Differs:
        """Which block differs, and how."""
        at, number = 0, 0
        while found[at:at + len(blocks[number])] == blocks[number]:
            at += len(blocks[number])
            number += 1
        recorded, said = first_difference(blocks[number], found[at:])
        return Differs(f"{self.node}, to the line {lines[number][:80]}: the record has {recorded}, and the proved node says {said}")

    def see_forgetting(self, it: Forgetting) -> None:
        """Compares signatures with those of the node, its file with the one of the record, and the compacted file too."""
        self.begin()
        for number, text in it.signatures:
            self.write(f"sign {number}\n".encode())
            row = self.process.stdout.readline().decode().strip()
            if (row, self.process.stdout.readline()) != (f"signature {text}", b".\n"):
                raise Differs(f"the signature that was returned for request {number} is not the one of {self.node}")
        self.finish()
        when = f"when it forgot in hour {it.cut.place[0]}"
        if end_of(self.path) != it.cut.mark_found:
            raise Differs(f"{self.node}: the file after its lines is not the one that it had {when}")
        made = f"{self.node}.left"
        words = [program("ksi_serve"), "--forget", os.path.join(self.room, "plan"), self.node, self.room, f"{self.node}.facts", str(it.before), made]
        told = subprocess.run(words, stdin=subprocess.DEVNULL, capture_output=True, text=True, check=False)
        if told.returncode:
            raise Refused(told.returncode, f"ksi_serve --forget of {self.node}: {told.stdout.strip() or told.returncode}")
        if end_of(os.path.join(self.room, made)) != it.cut.mark_left:
            raise Differs(f"{self.node}: the compacted file after its lines is not the one that it had {when}")
        os.replace(os.path.join(self.room, made), self.path)


def first_difference(one: bytes, other: bytes) -> Tuple[str, str]:
    """The first rows that differ, each as a word for a message."""
    for row, found in zip(one.split(b"\n"), [*other.split(b"\n"), b""]):
        if row != found:
            return tuple(f"`{it.decode(errors='replace')[:80]}`" if it else "no more" for it in (row, found))
    return "more", "less"
