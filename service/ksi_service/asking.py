"""Questions to the cores of a running service, over a socket in its folder that only its user can open. A backup asks them.

A request is one line, `second` or `NODE held FIRST COUNT`, and its answer is a block of lines that ends with `.`, as that of a node. Questions
change nothing, and an answer leaves only after the record has the steps that it follows from. And `succeed PLAN MACHINES SUCCEEDS` lets the
machine's cores retire: the three files of the next plan in hex, or `-` for one that is missing. `never` with the same words gives that
plan up (never.py)."""
import asyncio
import contextlib
import os
import socket
from typing import List, Optional

from . import files, lost
from .errors import NeedsOperator
from .lines import Down
from .plans import Before, Content
from .proved import Refused

NAME, WAITING = "questions", "questions-waiting"
"""The names of the socket: of a service that runs, and of one that waits for a majority. The latter only takes `succeed` for a plan that
follows without a majority."""
AT_ONCE = 1024
"""Of how many seconds a core is asked at once."""
ANSWER_SECONDS = 60.0
"""How long an answer is waited for."""
MOST_BYTES = 4 << 20
"""How long a question may be: the next plan has at most 4,096 aggregators."""
WAITS = ["refused this machine waits for others, so that a majority of the cores is there"]
"""The answer of a host that waits."""
DOWN = ["down"]
"""The answer for a core that does not run."""


def socket_in(folder: str, does: str, name: str = NAME) -> socket.socket:
    """A socket that is bound or connected to a folder's. The path of a socket is at most 107 bytes long, and that of a folder may be longer."""
    number = os.open(folder, os.O_RDONLY | os.O_DIRECTORY)
    made = socket.socket(socket.AF_UNIX)
    try:
        getattr(made, does)(f"/proc/self/fd/{number}/{name}")
        return made
    except OSError:
        made.close()
        raise
    finally:
        os.close(number)


def answers(folder: str) -> bool:
    """Whether a service over a folder takes questions."""
    try:
        socket_in(folder, "connect").close()
        return True
    except OSError:
        return False


class Questions:
    """The side of the service."""

    def __init__(self, host, publishing=None) -> None:
        self.host = host
        self.publishing = publishing
        self.is_waiting = False
        """Whether the host waits for other machines, so that a majority of the cores is there."""
        self.server: Optional[asyncio.AbstractServer] = None

    @property
    def path(self) -> str:
        return os.path.join(self.host.folder, WAITING if self.is_waiting else NAME)

    async def begin(self, is_waiting: bool = False) -> None:
        await self.stop()
        self.is_waiting = is_waiting
        files.remove(self.path)
        bound = socket_in(self.host.folder, "bind", os.path.basename(self.path))
        os.chmod(self.path, 0o600)
        self.server = await asyncio.start_unix_server(self.serve, sock=bound, limit=MOST_BYTES)

    async def stop(self) -> None:
        if self.server is not None:
            self.server.close()
            files.remove(self.path)

    async def serve(self, reader: asyncio.StreamReader, writer: asyncio.StreamWriter) -> None:
        with contextlib.suppress(ConnectionError, ValueError):
            while line := await reader.readline():
                rows = await self.answer(line.decode("ascii", "replace").split())
                writer.write("".join(f"{row}\n" for row in [*rows, "."]).encode())
                await writer.drain()
        writer.close()

    async def answer(self, words: List[str]) -> List[str]:
        if self.is_waiting and words[:1] != ["succeed"]:
            return WAITS
        if words == ["second"]:
            return [str(self.held_to())]
        if len(words) == 4 and words[0] in ("succeed", "never"):
            return await getattr(self, words[0])(*words[1:])
        if len(words) != 4 or words[0] not in self.host.cores or words[1] != "held" or not all(it.isdigit() and len(it) < 16 for it in words[2:]):
            return ["refused word"]
        if int(words[3]) > AT_ONCE:
            return ["refused count"]
        try:
            return await self.host.nodes[words[0]].ask(" ".join(words[1:]))
        except Down:
            return DOWN

    async def succeed(self, *files_in_hex: str) -> List[str]:
        """Lets the machine's cores retire. Answers once that is on the disk."""
        try:
            plan, machines, succeeds = ("" if it == "-" else bytes.fromhex(it).decode("ascii") for it in files_in_hex)
            content, way = Content.of(plan, machines), Before.parsed(succeeds) if succeeds else None
            if way and way.lost:
                await lost.see(self.host, self.publishing, way, content)
            elif self.is_waiting:
                return WAITS
            second, name = self.host.succession.retire(content, way)
        except (NeedsOperator, ValueError) as reason:
            return [f"refused {reason}"]
        await self.host.rounds.recorded()
        return [f"retired {second} {name}"]

    async def never(self, *files_in_hex: str) -> List[str]:
        """Has all machines of a next plan record that they never start it. Answers once that is on the disk."""
        try:
            plan, machines, succeeds = ("" if it == "-" else bytes.fromhex(it).decode("ascii") for it in files_in_hex)
            name = await self.host.succession.never.give_up(Content.of(plan, machines), Before.parsed(succeeds) if succeeds else None)
        except (NeedsOperator, ValueError) as reason:
            return [f"refused {reason}"]
        await self.host.rounds.recorded()
        return [f"never {name}"]

    def held_to(self) -> int:
        """The last second up to which a core of this machine holds all. No publication of this machine is later."""
        return max((core.next for core in self.host.cores.values()), default=self.host.plan.start) - 1


class Running:
    """A core of a service that runs, as `Stopped` is one of a service that does not."""

    def __init__(self, folder: str, name: str = "", at: str = NAME) -> None:
        self.folder = folder
        self.name = name
        try:
            self.socket = socket_in(folder, "connect", at)
        except OSError as fault:
            raise Refused(1, f"the service over {folder} takes no questions: {fault.strerror}") from None
        self.socket.settimeout(ANSWER_SECONDS)
        self.file = self.socket.makefile("r", encoding="ascii", newline="\n")

    def __enter__(self) -> "Running":
        return self

    def __exit__(self, *_) -> None:
        self.file.close()
        self.socket.close()

    def ask(self, line: str) -> List[str]:
        """The answer of the core to a question."""
        rows = self.told(f"{self.name} {line}")
        if rows == DOWN:
            raise Refused(1, f"{self.name} does not run")
        return rows

    def second(self) -> int:
        """The last second up to which a core of the service holds all."""
        return int(self.told("second")[0])

    def told(self, line: str) -> List[str]:
        rows = []
        try:
            self.socket.sendall(f"{line}\n".encode())
            while (row := self.file.readline()) != ".\n":
                if not row:
                    raise Refused(1, f"the service over {self.folder} ended")
                rows.append(row[:-1])
        except OSError:
            raise Refused(1, f"the service over {self.folder} does not answer") from None
        return rows
