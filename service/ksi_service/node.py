"""One node: its process, the lines in flight to it, and the blocks that it answers.

A node answers each line by a block of lines that ends with `.`. It takes its lines in order. At most one line that may store a
fact is in flight at a time: so after a kill the count of facts in its file shows which of the lines happened.

A line is on the record before the node has it. The line after one that may store is given as soon as the node has answered, in one
group of the record with that answer. Requests are given in groups, and before their round is closed: until then no node needs them."""
import asyncio
import logging
import os
import signal
from collections import deque

from . import files, grouped
from .errors import ServiceError
from .lines import Down, Line, allow, second_of_request
from .record import is_refusal, is_stored, next_time
from .storing import LostFacts, count_happened
from .watched import Watched

log = logging.getLogger(__name__)

MOST_VAIN_STARTS = 8
"""How often in a row a node may end before it counts as failed: some ten seconds, as the time between starts doubles."""
FIRST_PAUSE = 0.05
"""How many seconds lie between an end and the next start, if it is the first in a row."""
SILENT_SECONDS = 30
"""How long a node may leave a line unanswered. Then it is killed: otherwise requests would wait for it for ever."""
LOOK_SECONDS, LATE_LOOKS = 0.5, 6
"""How often the host looks for a line that a node did not answer, and how many such looks make the node late. Then it gets no lines until it
has answered all of them: requests go on with others, and messages to it are lost, as those to a node that is down."""
MANY_ANSWERS = 64
"""After this many answers between two looks a node is not late, but has much to do. Others would be late in its place."""
MOST_LINES = 1024
"""How many lines are in flight to a node at once; the others wait. Each waits for two writes of the record."""
MANY_REQUESTS = 128
"""If this many requests wait, they are given before their time."""


class GivenUp(ServiceError):
    """A node ended again and again before it answered anything."""


class Node:
    def __init__(self, name, words, record, on_step, may_lack=lambda: True, on_ready=lambda name: None, may_take=allow):
        self.name = name
        self.words = words
        self.path = os.path.join(*words[-2:])
        """Its file of facts."""
        self.watched = Watched(name, self.path)
        self.record = record
        self.on_step = on_step
        self.may_lack = may_lack
        self.on_ready = on_ready
        self.may_take = may_take
        """`may_lack` returns whether the others can go on without it; `on_ready` is called when it takes lines; and `may_take`, which is asked
        in `takes` alone, returns whether it may be given a line at all."""
        self.is_core = name[0] == "c"
        """Whether its lines are those of the vote, which go first."""
        self.requests = deque()
        """Requests that are given together."""
        self.waiting = deque()
        self.flying = deque()
        self.storing = 0
        self.unsynced = 0
        """How many of the lines in flight are not on the disk yet, so that the process does not have them."""
        self.runs = False
        self.late = False
        self.looks = 0
        self.stopping = False
        self.starts = 0
        self.unsaid = 0
        self.refused = 0
        self.spared = 0
        self.withheld = 0
        """How many lines were not given: no longer needed, or of a kind that the node may not take."""
        self.process = None
        self.vain_starts = 0
        self.reason = ""
        self.ready_lines = []
        self.taken = []
        """The requests that the process took, and that are not on the record yet."""
        self.between = None
        self.owed = 0
        self.heard = 0
        """How many blocks, or its end, the process still has to give; and how many blocks there were."""

    @property
    def alive(self):
        """Whether it takes lines."""
        return self.runs and not self.late

    @property
    def restarts(self):
        """How often it was started after the first time."""
        return max(0, self.starts - 1)

    async def run(self):
        """Starts the process, again and again, and takes its blocks."""
        while not self.stopping:
            try:
                self.drop_cache()
            except OSError as fault:
                # otherwise a process could read bytes that are not on the disk
                await self.pause(f"is not started: {fault.filename}: {fault.strerror}", True)
                continue
            await self.live()
            if self.stopping:
                return
            if self.between:
                between = self.between
                self.between = None
                await between()
            else:
                status = self.process.returncode
                # a process that was killed may be started again at any time
                await self.pause(f"was killed by signal {-status}" if status < 0 else f"ended with status {status} {self.reason}".rstrip(), status >= 0)

    async def pause(self, how, is_vain):
        """Logs how the process ended, and waits for a moment, or longer if that happened before."""
        self.vain_starts += is_vain
        if self.vain_starts == MOST_VAIN_STARTS:
            raise GivenUp(f"{self.name} {how}, {MOST_VAIN_STARTS} times in a row")
        log.warning("%s %s, and is started again", self.name, how)
        await asyncio.sleep(FIRST_PAUSE * 2 ** self.vain_starts)

    async def rest(self, work):
        """Lets the process answer its lines and end, does work over its file, and starts it again. Returns the result of the work."""
        if not self.alive or self.between:
            raise Down(self.name)
        done = asyncio.get_running_loop().create_future()

        async def between():
            try:
                result = await work()
                done.done() or done.set_result(result)
            except Exception as reason:
                done.done() or done.set_exception(reason)
        self.runs = False
        self.between = between
        process = self.process
        while self.flying and process.returncode is None:
            await asyncio.sleep(0.002)
        if process is self.process:
            # otherwise it was killed, and the work is done by now
            process.stdin.close()
            self.owed += 1
        return await done

    def drop_cache(self):
        files.drop_cache(self.path)

    async def live(self):
        """One life of the process."""
        pipe = asyncio.subprocess.PIPE
        process = await asyncio.create_subprocess_exec(
            *self.words, stdin=pipe, stdout=pipe, stderr=asyncio.subprocess.DEVNULL, limit=1 << 20, start_new_session=True)
        self.process = process
        self.ready_lines = []
        self.unsynced = 0
        self.reason = ""
        self.owed = 0
        begun, watching = False, asyncio.create_task(self.watch())
        try:
            async for block in self.blocks(process):
                if begun:
                    self.answered(block)
                else:
                    await self.begin(block)
                    begun = True
        except ConnectionError:
            pass
        finally:
            self.add_taken()
            self.runs = False
            process.stdin.close()
            await process.wait()
            watching.cancel()
            self.drop_waiting()

    def drop_waiting(self):
        for line in (*self.waiting, *self.requests):
            line.fail(self.name)
        self.waiting.clear()
        self.requests.clear()

    async def watch(self):
        """Looks whether the node is late. Kills the process if it is silent, as one that is stopped, or whose disk does not return."""
        silent, heard, written = 0, self.heard, self.record.groups
        while True:
            await asyncio.sleep(LOOK_SECONDS)
            silent = silent + 1 if self.owed and heard == self.heard else 0
            self.looks += self.is_slow(heard, written)
            heard, written = self.heard, self.record.groups
            if self.runs and not self.late and self.is_late() and self.may_lack():
                self.leave_alone()
            if silent * LOOK_SECONDS >= SILENT_SECONDS:
                log.warning("%s is silent, and is killed", self.name)
                self.kill()
                silent = 0

    def is_slow(self, heard, written):
        """Whether lines wait for the node, compared with the last look. A line that waits for the record's disk does not count; a disk that
        does not return may also be that of the node, and of all others."""
        moves = written != self.record.groups or not self.record.writes
        return self.owed > 0 and self.heard - heard < MANY_ANSWERS and moves

    def is_late(self):
        """Whether its oldest line was not answered for a long time."""
        return any(self.looks - lines[0].sent > LATE_LOOKS for lines in (self.flying, self.waiting) if lines)

    def leave_alone(self):
        """Waits no more for its lines."""
        self.late = True
        for line in self.flying:
            line.fail(self.name)
        self.drop_waiting()

    async def blocks(self, process):
        """Each block that the process writes, until it ends. Further lines are written after all blocks that came at once."""
        block, rest = [], b""
        while piece := await process.stdout.read(1 << 18):
            *lines, rest = (rest + piece).split(b"\n")
            for line in lines:
                if line == b".":
                    yield block
                    block = []
                else:
                    block.append(line.decode("ascii", "replace"))
            self.add_taken()
            self.pump()
        for line in block:
            if line.startswith("failed "):
                self.reason = f"({line})"

    async def begin(self, block):
        """Computes from its count of facts which of the unanswered lines happened before the node ended, and compares its file with the record."""
        if not block[0].startswith("ready "):
            raise LostFacts(f"{self.name} began with {block}")
        found, state = int(block[0].split(" ")[1]), self.record.node(self.name)
        unsaid = count_happened(self.name, [it.stores for it in state.unanswered], state.acknowledged(), found)
        mark = await asyncio.get_running_loop().run_in_executor(None, self.watched.begin, state, found)
        self.unsaid += unsaid > 0
        self.record.add(["ready", self.name, found, unsaid, *([mark] if mark else [])])
        flying = self.flying
        self.flying = deque()
        self.storing = 0
        for line in flying:
            line.fail(self.name)
        self.starts += 1
        self.runs = True
        self.late = False
        self.on_ready(self.name)

    def answered(self, block):
        line = self.flying.popleft()
        self.owed = self.owed - 1
        self.heard = self.heard + 1
        self.storing -= line.may_store
        self.vain_starts = 0
        self.late = self.late and bool(self.flying)
        if line.is_sign:
            line.answered(block)
            return
        if line.is_request and block == grouped.answer_to(line.text):
            self.taken.append(line)
            return
        self.add_taken()
        if line.is_question:
            self.record.after(lambda: line.answered(block), self.is_core)
            return
        mark = self.watched.stored() if is_stored(block) else None
        step = self.record.add(["said", self.name, block, *([mark] if mark else [])], lambda: line.answered(block), not line.is_request, self.is_core)
        if is_refusal(block):
            self.refused += 1
        else:
            line.step = step
            self.on_step(step, block)
        line.heard(block)

    def add_taken(self):
        """Adds the requests that the process took, one after the other, to the record."""
        lines = self.taken
        if not lines:
            return
        self.taken = []

        def effect():
            for line in lines:
                line.answered(grouped.answer_to(line.text))
        entry = ["took", self.name, len(lines)] if len(lines) > 1 else ["said", self.name, grouped.answer_to(lines[0].text)]
        step = self.record.add(entry, effect, False, self.is_core)
        for place, line in enumerate(lines):
            line.step = step + place

    def pump(self):
        """Gives the process lines, as many as may be in flight."""
        while self.alive and self.waiting and len(self.flying) < MOST_LINES:
            line = self.waiting[0]
            if line.is_request:
                self.give_requests(self.process)
                continue
            if not line.is_needed():
                self.waiting.popleft().fail(self.name)
                self.spared += 1
                continue
            if self.storing and self.may_store(line):
                return
            self.give(self.waiting.popleft(), self.process)

    def may_store(self, line):
        """Whether a line may store a fact if it is given now."""
        return not line.is_question and not line.is_request and self.record.node(self.name).votes.would_store(line.text, self.record.state.cores)

    def takes(self, line):
        """Whether the node may be given a line: each line is asked about here before the record and the process have it. One that the node
        may not take fails. All others are in flight from then on."""
        if self.may_take(line.text):
            self.flying.append(line)
            return True
        self.withheld += 1
        line.fail(self.name)
        return False

    def give(self, line, process):
        """Writes a line to the process after the record has it. A question is on no record, and only waits for the lines before it."""
        if not self.takes(line):
            return

        def effect():
            if process is self.process:
                self.unsynced -= 1
                self.write_soon(line)

        if line.is_question and not self.unsynced:
            self.write_soon(line)
            return
        self.unsynced += 1
        if line.is_question:
            self.record.after(effect, self.is_core)
            return
        self.record.add(["given", self.name, line.text, line.message], effect, first=self.is_core)
        line.may_store = self.record.node(self.name).unanswered[-1].stores
        self.storing += line.may_store

    def give_requests(self, process):
        """Writes the requests that come next and are of one second to the process, after the record has them."""
        second = second_of_request(self.waiting[0].text)
        lines = []
        while self.waiting and self.waiting[0].is_request and len(self.flying) < MOST_LINES and second_of_request(self.waiting[0].text) == second:
            line = self.waiting.popleft()
            if self.takes(line):
                lines.append(line)
        if not lines:
            return
        self.unsynced += len(lines)

        def effect():
            if process is self.process:
                self.unsynced -= len(lines)
                for line in lines:
                    self.write_soon(line)
        texts = [it.text for it in lines]
        entry = grouped.asked(self.name, int(second), texts) if len(texts) > 1 else ["given", self.name, texts[0], None]
        self.record.add(entry, effect, first=self.is_core)

    def write_soon(self, line):
        """Writes a line with all others of this turn of the loop."""
        if not self.ready_lines:
            asyncio.get_running_loop().call_soon(self.write)
        self.ready_lines.append(line.text)

    def write(self):
        """Writes the lines that the record has by now, in one piece."""
        lines = self.ready_lines
        self.ready_lines = []
        if self.process.returncode is None and not self.process.stdin.is_closing():
            self.process.stdin.write("".join(f"{it}\n" for it in lines).encode())
            self.owed += len(lines)

    def send(self, line):
        """Queues a line. A node that is down takes none."""
        self.send_all([line])

    def send_all(self, lines):
        """Queues lines of one kind."""
        for line in lines:
            line.sent = self.looks
        if not self.alive:
            for line in lines:
                line.fail(self.name)
        elif lines and lines[0].is_request:
            self.gather(lines)
        elif lines:
            if lines[0].closes:
                self.release()
            self.waiting.extend(lines)
            self.pump()

    def gather(self, lines):
        """Lets requests wait for others."""
        is_first = not self.requests
        self.requests.extend(lines)
        if len(self.requests) >= MANY_REQUESTS:
            self.release()
        elif is_first:
            loop = asyncio.get_running_loop()
            loop.call_at(next_time(loop.time()), self.release)

    def release(self):
        """Gives the requests that were gathered."""
        self.waiting.extend(self.requests)
        self.requests.clear()
        self.pump()

    def ask_all(self, *texts):
        """Sends lines one after the other, without waiting for their answers, which it returns as futures."""
        lines = [Line(text) for text in texts]
        self.send_all(lines)
        return [line.answer for line in lines]

    async def ask(self, text):
        return await self.ask_all(text)[0]

    def kill(self):
        if self.process is not None and self.process.returncode is None:
            self.process.send_signal(signal.SIGKILL)

    def cut(self):
        """Writes half a line and ends the input, like a host that is killed while it writes."""
        if self.process is not None and self.process.returncode is None and not self.process.stdin.is_closing():
            self.process.stdin.write(b"tell 17")
            self.process.stdin.close()

    def end(self):
        """Lets the process end by the end of its input."""
        self.stopping = True
        if self.process is not None and self.process.returncode is None:
            self.process.stdin.close()
