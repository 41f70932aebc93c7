"""What tests of the record share: a folder for one, which is written line by line or opened."""
import asyncio
import json
import os
import tempfile
import unittest

from ksi_service.record import Record, State, Step, last_state, told

SEALED = [["ready", "c0", 0, 0], ["given", "c0", "seal 5", None], ["said", "c0", ["answer done", "stored"]]]


def most_left(record, name):
    """How many bytes an aggregator's file has at most that forgot all that is settled: the closing of each round, and the items of those
    that never got a response. These stay, since their requests were made again; how many there are is up to kills and load."""
    return 20 + 30 * last_state(record)[0].node(name).facts + unanswered(record, name)


def unanswered(record, name):
    """How many bytes an aggregator's rounds have at most that have items and never got a response."""
    closed, answered = {}, set()
    for it in told(record):
        words = (it.line or "").split(" ") if isinstance(it, Step) and it.node == name else []
        if words[:1] == ["request"] and it.block != ["answer late"]:
            closed[words[2]] = closed.get(words[2], 0) + 200
        elif words[:1] == ["submission"]:
            closed[words[2]] = closed.get(words[2], 0) + 200
        elif words[:1] == ["response"]:
            answered.add(words[1])
    return sum(size for second, size in closed.items() if second not in answered)


class Recorded(unittest.TestCase):
    def setUp(self):
        self.room = tempfile.TemporaryDirectory()
        self.addCleanup(self.room.cleanup)
        self.folder = os.path.join(self.room.name, "record")
        self.state = State()

    def write(self, *entries, number=1, end="\n"):
        os.makedirs(self.folder, exist_ok=True)
        with open(os.path.join(self.folder, f"{number:08}"), "w", encoding="utf-8") as file:
            file.write("\n".join(json.dumps(it) for it in [*([] if number > 1 else [State().begins()]), *entries]) + end)

    def opened(self, work=None):
        """A record that is opened, worked with, and closed."""
        async def go():
            record = Record(self.folder)
            if work:
                await work(record)
            await record.close()
            return record
        return asyncio.run(go())
