"""Entries of the record for many requests at once: they give the steps, the signatures and the state of single entries."""
import json
import os
import random
import runpy
import tempfile
import unittest

from ksi_service import files, grouped
from ksi_service.hours import Broken
from ksi_service.record import Signed, State, Step, text_of, told
from stands import HERE

HASHES = [f"{number:064x}" for number in range(5)]
LINES = [f"request {100 + 3 * number} 7 {it}" for number, it in enumerate(HASHES)]
READY = ["ready", "a0", 0, 0]


def played(entries):
    """The steps and signatures of entries, and the state after them."""
    state = State()
    return [it for entry in entries for it in state.take(json.loads(text_of(entry)))], state


class GroupedTest(unittest.TestCase):
    def test_requests_and_answers(self):
        one, other = grouped.asked("a0", 7, LINES[:4]), ["given", "a0", LINES[4], None]
        single = [READY, *(["given", "a0", it, None] for it in LINES)]
        steps, state = played([READY, one, other, ["took", "a0", 2]])
        wanted, before = played([*single, *(["said", "a0", grouped.answer_to(it)] for it in LINES[:2])])
        self.assertEqual((steps, state.begins()), (wanted, before.begins()))
        self.assertEqual(steps, [Step("a0", it, None, [f"answer number {it.split()[1]}"]) for it in LINES[:2]])
        # and the others happened before the node ended
        rest, state = played([READY, one, other, ["took", "a0", 2], ["ready", "a0", 0, 1]])
        self.assertEqual(rest[2:], [Step("a0", LINES[2], None, None), Step("a0", None, None, None)])
        self.assertEqual((state.steps, list(state.node("a0").unanswered)), (4, []))

    def test_signatures_share_their_end(self):
        dice = random.Random(3)
        for count in (1, 2, 30):
            for end in (0, 1, 400):
                tail = dice.randbytes(end).hex()
                rows = [(7 * number, dice.randbytes(dice.randint(0, 40)).hex() + tail) for number in range(count)]
                entry = grouped.handed(rows)
                self.assertGreaterEqual(len(entry[1]), len(tail))
                self.assertEqual(played([entry])[0], [Signed(step, text) for step, text in rows])
        same = [(1, "abab"), (2, "abab"), (3, "bab")]
        self.assertEqual((grouped.handed(same)[1], list(grouped.signatures_of(*grouped.handed(same)[1:]))), ("bab", same))

    def test_the_judge_reads_them_too(self):
        """By its own reader: the same steps and signatures."""
        rows = [(0, "abcd"), (1, "ffcd")]
        entries = [["begins", State().begins()[1]], READY, grouped.asked("a0", 7, LINES[:4]), ["given", "a0", LINES[4], None], ["took", "a0", 3], ["said", "a0", grouped.answer_to(LINES[3])],
                   grouped.handed(rows), ["signed", 2, "0a"], ["ready", "a0", 0, 1]]
        with tempfile.TemporaryDirectory() as room:
            folder = os.path.join(room, "record")
            os.mkdir(folder)
            files.write(os.path.join(folder, "00000001"), "".join(map(text_of, entries)).encode())
            found = list(told(folder))
            read = list(runpy.run_path(os.path.join(os.path.dirname(HERE), "judge"))["events_of"](room))
        wanted = [(it.step, it.text) if isinstance(it, Signed) else (it.node, it.line, it.message, it.block) for it in found]
        self.assertEqual((read, len(read)), (wanted, 9))

    def test_malformed_entries_are_refused(self):
        for entry in (["asked", "a0", 7, [1]], ["asked", "a0", 7, 1], ["took", "a0", 1], ["handed", "ab", [1]], ["handed", "ab", [1, 2]], ["handed"]):
            with self.assertRaises(Broken, msg=entry):
                played([READY, entry])


if __name__ == "__main__":
    unittest.main()
