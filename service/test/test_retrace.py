"""Records of runs and logs of nodes, compared by the proved `ksi_retrace`: the input, and the last line and the exit status that come."""
import os
import subprocess
import unittest

import stands
from ksi_service.programs import TOP, program

WHY = stands.missing("ksi_retrace")
DATA = os.path.join(TOP, "crates", "ksi_retrace", "data")
PLAN = os.path.join(DATA, "plan")
LOG = os.path.join(stands.HERE, "data", "log_of_c0")

HASH = "e3b0c44298fc1c149afbf4c8996fb92427ae41e4649b934ca495991b7852b855"
OTHER = HASH.replace("e3", "e4")
ROUND = f"""\
a0 request 7 1700000000 {HASH}
answer number 7
.
a0 close 1700000000
answer done
stored
send c0 submission 0 1700000000 {HASH} 0
.
"""

# what stands in the log of c0, what is put in its place, the node, the line, the status
OF_CORE = (
    ("", "", "c0", "agrees 11", 0),
    ("c0 publish 1700000000\n", "restart c0\nc0 publish 1700000000\n", "c0", "agrees 12", 0),
    ("voted 16\n.", "voted 17\n.", "c0", "differs 5 22", 1),
    ("seal 1700000000\nanswer done\nstored", "seal 1700000000\nanswer done", "c0", "differs 1 4", 1),
    ("85d3\n.\n", "85d3\n", "c0", "refused cut 10 37", 3),
    ("85d3\n.\n", "85d3\n.\nc0 publish", "c0", "refused cut 11 40", 3),
    ("c0 seal", "c1 seal", "c0", "refused actor 1 4", 3),
    ("restart c0", "restart c00", "c0", "refused actor 9 36", 3),
    ("c0 seal 1700000000", "c0 held 1700000000 1", "c0", "refused word 1 4", 3),
    ("c0 seal 1700000000", "c0 seal 1699999999", "c0", "refused second 1 4", 3),
    ("", "", "a0", "refused actor 0 1", 3),
    ("", "", "c1", "failed node", 3),
    ("", "", "c", "failed node", 3),
)
# the same of the log of a0
OF_AGGREGATOR = (
    ("", "", "a0", "agrees 2", 0),
    ("number 7", "number 8", "a0", "differs 0 1", 1),
    ("request 7", "request 8", "a0", "differs 0 1", 1),
    ("a0 close", f"a0 request 7 1700000000 {OTHER}\nanswer number 7\n.\na0 close", "a0", "refused taken 1 4", 3),
    ("a0 close", "a0 sign 7\na0 close", "a0", "refused word 1 4", 3),
)
SUCCESS = f"deliver 8 0 c0 synod 0 1700000000 success {HASH}\n"
# a text of the record of version 2, the text in its place, the last line, the status
RECORDS = (
    ("", "", "agrees 14 unsaid 1 signatures 1", 0),
    (f"{SUCCESS}answer nothing\n.\nunsaid", f"{SUCCESS.replace('e3', '22')}answer nothing\n.\nunsaid", "differs 10 44", 1),
    ("deliver 4 0 c0 synod", "deliver 4 0 c1 synod", "differs 6 24", 1),
    ("deliver 4 0 c0 synod 0", "deliver 4 0 c0 synod x", "differs 6 24", 1),
    ("deliver 4 0 c0 synod", f"deliver 4 0 c0 {'synod' * 10000}", "differs 6 24", 1),
    ("deliver 4 0 c0 synod 0 1700000000 next 16", "deliver 4 0", "refused spelling 6 24", 3),
    ("deliver 4 0 c0", "deliver 4 1 c0", "refused message 6 24", 3),
    ("ksi-record 2\n", "ksi-record 3\n", "refused word 0 1", 3),
)
WORDS = (
    ((), "failed words", 2),
    (("--node", "c0", "no plan"), "failed plan", 3),
    (("--node", "c0", LOG), "failed plan", 3),
    (("--log", "c0", PLAN), "failed words", 2),
    (("--node", "c0", PLAN, LOG), "failed words", 2),
    (("--node", "c0"), "failed stream", 4),
)


@unittest.skipIf(WHY, WHY)
class RetraceTest(unittest.TestCase):
    def holds(self, words, log, line, status):
        ran = subprocess.run([program("ksi_retrace"), *words], input=log, capture_output=True, text=True, check=False, timeout=60)
        self.assertEqual((ran.stdout, ran.returncode), (f"{line}\n", status))

    def holds_each(self, log, rows):
        for old, new, node, line, status in rows:
            with self.subTest(old=old, new=new, node=node):
                self.assertTrue(not old or log.count(old) == 1)
                self.holds(("--node", node, PLAN), log.replace(old, new) if old else log, line, status)

    def last(self, record, line, status):
        ran = subprocess.run([program("ksi_retrace"), PLAN], input=record, capture_output=True, text=True, check=False, timeout=60)
        self.assertEqual((ran.stdout.split("\n")[-2], ran.returncode), (line, status))

    def record(self, name="record"):
        with open(os.path.join(DATA, name), encoding="ascii") as file:
            return file.read()

    def test_records(self):
        record = self.record()
        for old, new, line, status in RECORDS:
            with self.subTest(old=old[:60], new=new[:60]):
                self.assertTrue(not old or record.count(old) == 1)
                self.last(record.replace(old, new) if old else record, line, status)

    def test_a_forged_line(self):
        """The stored run of the program has two records that differ in one line, which claims another root."""
        good, forged = (self.record(name).split("\n") for name in ("record", "forged"))
        self.assertEqual([one.replace(HASH, "22" * 32) for one, other in zip(good, forged) if one != other], [other for one, other in zip(good, forged) if one != other])
        self.last("\n".join(forged), "differs 15 56", 1)

    def test_version_1(self):
        """It has no lines of deliveries."""
        rows = self.record().split("\n")[1:]
        record = "\n".join(row if not row.startswith("deliver ") else " ".join(row.split(" ")[:3]) for row in rows)
        self.last(record, "agrees 14 unsaid 1 signatures 1 lines not compared", 0)
        self.last("", "agrees 0 unsaid 0 signatures 0 lines not compared", 0)
        self.last("ksi-record 2\n", "agrees 0 unsaid 0 signatures 0", 0)

    def test_logs_of_a_core(self):
        with open(LOG, encoding="ascii") as file:
            self.holds_each(file.read(), OF_CORE)

    def test_logs_of_an_aggregator(self):
        self.holds_each(ROUND, OF_AGGREGATOR)

    def test_words(self):
        for words, line, status in WORDS:
            with self.subTest(words=words):
                self.holds(words, "", line, status)


if __name__ == "__main__":
    unittest.main()
