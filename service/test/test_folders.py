"""The records of three machines, checked as one run: merged by causes, each alone, and by digests. A record that was changed is found."""
import contextlib
import io
import json
import os
import shutil
import tempfile
import unittest
from contextlib import redirect_stderr, redirect_stdout
from unittest import mock

import stands
from ksi_service import apart, backup, check, command, digests, files, merging
from ksi_service.elements import publications_file
from ksi_service.folders import Folders, NotOneRun
from ksi_service.plan import Plan
from ksi_service.record import Signed, Step
from ksi_service.retrace import Differs, retrace
from three_records import Three

ROOM = tempfile.TemporaryDirectory(prefix="ksi-test-")


def setUpModule():
    global MADE
    with mock.patch.dict(os.environ, KSI_BIN=stands.make_retrace(os.path.join(ROOM.name, "bin"))):
        MADE = Three(os.path.join(ROOM.name, "made"))
    stands.make_counting(os.path.join(ROOM.name, "counting"))


def tearDownModule():
    ROOM.cleanup()


def write_bytes(path, content):
    """Unlike `files.write` it waits for no disk."""
    with open(path, "wb") as file:
        file.write(content)


class Case(unittest.TestCase):
    """Three folders of one run, which a test may change."""

    def setUp(self):
        self.room = tempfile.TemporaryDirectory(prefix="ksi-test-")
        self.addCleanup(self.room.cleanup)
        self.use("counting")
        self.folders = [stands.copied(it, os.path.join(self.room.name, os.path.basename(it))) for it in MADE.folders]
        self.a, self.b, self.c = self.folders
        self.said = []

    def use(self, programs):
        """Has these stand-ins for programs used: "bin" compares blocks, "counting" agrees with all."""
        named = mock.patch.dict(os.environ, KSI_BIN=os.path.join(ROOM.name, programs))
        named.start()
        self.addCleanup(named.stop)

    def at(self, name):
        return os.path.join(self.room.name, name)

    def entries(self, folder):
        with open(os.path.join(folder, "record", "00000001"), encoding="ascii") as file:
            return [json.loads(row) for row in file]

    def write(self, folder, entries):
        with open(os.path.join(folder, "record", "00000001"), "w", encoding="ascii") as file:
            file.writelines(json.dumps(it) + "\n" for it in entries)

    def change(self, folder, is_it, change):
        """Changes the first entry of a record that is it."""
        entries = self.entries(folder)
        at = next(number for number, it in enumerate(entries) if is_it(it))
        change(entries, at)
        self.write(folder, entries)

    def check(self, *folders, nodes=False, **words):
        """Checks folders without extensions: signatures of stand-ins are none. Only if it is asked for, nodes are started to be asked."""
        with contextlib.ExitStack() as patched:
            patched.enter_context(mock.patch.object(check, "use", lambda *_: (0, 0)))
            for name in () if nodes else ("facts_there", "roots_agree"):
                patched.enter_context(mock.patch.object(check, name, lambda *_: 0))
            return check.check(folders or self.folders, 5, self.said.append, **words)

    def digests(self):
        paths = []
        for folder in self.folders:
            paths.append(f"{folder}.digests")
            digests.write(folder, paths[-1])
        return paths

    def compared(self):
        return digests.compare(self.digests())


def is_from(machine, word):
    """Whether an entry is a line with this word from this machine."""
    return lambda it: it[0] == "given" and it[3] is not None and it[3][0] == machine and word in it[2].split(" ")


class WholeTest(Case):
    def test_the_folders_of_all_machines_are_one_run(self):
        self.use("bin")
        found = self.check(nodes=True)
        self.assertEqual((found.steps, found.unsaid, found.signatures, found.publications), (sum(it.steps for it in MADE.machines.values()), 0, 4, 4))
        self.assertIn("4 seconds held by 3 cores, each with one root", self.said)
        self.assertEqual(self.check(self.c, self.b, self.a)[:3], found[:3])

    def test_the_merged_order_has_each_step_once_and_after_its_cause(self):
        entries = list(Folders(self.folders).entries())
        steps = [it for it in entries if isinstance(it, Step)]
        self.assertEqual(len(steps), sum(it.steps for it in MADE.machines.values()))
        for at, it in enumerate(steps):
            if it.message is not None:
                step, place = it.message
                self.assertLess(step, at)
                sent = [row for row in steps[step].block if row.startswith("send ")][place]
                self.assertEqual(sent, f"send {it.node} {it.line}")
        self.assertEqual(sorted(it.text for it in entries if isinstance(it, Signed)), sorted(MADE.signed))

    def test_numbers_of_steps_are_kept_in_a_file(self):
        """So that memory does not grow with the record."""
        whole = list(Folders(self.folders).entries())
        with mock.patch.object(merging, "AT_ONCE", 3):
            self.assertEqual(list(Folders(self.folders).entries()), whole)
        with open(self.at("numbers"), "wb+") as file, mock.patch.object(merging, "AT_ONCE", 4):
            numbers = merging.Numbers(file)
            for number in range(11):
                numbers.add(number * number)
            self.assertEqual((len(numbers), numbers.written, len(numbers.last)), (11, 8, 3))
            self.assertEqual([numbers.of(it) for it in range(11)], [it * it for it in range(11)])

    def test_by_node_over_all_and_on_each_machine_alone(self):
        self.use("bin")
        found = self.check(by_node=True)
        self.assertEqual(found.steps, self.check().steps)
        counts = [apart.hold_all(Folders(it)) for it in self.folders]
        self.assertEqual(sum(it.steps for it in counts), found.steps)
        whole = apart.hold_all(Folders(self.folders))
        self.assertEqual((whole.others, sum(it.lines + it.others for it in counts)), (0, whole.lines))
        self.assertTrue(all(it.others > 10 for it in counts))
        self.said.clear()
        self.check(self.b, by_node=True)
        self.assertEqual([it for it in self.said if "other machines" in it], [f"{counts[1].others} lines are from other machines: compare digests with theirs"])

    def test_one_machine_alone_is_not_a_whole_run(self):
        with self.assertRaisesRegex(NotOneRun, "no folder has the facts of c1 c2 a1"):
            self.check(self.a)
        with self.assertRaisesRegex(NotOneRun, "no folder has the facts of c2"):
            self.check(self.a, self.b, by_node=True)
        with self.assertRaisesRegex(NotOneRun, "both .*A and .*A2 have the node c0"):
            self.check(self.a, stands.copied(self.a, self.at("A2")), self.b, self.c)
        write_bytes(os.path.join(self.b, "plan"), Plan(3, 6, ("c0", "c1")).text().encode())
        with self.assertRaisesRegex(NotOneRun, "B is of another plan than"):
            self.check()


class ChangedTest(Case):
    """What somebody changed in a record afterwards is found."""

    def test_one_word_of_an_entry(self):
        """A line from another machine, in the record that took it, and in the one that sent it."""
        def rename(entries, at):
            entries[at][2] = entries[at][2].replace("synod 1", "synod 2")
        self.change(self.a, is_from("B", "success"), rename)
        self.assertRaises(Differs, self.check)
        self.assertRaises(Differs, apart.join, Folders(self.folders).entries())
        with self.assertRaisesRegex(Differs, r"A.digests: step [0-9]+ took a line that c2 did not send"):
            self.compared()

    def test_one_word_of_a_block(self):
        def change(entries, at):
            entries[at][2] = [it.replace("success", "voted") for it in entries[at][2]]
        self.change(self.b, lambda it: it[0] == "said" and any("success" in row for row in it[2]), change)
        self.assertRaises(Differs, self.check)
        self.use("bin")
        self.assertRaisesRegex(Differs, "ksi_retrace --node c1", self.check, self.b, by_node=True)
        self.assertRaises(Differs, self.compared)

    def test_a_line_that_nobody_sent(self):
        self.write(self.a, [*self.entries(self.a), ["given", "c0", "synod 2 5 voted 17", ["C", 0, 0]], ["said", "c0", ["answer nothing"]]])
        self.assertRaises(Differs, self.check)
        self.assertRaises(Differs, self.check, by_node=True)
        self.assertRaisesRegex(Differs, "took a line that c2 did not send", self.compared)

    def test_a_line_that_the_record_calls_a_command(self):
        self.change(self.a, is_from("B", "success"), lambda entries, at: entries[at].__setitem__(3, None))
        self.assertRaises(Differs, self.check)
        with self.assertRaisesRegex(Differs, "the record does not say which block sent c0 this line"):
            self.digests()

    def test_a_step_before_its_cause(self):
        """A machine that took the decision before it sent the ballot from which the decision comes."""
        entries = self.entries(self.b)
        ballot = entries.index(["given", "c1", "ballot 6", None])
        success = next(at for at, it in enumerate(entries) if at > ballot and it[0] == "given" and it[2].startswith("synod 0 6 last"))
        moved = entries[success:success + 2]
        del entries[success:success + 2]
        entries[ballot:ballot] = moved
        # within this record the later steps have other numbers by then: only the order is wrong
        before = sum(it[0] == "said" for it in entries[:ballot])
        after = before + sum(it[0] == "said" for it in entries[ballot:success + 2]) - 1

        def number(step):
            return before if step == after else step + 1 if before <= step < after else step
        for folder in self.folders:
            rows = entries if folder == self.b else self.entries(folder)
            for it in rows:
                if it[0] == "given" and it[3] is not None and (it[3][0] == "B" if len(it[3]) == 3 else folder == self.b):
                    it[3][-2] = number(it[3][-2])
                elif it[0] == "signed" and folder == self.b:
                    it[1] = number(it[1])
            self.write(folder, rows)
        self.assertRaisesRegex(Differs, "no order in which each line follows", list, Folders(self.folders).entries())
        self.assertRaisesRegex(Differs, "no order in which each line follows", self.compared)

    def test_a_line_of_a_step_that_is_not_there(self):
        self.change(self.a, is_from("B", "success"), lambda entries, at: entries[at][3].__setitem__(1, 900))
        self.assertRaisesRegex(Differs, "follows step 900 of .*B", list, Folders(self.folders).entries())
        self.assertRaises(Differs, self.compared)

    def test_a_wrong_merge_is_refused_by_ksi_retrace(self):
        """The order that is given to it is not trusted."""
        self.use("bin")
        steps = list(Folders(self.folders).entries())
        at = next(number for number, it in enumerate(steps) if isinstance(it, Step) and it.message is not None)
        with self.assertRaisesRegex(Differs, "ksi_retrace: refused message"):
            retrace(os.path.join(self.a, "plan"), [steps[at], *steps[:at], *steps[at + 1:]])

    def test_a_number_that_two_aggregators_used(self):
        """The law on logs wants the numbers of each aggregator to differ, and no more."""
        count = self.compared()
        entries = json.dumps(self.entries(self.b))
        self.assertIn("request 19 ", entries)
        self.write(self.b, json.loads(entries.replace("number 19", "number 15").replace("request 19 ", "request 15 ")))
        self.assertEqual(self.compared(), count)
        apart.join(Folders(self.folders).entries())

    def test_a_number_that_an_aggregator_used_twice(self):
        request, block = next((it.line, it.block) for it in Folders(self.folders).entries() if isinstance(it, Step) and (it.line or "").startswith("request "))
        twice = [Step("a0", request, None, block), Step("a1", request, None, block), Step("a0", request, None, block)]
        apart.join(twice[:2])
        self.assertRaisesRegex(Differs, "step 2: another request of a0 has the number", apart.join, twice)
        entries = self.entries(self.a)
        asked = [it[2].split(" ")[1] for it in entries if it[0] == "given" and it[2].startswith("request ")]
        self.write(self.a, json.loads(json.dumps(entries).replace(f"request {asked[1]} ", f"request {asked[0]} ")))
        self.assertRaisesRegex(Differs, f"another request of a0 has the number {asked[0]}", self.digests)

    def test_a_forged_line_in_one_folder(self):
        """`check` names the step and the line before `ksi_retrace` finds it."""
        sent = Step("c0", "tell 7", None, ["answer done", f"send c1 synod 0 7 success {'1' * 64}"])
        forged = Step("c1", f"synod 0 7 success {'2' * 64}", [0, 0], ["answer done", "stored"])
        folders = mock.Mock(paths=["folder"], plan_path="plan", entries=lambda: [sent, forged])
        with mock.patch.object(check, "retrace", lambda plan, run: (len(list(run)), 0, 0)):
            self.assertRaisesRegex(Differs, "step 1: no block sent c1 this line before", check.compare, folders, print, False)

    def test_publications_that_differ(self):
        path = os.path.join(self.c, "publications")
        published = check.Publications(self.c).published
        write_bytes(path, publications_file(published[:2]))
        self.check()
        write_bytes(path, publications_file([published[0], (published[1][0], "1" * 64)]))
        self.assertRaisesRegex(Differs, "differ from second 6 on", self.check)

    def test_a_file_that_lost_a_fact(self):
        write_bytes(os.path.join(self.c, "c2.facts"), b"")
        self.assertRaisesRegex(Differs, "c2 acknowledged [0-9]+ facts, and its file has 0", self.check, nodes=True)

    def test_a_second_with_two_roots(self):
        with open(os.path.join(self.c, "c2.facts"), encoding="ascii") as file:
            facts = file.read().splitlines()
        facts = [" ".join([*it.split(" ")[:2], "1" * 64]) if it.startswith("held 6 ") else it for it in facts]
        write_bytes(os.path.join(self.c, "c2.facts"), "".join(f"{it}\n" for it in facts).encode())
        self.assertRaisesRegex(Differs, "second 6 has two roots: [0-9a-f]{64} at c0, and 1{64} at c2", self.check, nodes=True)


class DigestsTest(Case):
    def test_all_lines_between_machines_are_compared(self):
        others = sum(apart.hold_all(Folders(it)).others for it in self.folders)
        paths = self.digests()
        self.assertEqual(digests.compare(paths), others)
        self.assertEqual(digests.compare(paths[::-1]), others)
        for path in paths:
            self.assertEqual(os.path.getsize(path) % 43, 0)

    def test_files_that_are_none_or_not_of_one_run(self):
        paths = self.digests()
        whole = files.content_of(paths[0])
        for content in (b"", whole[:-1], whole[:-43], whole[43:], whole + whole[-43:], whole + b"x", b"Q" + whole[1:]):
            write_bytes(paths[0], content)
            self.assertRaisesRegex(Differs, "no whole file of digests", digests.compare, paths)
        write_bytes(paths[0], whole)
        self.assertRaisesRegex(Differs, "a line that c2 did not send", digests.compare, paths[:2])
        with self.assertRaisesRegex(Differs, "both .* have the node c"):
            digests.compare([paths[0], shutil.copy(paths[0], self.at("copy")), *paths[1:]])
        write_bytes(paths[0], digests.Row(b"P", 0, "", 0, 0, b"another plan....").packed() + whole[43:])
        self.assertRaisesRegex(Differs, "are of different plans", digests.compare, paths)


class CommandTest(Case):
    def command(self, *words, status=0):
        said = io.StringIO()
        with redirect_stdout(said), redirect_stderr(said):
            self.assertEqual(command.main(list(words)), status, said.getvalue())
        return said.getvalue()

    def test_digests_are_written_and_compared(self):
        paths = [f"{it}.digests" for it in self.folders]
        for folder, path in zip(self.folders, paths):
            self.assertRegex(self.command("digests", folder, path), f"^saved {path}: [0-9]+ lines between machines, of [0-9]+ steps\n$")
        self.assertRegex(self.command("check", "--digests", *paths), r"^[0-9]+ lines between machines were sent before they were taken, in one order\n$")
        self.assertIn("no whole file", self.command("check", "--digests", *paths[:2], os.path.join(self.a, "plan"), status=1))

    def test_several_folders_are_checked(self):
        with mock.patch.object(check, "use", lambda *_: (0, 0)), mock.patch.object(check, "facts_there", lambda *_: 0), mock.patch.object(check, "roots_agree", lambda *_: 0):
            self.assertIn("ksi_retrace agrees", self.command("check", *self.folders))
            self.assertIn("ksi_retrace --node agrees", self.command("check", "--by-node", self.b))
        self.assertIn("no folder has the facts of", self.command("check", self.b, status=1))
        self.assertIn("a folder is named twice", self.command("check", self.b, self.a, self.b, status=1))


class BackupTest(Case):
    """With a `ksi` that joins the names of what it merges."""

    def backed_up(self, out, *sources, whole=True):
        said = []

        def ksi(word, *words):
            if word == "merge":
                write_bytes(words[2], files.content_of(words[0]) + files.content_of(words[1]))
            elif word == "whole" and not whole:
                raise backup.Refused(1, "refused M4 7")
            return f"{word} of it"
        with mock.patch.object(backup, "ksi", ksi), mock.patch.object(backup, "mirrors", lambda core, *_: [f"{core.name} ".encode()]):
            backup.make(sources, self.at(out), 9, said.append)
        return files.content_of(os.path.join(self.at(out), "mirror.0")), said

    def test_over_folders_and_over_copied_backups(self):
        self.assertEqual(self.backed_up("all", *self.folders)[0], b"c0 c1 c2 ")
        for name, folder, whole in (("a", self.a, False), ("b", self.b, False), ("c", self.c, False)):
            content, said = self.backed_up(name, folder, whole=whole)
            # the items of its cores by its record are added, since they may have forgotten them
            self.assertIn(content[:len(b"c0 KSIMIRR1")], [{"a": b"c0 ", "b": b"c1 ", "c": b"c2 "}[name] + it for it in (b"", b"KSIMIRR1")])
            self.assertEqual(sum("is left out" in it for it in said), 2)
            self.assertIn("merge it with the mirrors of the other machines", said[-1])
        merged = b"".join(files.content_of(os.path.join(self.at(it), "mirror.0")) for it in "abc")
        self.assertEqual(self.backed_up("merged", self.at("a"), self.at("b"), self.at("c")), (merged, [f"part 0, {self.at(it)}: merge of it" for it in "bc"] + ["part 0: whole of it"]))
        self.assertEqual(self.backed_up("mixed", self.c, self.at("b"))[0], b"c2 " + files.content_of(os.path.join(self.at("b"), "mirror.0")))

    def test_nothing_to_save(self):
        os.remove(os.path.join(self.c, "c2.facts"))
        self.assertRaisesRegex(backup.NotSaved, "has a core", self.backed_up, "none", self.c)


if __name__ == "__main__":
    unittest.main()
