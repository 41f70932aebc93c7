"""stand_in.py PLAN NODE FOLDER NAME: a node for tests of the host where the proved programs are not built. And
stand_in.py --forget PLAN NODE FOLDER NAME BEFORE FRESH, which forgets old seconds of such a node.

It takes the lines of a node and answers by the blocks of one (docs/FORMATS.md, "Lines of nodes"), and keeps its facts in a file
(stand_in_files.py). The words in KSI_STAND_IN say what else it can: `cores`, that cores forget, as those of a program of before do not, and
`records`, that new files have the form of the proved programs' files; and `signs`, that a request which is alone in its second gets a
signature as stand_in_ksi.py verifies it. Its calendar is that of calendar_tree.py. Its other trees are one hash, or the one item that
they have, and its signatures are no signatures, but for a round of one request above which a proved core stands: then the response is
the signature. The host looks into neither."""
import collections
import hashlib
import os
import sys

import stand_in_files
from calendar_tree import Tree

sys.path.insert(0, os.path.dirname(os.path.dirname(os.path.abspath(__file__))))
from ksi_service.elements import element, imprint as imprint_element, number as number_element  # noqa: E402

ZERO = "0" * 64
CAN = os.environ.get("KSI_STAND_IN", "").split(",")


def digest(words):
    return hashlib.sha256(" ".join(words).encode()).hexdigest() if words else ZERO


def signature_of(imprint, second):
    """The signature of a hash that is alone in its second, without the calendar chain to its own second."""
    return element(0x800, element(0x801, number_element(0x02, second), number_element(0x03, 1), imprint_element(0x05, imprint), number_element(0x06, 1)))


class Stand:
    """What both kinds have: facts in a file, and blocks."""

    def __init__(self, plan, number, path):
        self.number, self.parents, self.labels, self.cores, self.start = number, [], [], 0, 0
        with open(plan, encoding="ascii") as lines:
            for words in map(str.split, lines):
                if words[0] == "aggregator":
                    self.parents.append(words[3])
                    self.labels.append("".join(f" {it}" for it in words[5:6]))
                elif words[0] in ("cores", "start"):
                    setattr(self, words[0], int(words[1]))
        self.file, self.rows = stand_in_files.opened(plan, f"{self.kind}{number}", path, "records" in CAN), []
        self.facts = self.file.facts
        for fact in self.facts:
            self.hold(fact)

    def keep(self, *fact):
        self.file.add(fact)
        self.facts.append(list(fact))
        self.hold(fact)
        self.stored = True

    def serve(self):
        print(f"ready {len(self.facts)}\n.", flush=True)
        for line in sys.stdin:
            if not line.endswith("\n"):
                return
            os.write(1, "".join(f"{row}\n" for row in [*self.answer(line), "."]).encode())

    def answer(self, line):
        """The block that answers a line."""
        words, self.rows, self.stored = line.split(), [], False
        answer = getattr(self, "on_" + words[0], lambda *rest: "refused word")(*words[1:])
        return [*([answer] if answer else []), *(["stored"] if self.stored else []), *self.rows]

    def end(self):
        self.file.file.close()


class Core(Stand):
    kind = "c"

    def __init__(self, *words):
        self.sealed, self.held, self.promised, self.voted, self.tried = {}, {}, {}, {}, {}
        self.open, self.hand = collections.defaultdict(dict), {}
        super().__init__(*words)

    def hold(self, fact):
        name, second, *rest = fact
        if name == "sealed":
            self.sealed[second] = (rest[0], rest[1:])
        else:
            getattr(self, name)[second] = rest[0] if len(rest) == 1 else tuple(rest)

    def answer(self, line):
        words = line.split()
        second = {"submission": 2, "synod": 2, "seal": 1, "ballot": 1, "respond": 1}.get(words[0])
        if "cores" in CAN and second is not None and self.is_alone(words[second]):
            return ["refused forgotten"]
        return super().answer(line)

    def is_alone(self, second):
        """Whether only the root of a second is kept."""
        return second in self.held and not any(second in it for it in (self.sealed, self.promised, self.voted, self.tried))

    def all(self, second, text):
        self.rows += [f"send c{core} synod {self.number} {second} {text}" for core in range(self.cores)]

    def missing(self, last):
        return next((it for it in range(self.start, int(last) + 1) if str(it) not in self.held), None)

    def on_submission(self, aggregator, second, imprint, level, name=""):
        if second in self.sealed:
            return "answer late"
        if aggregator in self.open[second]:
            return "answer known"
        self.open[second][aggregator] = imprint
        return "answer done"

    def on_seal(self, second):
        if second in self.sealed:
            return "answer sealed"
        items = self.open.pop(second, {})
        self.keep("sealed", second, next(iter(items.values())) if len(items) == 1 else digest(list(items.values())), *items)
        return "answer done"

    def on_ballot(self, second):
        if second not in self.sealed:
            return "answer unsealed"
        ballot = (max(int(self.tried.get(second, 0)), int(self.promised.get(second, 0))) // 16 + 1) * 16 + self.number
        self.keep("tried", second, str(ballot))
        self.hand[second] = [ballot, {}, None, set()]
        self.all(second, f"next {ballot}")
        return "answer done"

    def on_synod(self, core, second, kind, *words):
        return "answer done" if getattr(self, "hear_" + kind)(core, second, *words) else "answer nothing"

    def hear_next(self, core, second, ballot):
        if int(ballot) > int(self.promised.get(second, 0)):
            self.keep("promised", second, ballot)
            self.rows.append(f"send c{core} synod {self.number} {second} last {ballot} " + " ".join(self.voted.get(second, ())))
            self.rows[-1] = self.rows[-1].rstrip()
            return True
        return False

    def hear_last(self, core, second, ballot, *vote):
        hand = self.hand.get(second)
        if not hand or hand[0] != int(ballot) or hand[2] or core in hand[1]:
            return False
        hand[1][core] = vote
        if len(hand[1]) * 2 > self.cores:
            votes = [it for it in hand[1].values() if it]
            hand[2] = max(votes, key=lambda it: int(it[0]))[1] if votes else self.sealed[second][0]
            self.all(second, f"begin {ballot} {hand[2]}")
        return True

    def hear_begin(self, core, second, ballot, imprint):
        if ballot != self.promised.get(second) or int(self.voted.get(second, (0,))[0]) >= int(ballot):
            return False
        self.keep("voted", second, ballot, imprint)
        self.rows.append(f"send c{core} synod {self.number} {second} voted {ballot}")
        return True

    def hear_voted(self, core, second, ballot):
        hand = self.hand.get(second)
        if not hand or hand[0] != int(ballot) or not hand[2] or core in hand[3]:
            return False
        hand[3].add(core)
        if len(hand[3]) == self.cores // 2 + 1:
            if second not in self.held:
                self.keep("held", second, hand[2])
            self.all(second, f"success {hand[2]}")
        return True

    def hear_success(self, core, second, imprint):
        if second in self.held:
            return False
        self.keep("held", second, imprint)
        return True

    def on_tell(self, second):
        if second not in self.held:
            return f"answer undecided {second}"
        self.all(second, f"success {self.held[second]}")
        return "answer done"

    def on_respond(self, second):
        if second not in self.sealed:
            return "answer unsealed"
        missing = self.missing(second)
        if missing is not None:
            return f"answer undecided {missing}"
        imprint, aggregators = self.sealed[second]
        if imprint == ZERO or imprint != self.held[second]:
            return "answer notmine"
        self.rows += [f"send a{it} response {second} {imprint}" for it in aggregators]
        return "answer done"

    def on_publish(self, second):
        missing = self.missing(second)
        if missing is not None:
            return f"answer undecided {missing}"
        return "answer published " + self.calendar(second).root(int(second))[1:].hex()

    def calendar(self, last):
        """The calendar to a second."""
        return Tree(self.start, [b"\x01" + bytes.fromhex(self.held[str(it)]) for it in range(self.start, int(last) + 1)])

    def on_chain(self, second, last):
        if self.missing(last) is not None:
            return "not held"
        calendar = self.calendar(last)
        self.rows += [f"{side} {beside[1:].hex()}" for side, beside in calendar.chain(int(second), int(last))]
        return "published " + calendar.root(int(last))[1:].hex()

    def on_held(self, first, count):
        rows = [f"root {it} {self.held[str(it)]}" for it in range(int(first), int(first) + int(count)) if str(it) in self.held]
        self.rows = rows[1:]
        return rows[0] if rows else None


class Aggregator(Stand):
    kind = "a"

    def __init__(self, *words):
        self.open, self.closed, self.answered = collections.defaultdict(list), {}, {}
        self.numbers = {}
        super().__init__(*words)

    def hold(self, fact):
        name, second, *rest = fact
        if name == "closed":
            self.closed[second] = rest
            self.numbers.update({it.split(":")[0]: (second, it) for it in rest if it[0] != "a"})
        else:
            self.answered[second] = rest[0]

    def on_request(self, number, second, imprint, name=""):
        if number in self.numbers:
            return "refused taken"
        if second in self.closed:
            return "answer late"
        self.numbers[number] = (second, f"{number}:{imprint}")
        self.open[second].append(f"{number}:{imprint}")
        return f"answer number {number}"

    def on_submission(self, aggregator, second, imprint, level, name=""):
        if second in self.closed:
            return "answer late"
        if any(it.startswith(f"a{aggregator}:") for it in self.open[second]):
            return "answer known"
        self.open[second].append(f"a{aggregator}:{imprint}")
        return "answer done"

    def on_close(self, second):
        if second in self.closed:
            return "answer closed"
        items = self.open.pop(second, [])
        self.keep("closed", second, *items)
        if items:
            root = items[0].split(":")[1] if len(items) == 1 else digest(items)
            self.rows.append(f"send {self.parents[self.number]} submission {self.number} {second} {root} 0{self.labels[self.number]}")
        return "answer done"

    def on_response(self, second, text):
        if not self.closed.get(second) or second in self.answered:
            return "answer nothing"
        self.keep("answered", second, text)
        self.rows += [f"send {it.split(':')[0]} response {second} {text}" for it in self.closed[second] if it[0] == "a"]
        return "answer done"

    def on_sign(self, number):
        second, item = self.numbers.get(number, ("", ""))
        if second not in self.answered or item not in self.closed.get(second, ()):
            return "not issued"
        if len(self.closed[second]) == 1 and len(self.answered[second]) > 64:
            return f"signature {self.answered[second]}"
        if "signs" in CAN:
            return f"signature {signature_of(item.split(':')[1], int(second)).hex()}"
        return f"signature {item.split(':')[1]}{int(second):016x}{self.answered[second]}"


def forget(plan, name, folder, old, before, fresh):
    """Writes what is left: of a core's second its root, and the closing of a round without its items."""
    if name[0] == "c" and "cores" not in CAN:
        stand_in_files.fail("node")
    whole = stand_in_files.opened(plan, name, os.path.join(folder, old), False)
    if os.path.exists(os.path.join(folder, fresh)) and os.path.getsize(os.path.join(folder, fresh)):
        stand_in_files.fail("file")
    new = stand_in_files.opened(plan, name, os.path.join(folder, fresh), "records" in CAN)
    left = (left_of_core if name[0] == "c" else left_of_aggregator)(whole.facts, int(before))
    for fact in left:
        new.add(fact)
    print(f"left {len(left)} of {len(whole.facts)}")


def left_of_core(facts, before):
    held = {fact[1] for fact in facts if fact[0] == "held" and int(fact[1]) < before}
    return [fact for fact in facts if fact[0] == "held" or fact[1] not in held]


def left_of_aggregator(facts, before):
    gone = {fact[1] for fact in facts if fact[0] == "answered" and int(fact[1]) < before}
    return [fact[:2] if fact[1] in gone else fact for fact in facts if (fact[0], fact[1] in gone) != ("answered", True)]


def node_of(plan, name, path):
    return {"c": Core, "a": Aggregator}[name[0]](plan, int(name[1:]), path)


if __name__ == "__main__":
    words = sys.argv[1:]
    if words[0] == "--forget":
        forget(*words[1:])
    else:
        plan, node, folder, name = words
        node_of(plan, node, os.path.join(folder, name)).serve()
