"""stand_in_retrace.py [--node NODE] PLAN: a `ksi_retrace` for tests where the proved one is not built. It gives each line of a record to a
fresh stand-in for the node, and compares the blocks (docs/FORMATS.md, "Records")."""
import os
import sys
import tempfile

from stand_in import node_of


class Differs(Exception):
    """The block of an entry is another one."""


class Refused(Exception):
    """An entry is none."""


class Retrace:
    def __init__(self, plan, only, room):
        self.plan, self.only, self.room = plan, only, room
        self.nodes = {}
        self.steps = self.unsaid = self.signatures = 0
        self.sent = []
        """The messages of each step."""
        self.numbers = {}
        """Of each step that took a request the node and the request's number."""

    def node(self, name):
        if self.only not in (None, name):
            raise Refused("actor")
        if name not in self.nodes:
            self.start(name)
        return self.nodes[name]

    def start(self, name):
        """Starts a fresh stand-in, or one that was started again."""
        if name in self.nodes:
            self.nodes[name].end()
        self.nodes[name] = node_of(self.plan, name, os.path.join(self.room, f"{name}.facts"))

    def message(self, step, place):
        try:
            if min(int(step), int(place)) < 0:
                raise IndexError
            return self.sent[int(step)][int(place)].split(" ", 2)[1:]
        except IndexError:
            raise Refused("message") from None

    def take(self, words, block_of):
        """Takes the entry that begins with these words."""
        if words[0] == "restart":
            self.node(words[1])
            self.start(words[1])
            self.step([])
            return
        if words[0] == "sign":
            if int(words[1]) not in self.numbers:
                raise Refused("request")
            name, number = self.numbers[int(words[1])]
            self.compare(self.node(name).answer(f"sign {number}"), block_of())
            self.signatures += 1
            return
        is_unsaid = words[0] == "unsaid"
        if self.only is None and words[is_unsaid + 1] in ("submission", "synod", "response"):
            raise Refused("word")
        name, line = words[is_unsaid], " ".join(words[is_unsaid + 1:])
        if name == "deliver":
            name, line = self.message(*words[is_unsaid + 1:is_unsaid + 3])
            self.compare([name, line], [words[is_unsaid + 3], " ".join(words[is_unsaid + 4:])])
        said = self.node(name).answer(line)
        if not is_unsaid:
            self.compare(said, block_of())
        self.unsaid += is_unsaid
        if line.startswith("request "):
            self.numbers[self.steps] = name, line.split(" ")[1]
        self.step([row for row in said if row.startswith("send ")])

    def step(self, sent):
        self.sent.append(sent)
        self.steps += 1

    def compare(self, said, block):
        if said != block:
            raise Differs(f"{said} {block}")

    def end(self):
        for it in self.nodes.values():
            it.end()


def main(words):
    only = words[1] if words[0] == "--node" else None
    entry = 0
    with tempfile.TemporaryDirectory(prefix="ksi-stand-in-") as room:
        retrace = Retrace(words[-1], only, room)
        try:
            if not only and sys.stdin.readline() != "ksi-record 2\n":
                raise Refused("word")
            for row in iter(sys.stdin.readline, ""):
                retrace.take(row.rstrip("\n").split(" "), lambda: [row[:-1] for row in iter(sys.stdin.readline, ".\n")])
                entry += 1
        except (Differs, Refused) as reason:
            is_refused = isinstance(reason, Refused)
            print(reason if not is_refused else "", file=sys.stderr)
            print(f"refused {reason} {entry} 0" if is_refused else f"differs {entry} 0")
            return 3 if is_refused else 1
        finally:
            retrace.end()
    print(f"agrees {retrace.steps}" if only else f"agrees {retrace.steps} unsaid {retrace.unsaid} signatures {retrace.signatures}")
    return 0


if __name__ == "__main__":
    sys.exit(main(sys.argv[1:]))
