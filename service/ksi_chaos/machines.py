"""The run over several machines: each is a process of its own with nodes of its own. Clients sign all the while, and note every answer for
the judge. Machines are killed, stopped, cut off, and have disks and clocks that fail."""
import collections
import contextlib
import hashlib
import json
import os
import random
import signal
import socket
import subprocess
import sys
import threading
import time
import urllib.error
import urllib.request

from ksi_service import certificates, client, machines

from . import flips, host
from .judge import picked

SERVICE = os.path.dirname(os.path.dirname(os.path.abspath(__file__)))
NODES = {"A": ("c0", "a0"), "B": ("c1", "a1"), "C": ("c2", "a2")}
LOST = TWICE = 0.02
LATE = 0.05
MOST_AHEAD = 40
"""By how many seconds a clock that jumps is wrong at most."""
FETCH_SECONDS, START_SECONDS, END_SECONDS, STOP_SECONDS = 4, 300, 300, 120
LEAST_SIGNED, MOST_LONGER = 5, 300
"""A run goes on until this many requests are signed, also on a slow machine, for at most this many seconds more."""
EVENTS = (
    "machines that lost their power",
    "hosts killed by SIGKILL",
    "nodes killed by SIGKILL",
    "machines stopped for some seconds",
    "machines cut off from all others",
    "machines cut off from one other",
    "cuts in one direction",
    "disks that hung",
    "disks that were full",
    "clocks that were moved",
    "starts of a host",
    "batches lost",
    "batches repeated",
    "batches held back",
    "batches that a cut kept away",
    "writes of a record that hung",
    host.FORGOT,
    host.FORGOT_BY_CORE,
    flips.FLIPPED,
    flips.BELIEVED,
)
"""Everything that is done to the machines."""
BOUND = 3.0
"""By how many seconds a signed second may be off: a clock may be wrong by two before the host stops driving, and lags a second."""


def free_ports(count):
    with contextlib.ExitStack() as opened:
        return [opened.enter_context(socket.create_server(("127.0.0.1", 0))).getsockname()[1] for _ in range(count)]


class Machine:
    """A machine's process and its present faults."""

    def __init__(self, run, name, door):
        self.run = run
        self.name = name
        self.door = door
        self.folder = run.at(name)
        self.control = run.at(f"{name}.control")
        self.wrong = {"lost": LOST, "twice": TWICE, "late": LATE}
        self.process = None
        self.heals = []
        """The ends of faults, each with its time."""
        self.write()

    def write(self):
        with open(f"{self.control}.new", "w", encoding="ascii") as file:
            json.dump(self.wrong, file)
        os.replace(f"{self.control}.new", self.control)

    def set(self, **values):
        self.wrong.update(values)
        self.write()

    def start(self):
        words = ["-m", "ksi_chaos.machine", self.folder, self.name, self.run.at("notes"), self.control, self.run.at("etc"), self.door, str(self.run.dice.randrange(1 << 30))]
        environment = {**os.environ, "PYTHONPATH": SERVICE, "XDG_STATE_HOME": self.run.at(f"{self.name}.state")}
        with open(self.run.at(f"{self.name}.log"), "ab") as log:
            self.process = subprocess.Popen([sys.executable, *words], env=environment, stdout=log, stderr=log, start_new_session=True)

    def is_running(self):
        return self.process is not None and self.process.poll() is None

    def signal(self, number, whole=True):
        """Signals the host, or with it all processes of the machine."""
        if self.is_running():
            with contextlib.suppress(ProcessLookupError):
                (os.killpg if whole else os.kill)(self.process.pid, number)

    def kill(self, whole=True):
        self.signal(signal.SIGCONT)
        self.signal(signal.SIGKILL, whole)
        if self.process is not None:
            self.process.wait()

    def heal_at(self, seconds, heal):
        self.heals.append((time.monotonic() + seconds, heal))

    def heal(self, now):
        """Ends the faults that are over by now."""
        due = [heal for at, heal in self.heals if at <= now]
        self.heals = [it for it in self.heals if it[0] > now]
        for heal in due:
            heal()

    def status(self):
        with urllib.request.urlopen(f"http://{self.door}/status", timeout=3) as answer:
            return json.load(answer)


class Run:
    def __init__(self, room, rate, seed):
        self.room = room
        self.rate = rate
        self.dice = random.Random(seed)
        self.counts = collections.Counter()
        self.signed = 0
        self.lock = threading.Lock()
        self.ending = threading.Event()
        self.rows = open(self.at("rows"), "w", encoding="ascii", buffering=1)
        ports = free_ports(2 * len(NODES))
        made = [machines.Machine(name, f"127.0.0.1:{port}", nodes) for (name, nodes), port in zip(NODES.items(), ports)]
        machines.write(self.at("etc"), made, machines.plan_of(made))
        certificates.make_all(self.at("etc"), list(NODES))
        self.machines = {name: Machine(self, name, f"127.0.0.1:{port}") for name, port in zip(NODES, ports[len(NODES):])}
        self.doors = [it.door for it in self.machines.values()]

    def at(self, name):
        return os.path.join(self.room, name)

    @property
    def folders(self):
        return [it.folder for it in self.machines.values()]

    # clients

    def note(self, *words):
        with self.lock:
            self.rows.write(" ".join(map(str, words)) + "\n")

    def client(self, number, pause):
        """Signs hashes, one after the other, each by the first door that signs it."""
        at, dice = 0, random.Random(number)
        while not self.ending.wait(pause * dice.random()):
            at += 1
            imprint, doors = hashlib.sha256(b"%d %d" % (number, at)).hexdigest(), dice.sample(self.doors, len(self.doors))
            while not self.ending.is_set() and not any(self.sign(door, imprint) for door in doors):
                time.sleep(0.3)
            time.sleep(pause / 2)

    def sign(self, door, imprint):
        began = time.time()
        said = client.ask(door, imprint)
        content = said.content.hex() if said.status == 200 else "-"
        self.note("sign", imprint, door, f"{began:.3f}", f"{time.time():.3f}", said.status or "unknown", content)
        with self.lock:
            self.signed += said.status == 200
        return said.status == 200

    def fetch(self):
        """Fetches the publications of all doors from time to time."""
        while not self.ending.wait(FETCH_SECONDS):
            for door in self.doors:
                began, status, content = time.time(), "unknown", "-"
                try:
                    with urllib.request.urlopen(f"http://{door}/publications", timeout=3) as answer:
                        status, content = answer.status, answer.read().hex()
                except urllib.error.HTTPError as error:
                    status = error.code
                except OSError:
                    pass
                self.note("publications", "-", door, f"{began:.3f}", f"{time.time():.3f}", status, content)

    # faults of machines

    def count(self, what):
        self.counts[what] += 1

    def lose_power(self, one):
        one.kill()
        self.count("machines that lost their power")

    def kill_host(self, one):
        one.kill(whole=False)
        self.count("hosts killed by SIGKILL")

    def kill_node(self, one):
        with contextlib.suppress(OSError, ValueError, ProcessLookupError, IndexError):
            os.kill(self.dice.choice(list(one.status()["processes"].values())), signal.SIGKILL)
            self.count("nodes killed by SIGKILL")

    def stop_machine(self, one):
        one.signal(signal.SIGSTOP)
        one.heal_at(self.dice.uniform(1, 8), lambda: one.signal(signal.SIGCONT))
        self.count("machines stopped for some seconds")

    def cut_off(self, one):
        others = [it for it in self.machines if it != one.name]
        one.set(mute=others, deaf=others)
        self.join_later(one)
        self.count("machines cut off from all others")

    def cut_one(self, one):
        other = self.dice.choice([it for it in self.machines if it != one.name])
        one.set(mute=[other], deaf=[other])
        self.join_later(one)
        self.count("machines cut off from one other")

    def cut_one_way(self, one):
        others = [it for it in self.machines if it != one.name]
        one.set(**{self.dice.choice(["mute", "deaf"]): self.dice.choice([others, others[:1], others[1:]])})
        self.join_later(one)
        self.count("cuts in one direction")

    def join_later(self, one):
        one.heal_at(self.dice.uniform(2, 12), lambda: one.set(mute=[], deaf=[]))

    def hang_disk(self, one):
        one.set(hang=True)
        one.heal_at(self.dice.uniform(1, 8), lambda: one.set(hang=False))
        self.count("disks that hung")

    def fill_disk(self, one):
        """Takes the right to write longer files from the host, as a full disk does. It ends, and is started later."""
        if one.is_running():
            with contextlib.suppress(subprocess.CalledProcessError, FileNotFoundError):
                subprocess.run(["prlimit", "--pid", str(one.process.pid), "--fsize=1"], check=True, capture_output=True)
                self.count("disks that were full")

    def move_clock(self, one):
        """The clock jumps, and is right again later: then the operator says so."""
        ahead = self.dice.choice([-1, 1]) * self.dice.uniform(0.1, 1.5) if self.dice.random() < 0.5 else self.dice.uniform(-MOST_AHEAD, MOST_AHEAD)

        def right():
            one.set(ahead=0)
            # the host has to read it first
            one.heal_at(1, lambda: one.signal(signal.SIGUSR1, whole=False))
        one.set(ahead=ahead)
        one.heal_at(self.dice.uniform(2, 10), right)
        self.count("clocks that were moved")

    def faults(self):
        return [self.lose_power, self.kill_host, self.kill_node, self.kill_node, self.stop_machine, self.cut_off, self.cut_one, self.cut_one_way, self.hang_disk,
                self.fill_disk, self.move_clock]

    # the run

    def start(self):
        for one in self.machines.values():
            one.start()
        self.wait(lambda: all(it.status()["ready"] for it in self.machines.values()), START_SECONDS, "the machines do not start")

    def wait(self, holds, seconds, reason):
        end = time.monotonic() + seconds
        while time.monotonic() < end:
            with contextlib.suppress(OSError, ValueError, KeyError):
                if holds():
                    return
            self.see_machines(time.monotonic(), 1)
            time.sleep(0.2)
        raise OSError(f"{reason}: see the logs in {self.room}")

    def see_machines(self, now, share):
        """Ends faults that are over, and starts machines that have ended, each with this probability."""
        for one in self.machines.values():
            one.heal(now)
            if not one.is_running() and self.dice.random() < share:
                one.kill()
                one.start()

    def play(self, seconds, pause):
        """Does something to a machine at this interval on average, while clients sign."""
        number = max(3, 2 * self.rate)
        clients = [threading.Thread(target=self.client, args=(it, number / self.rate), daemon=True) for it in range(number)]
        clients.append(threading.Thread(target=self.fetch, daemon=True))
        for it in clients:
            it.start()
        end, following = time.monotonic() + seconds, time.monotonic() + pause
        while time.monotonic() < end or time.monotonic() < end + MOST_LONGER and self.signed < LEAST_SIGNED:
            time.sleep(0.1)
            now = time.monotonic()
            self.see_machines(now, 0.03)
            if now > following:
                following = now + self.dice.expovariate(1 / pause)
                self.dice.choice(self.faults())(self.dice.choice(list(self.machines.values())))
        self.heal_all()
        return clients

    def heal_all(self):
        for one in self.machines.values():
            one.signal(signal.SIGCONT)
            one.heals = [(0.0, lambda one=one: one.signal(signal.SIGUSR1, whole=False))]
            one.set(mute=[], deaf=[], hang=False, ahead=0, lost=0, twice=0, late=0, calm=True)
            if any(os.path.exists(flips.copy_of(one.folder, name)) for name in NODES[one.name]):
                # a node that was left out for a flipped bit is used again after a start
                one.kill()

    def end(self, clients):
        """Waits until all machines have published a second after the last request, and stops them."""
        time.sleep(1)
        self.ending.set()
        for it in clients:
            it.join(90)
        last = int(time.time())
        self.wait(lambda: all(it.status()["last_publication"] >= last for it in self.machines.values()), END_SECONDS, "the machines do not publish the end")
        for one in self.machines.values():
            one.signal(signal.SIGTERM, whole=False)
        for one in self.machines.values():
            try:
                one.process.wait(STOP_SECONDS)
            except subprocess.TimeoutExpired:
                one.kill()
            flips.put_all_back(one.folder)
        self.rows.close()

    def kill(self):
        self.ending.set()
        for one in self.machines.values():
            one.kill()

    def seen(self):
        """How clients fared, by their rows."""
        signs, first, spans = collections.Counter(), {}, []
        with open(self.at("rows"), encoding="ascii") as file:
            for kind, imprint, _, began, ended, status, _ in map(str.split, file):
                if kind == "sign":
                    signs[status] += 1
                    first.setdefault(imprint, float(began))
                    if status == "200":
                        spans.append(float(ended) - first[imprint])
        return [("requests that were signed", signs["200"]), ("attempts that were refused; that got no answer", f"{sum(signs.values()) - signs['200'] - signs['unknown']}; {signs['unknown']}"),
                ("from a request to its signature: median, 99 in 100, longest", ", ".join(picked(spans, share) for share in (0.5, 0.99, 1)))]

    def happened(self):
        """How often each thing was done to the machines, by their own notes too."""
        noted = collections.Counter()
        if os.path.exists(self.at("notes")):
            with open(self.at("notes"), encoding="ascii") as file:
                noted.update(file.read().splitlines())
        return {it: noted[it] + self.counts[it] for it in EVENTS}
