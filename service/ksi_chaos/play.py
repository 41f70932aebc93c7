"""The run: clients sign all the while, and the service is attacked from outside."""
import collections
import hashlib
import http.client
import json
import os
import random
import signal
import subprocess
import sys
import threading
import time

from . import flips, host

SCRIPT = os.path.join(os.path.dirname(os.path.dirname(os.path.abspath(__file__))), "chaos")
HOST_KILLS, FIRST_FILL = 0.06, 20
"""The share of kills that hit the host, and the seconds after which the disk is full for the first time."""
STOPS, MOST_STOPPED = 0.1, 8
"""The share of processes that are stopped in place of killed, and for how many seconds at most: a node is late by then."""
KILLED = "processes killed by SIGKILL"
EVENTS = (KILLED, "processes stopped for some seconds", "hosts killed by SIGKILL", "times the disk was full", "requests asked again by clients")
"""What is done from outside."""
LEAST = {host.LOST_MESSAGE: 5, KILLED: 3}
LEAST_SIGNED = 10
"""A run goes on until this happened, also on a slow machine."""
PAUSES, LONG_PAUSES = (0.1, 1.5), (3, 20)
"""How many seconds lie between two attacks; and in the time that a run goes on for more to happen, as where nothing is signed between two."""
MOST_LONGER, END_SECONDS = 120, 600
"""For how many seconds at most it goes on for that; and how long its end may take."""


class Run:
    def __init__(self, room, plan, rate, seed):
        self.folder = os.path.join(room, "data")
        self.notes = os.path.join(room, "notes")
        self.plan = plan
        self.rate = rate
        self.seed = seed
        self.dice = random.Random(seed)
        self.process = None
        self.ending = False
        self.lock = threading.Lock()
        self.signed = {}
        self.spans = []
        self.counts = collections.Counter()
        self.stopped = {}
        self.log = open(os.path.join(room, "log"), "ab")
        self.outside = {**os.environ, "XDG_STATE_HOME": os.path.join(room, "state")}

    def start(self, *calm):
        """Starts the host until it is open: a full disk may end it before. With the word `calm` it has no trouble of its own."""
        words = [sys.executable, SCRIPT, "--host", self.folder, self.notes, *map(str, self.plan)]
        for _ in range(20):
            self.process = subprocess.Popen([*words, str(self.dice.randrange(1 << 30)), *calm], stdout=self.log, stderr=self.log, env=self.outside)
            for _ in range(1000):
                if self.process.poll() is not None:
                    break
                if self.door()[1] == self.process.pid:
                    return
                time.sleep(0.1)
            self.process.kill()
            self.process.wait()
        raise OSError(f"the host does not start: see {self.log.name}")

    def door(self):
        """The address of the door and the number of the host's process, or None twice."""
        try:
            with open(os.path.join(self.folder, "door"), encoding="ascii") as file:
                address, number = file.read().split()
                return address, int(number)
        except (FileNotFoundError, ValueError):
            return "127.0.0.1:1", 0

    def ask(self, path, body=None):
        connection = http.client.HTTPConnection(self.door()[0], timeout=70)
        try:
            connection.request("GET" if body is None else "POST", path, body)
            answer = connection.getresponse()
            return answer.status, answer.read()
        finally:
            connection.close()

    def status(self):
        """The counters, or None while the host is down."""
        try:
            return json.loads(self.ask("/status")[1])
        except (OSError, http.client.HTTPException, ValueError):
            return {}

    def client(self, number, pause):
        """Signs hashes one after the other, at most one in this many seconds."""
        at = 0
        time.sleep(pause * self.dice.random())
        while not self.ending:
            at += 1
            began, imprint = time.time(), hashlib.sha256(b"%d %d" % (number, at)).hexdigest()
            while not self.ending and not self.sign(imprint, began):
                time.sleep(0.3)
            time.sleep(max(0.0, began + pause - time.time()))

    def sign(self, imprint, began):
        """Whether a hash was signed."""
        try:
            status, content = self.ask("/sign", imprint)
        except (OSError, http.client.HTTPException):
            status = 0
        with self.lock:
            if status == 200:
                self.signed[imprint] = content
                self.spans.append(time.time() - began)
            else:
                self.counts["requests asked again by clients"] += 1
        return status == 200

    def signal(self, how, what):
        """Signals a process of a node. Returns its number, or None."""
        processes = self.status().get("processes")
        try:
            if processes:
                os.kill(number := self.dice.choice(list(processes.values())), how)
                self.counts[what] += 1
                return number
        except ProcessLookupError:
            pass
        return None

    def kill_process(self):
        self.signal(signal.SIGKILL, KILLED)

    def stop_process(self):
        """Stops a process for a while, as on a disk that hangs."""
        number = self.signal(signal.SIGSTOP, "processes stopped for some seconds")
        if number:
            self.stopped[number] = time.time() + self.dice.uniform(2, MOST_STOPPED)

    def go_on(self, now):
        """Continues processes that were stopped for long enough."""
        for number in [it for it, until in self.stopped.items() if until <= now]:
            del self.stopped[number]
            try:
                os.kill(number, signal.SIGCONT)
            except ProcessLookupError:
                pass

    def kill_host(self):
        # a stopped process would outlive it, and hold its file
        self.go_on(float("inf"))
        self.process.kill()
        self.process.wait()
        self.counts["hosts killed by SIGKILL"] += 1
        self.start()

    def fill(self):
        """Fills the disk until the host has ended or some seconds are over."""
        path = os.path.join(self.folder, "filler")
        with open(path, "wb", buffering=0) as file:
            try:
                while True:
                    file.write(b"\0" * 65536)
            except OSError:
                self.counts["times the disk was full"] += 1
            try:
                self.process.wait(self.dice.uniform(3, 20))
            except subprocess.TimeoutExpired:
                pass
        os.remove(path)

    def play(self, seconds, fills):
        self.start()
        number = max(12, 2 * self.rate)
        clients = [threading.Thread(target=self.client, args=(it, number / self.rate), daemon=True) for it in range(number)]
        for it in clients:
            it.start()
        end, tell, fill = time.time() + seconds, time.time() + 60, time.time() + FIRST_FILL
        while time.time() < end or time.time() < end + MOST_LONGER and not self.has_enough():
            time.sleep(self.dice.uniform(*(PAUSES if time.time() < end else LONG_PAUSES)))
            self.go_on(time.time())
            if fills and time.time() > fill:
                self.fill()
                fill = time.time() + self.dice.uniform(20, 90)
            if self.process.poll() is not None:
                self.start()
            elif self.dice.random() < HOST_KILLS:
                self.kill_host()
            elif self.dice.random() < STOPS:
                self.stop_process()
            else:
                self.kill_process()
            if time.time() > tell:
                tell += 60
                print(f"{len(self.signed)} signed, " + ", ".join(f"{count} {name}" for name, count in sorted(self.happened().items())), flush=True)
        self.go_on(float("inf"))
        self.ending = True
        for it in clients:
            it.join(90)

    def happened(self):
        """How often each thing was done to the service, from outside and by its host."""
        with open(self.notes, encoding="ascii") as file:
            noted = collections.Counter(file.read().splitlines())
        return {it: noted[it] + self.counts[it] for it in (*host.EVENTS, *EVENTS)}

    def has_enough(self):
        happened = self.happened()
        return len(self.signed) >= LEAST_SIGNED and all(happened[it] >= least for it, least in LEAST.items())

    def end(self):
        """Starts the host again without trouble, signs once more, waits for a publication that covers all, and until an aggregator forgot
        rounds, and stops. On a slow machine hosts that are killed may never live for long enough to sign or to forget. So as many are
        signed as are still missing. After the last signature there is a round to forget, whatever was forgotten before."""
        self.stop()
        self.start("calm")
        end = time.time() + END_SECONDS
        for number in range(max(1, LEAST_SIGNED - len(self.signed))):
            began, imprint = time.time(), hashlib.sha256(b"the last ones: %d" % number).hexdigest()
            while not self.sign(imprint, began):
                self.see_end(end)
        until = int(time.time())
        while self.status().get("last_publication", 0) < until or not self.happened()[host.FORGOT]:
            self.see_end(end)
        self.stop()

    def see_end(self, end):
        """Waits a moment. Raises OSError if the run takes too long to end, or its host has ended."""
        if time.time() > end or self.process.poll() is not None:
            raise OSError(f"the run does not come to its end: see {self.log.name}")
        time.sleep(0.2)

    def stop(self):
        self.process.terminate()
        self.process.wait(END_SECONDS)
        flips.put_all_back(self.folder)

    def kill(self):
        if self.process and self.process.poll() is None:
            self.process.kill()
            self.process.wait()
        self.log.close()
