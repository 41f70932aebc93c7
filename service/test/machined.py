"""What tests of several machines share: three of them on this one, each a process of `ksi-service run` with stand-ins for its nodes."""
import contextlib
import json
import os
import shutil
import signal
import socket
import subprocess
import sys
import tempfile
import threading
import time
import unittest
import urllib.request

import stands
from ksi_service import certificates, client, machines
from ksi_service.errors import ServiceError

NODES = {"A": ("c0", "a0"), "B": ("c1", "a1"), "C": ("c2",)}


def free_ports(count):
    with contextlib.ExitStack() as opened:
        found = [opened.enter_context(socket.create_server(("127.0.0.1", 0))) for _ in range(count)]
        return [it.getsockname()[1] for it in found]


class Machined(unittest.TestCase):
    """Three machines, their doors, and clients that sign all the while."""

    def setUp(self):
        self.room = tempfile.TemporaryDirectory(prefix="ksi-test-", ignore_cleanup_errors=True)
        self.addCleanup(self.room.cleanup)
        self.environment = {**os.environ, "KSI_BIN": stands.make(self.at("bin")), "XDG_STATE_HOME": self.at("state")}
        ports = free_ports(6)
        made = [machines.Machine(name, f"127.0.0.1:{port}", nodes) for (name, nodes), port in zip(NODES.items(), ports)]
        machines.write(self.at("etc"), made, machines.plan_of(made))
        self.doors = {name: f"127.0.0.1:{port}" for name, port in zip(NODES, ports[3:])}
        self.running = {}
        self.more = []
        """Further words of a start."""
        self.addCleanup(self.end)
        self.signed = []
        self.failed = []
        self.ending = threading.Event()

    def at(self, *names):
        return os.path.join(self.room.name, *names)

    def options(self, name):
        """The words by which a machine reaches the others."""
        raise NotImplementedError

    def command_of(self, name):
        """The program of a machine."""
        return stands.COMMAND

    def start(self, name):
        words = ["run", self.at(name), "--door", self.doors[name], "--publish-every", "5", "--clock-unchecked", *self.options(name), *self.more]
        with open(self.at(f"{name}.log"), "ab") as log:
            self.running[name] = subprocess.Popen([sys.executable, self.command_of(name), *words], env=self.environment, stdout=log, stderr=log)

    def start_all(self):
        for name in NODES:
            self.start(name)
        self.wait(lambda: all(self.is_complete(name) for name in NODES))

    def is_complete(self, name):
        """Whether a machine is ready and sees all others."""
        status = self.status(name)
        return status["ready"] and set(status["machines"].values()) == {"there"}

    def kill(self, name):
        """As a power cut: the nodes end by the end of their input."""
        self.running[name].kill()
        self.running.pop(name).wait()

    def stop_all(self):
        """Stops all, and returns their statuses."""
        for process in self.running.values():
            process.send_signal(signal.SIGTERM)
        return {name: process.wait(100) for name, process in self.running.items()}

    def end(self):
        self.ending.set()
        for process in self.running.values():
            process.kill()
            process.wait()

    def status(self, name):
        with urllib.request.urlopen(f"http://{self.doors[name]}/status", timeout=10) as answer:
            return json.load(answer)

    def log(self, name):
        with contextlib.suppress(FileNotFoundError), open(self.at(f"{name}.log"), encoding="utf-8") as file:
            return file.read()
        return "it was not started"

    def wait(self, holds, seconds=200):
        end = time.monotonic() + seconds
        while time.monotonic() < end:
            with contextlib.suppress(OSError, ValueError):
                if holds():
                    return
            time.sleep(0.05)
        self.fail("it did not come about in time: " + "".join(f"\n{name}: {self.log(name)[-800:]}" for name in NODES))

    @contextlib.contextmanager
    def clients(self, count=3):
        """Clients that sign one hash after the other, each with its own order of doors, until the block ends."""
        threads = [threading.Thread(target=self.sign_on, args=(number,)) for number in range(count)]
        for it in threads:
            it.start()
        try:
            yield
        finally:
            self.ending.set()
            for it in threads:
                it.join()

    def sign_on(self, number):
        doors = list(self.doors.values())
        doors = doors[number % 3:] + doors[:number % 3]
        at = 0
        while not self.ending.is_set():
            at += 1
            began = time.monotonic()
            try:
                client.sign(doors, f"{number + 1:032x}{at:032x}")
                self.signed.append((began, time.monotonic()))
            except ServiceError as reason:
                self.failed.append(str(reason))

    def signed_since(self, began, count):
        """Waits until this many requests are signed that began after this time."""
        self.wait(lambda: sum(start >= began for start, _ in self.signed) >= count)

    def published(self, name):
        with open(self.at(name, "publications"), "rb") as file:
            return file.read()


class OverHttps(Machined):
    def setUp(self):
        if not shutil.which("openssl"):
            self.skipTest("openssl is not here, so nothing goes over HTTPS between machines")
        super().setUp()
        certificates.make_all(self.at("etc"), list(NODES))

    def options(self, name):
        return ["--machines", self.at("etc", name, "machines")]
