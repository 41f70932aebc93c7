"""Runs the proved `ksi`, and a node's process that answers questions while no service runs."""
import os
import subprocess

from .errors import ServiceError
from .programs import program


class Refused(ServiceError):
    """A line of `ksi` that reports a failure, with its status."""

    def __init__(self, status, line):
        super().__init__(line or f"ksi exited with status {status}")
        self.status = status
        self.line = line


def ksi(*words, cwd=None):
    """Runs `ksi` and returns its line."""
    told = subprocess.run([program("ksi"), *words], cwd=cwd, capture_output=True, text=True, check=False)
    if told.returncode:
        raise Refused(told.returncode, told.stdout.strip())
    return told.stdout.strip()


class Stopped:
    """A node's process over its facts of a service that is stopped. Questions change nothing."""

    def __init__(self, folder, name):
        self.name = name
        self.facts = 0
        self.path = os.path.join(folder, f"{name}.facts")
        if not os.path.exists(self.path):
            raise Refused(1, f"{folder} has no facts of {name}")
        words = [program("ksi_serve"), os.path.join(folder, "plan"), name, folder, f"{name}.facts"]
        self.process = subprocess.Popen(words, stdin=subprocess.PIPE, stdout=subprocess.PIPE, stderr=subprocess.DEVNULL, text=True)

    def __enter__(self):
        self.facts = int(self.block()[0].split(" ")[1])
        return self

    def __exit__(self, *_):
        try:
            self.process.stdin.close()
        except OSError:
            pass
        self.process.stdout.close()
        self.process.wait()

    def ask(self, line):
        try:
            self.process.stdin.write(line + "\n")
            self.process.stdin.flush()
        except BrokenPipeError:
            # the process has ended, and its output has the reason
            pass
        return self.block()

    def block(self):
        rows = []
        while (row := self.process.stdout.readline()) != ".\n":
            if not row:
                raise Refused(1, f"{self.name} ended: {' '.join(rows) or 'it said nothing'}")
            rows.append(row[:-1])
        return rows
