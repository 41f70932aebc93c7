"""What tests share: a folder with a stand-in for the program of the nodes, and which real programs are there."""
import atexit
import logging
import os
import shutil
import stat
import subprocess
import sys
import tempfile

from ksi_service import programs

HERE = os.path.dirname(os.path.abspath(__file__))
COMMAND = os.path.join(os.path.dirname(HERE), "ksi-service")
NODE = "ksi_serve"
SCRIPT_SECONDS = 1700
"""How long a script may take, on a slow machine too."""
COUNTING = """#!/bin/sh
awk -v node="$1" 'block {block = $0 != "."; next} $1 == "sign" {signatures++; block = 1; next} {steps++} $1 == "unsaid" {unsaid++; next} $1 != "restart" {block = 1}
     END {print "agrees " steps + 0 (node == "--node" ? "" : " unsaid " unsaid + 0 " signatures " signatures + 0)}'
"""

# identities of test runs are not kept among the user's
STATE = tempfile.mkdtemp(prefix="ksi-state-")
os.environ["XDG_STATE_HOME"] = STATE
os.environ.pop("STATE_DIRECTORY", None)
atexit.register(shutil.rmtree, STATE, ignore_errors=True)


def missing(*names):
    """Why a test of these programs is skipped, or None."""
    return programs.missing(names)


def copied(folder, to):
    """Copies a folder as an operator would, a running service's sockets too."""
    subprocess.run(["cp", "-a", folder, to], check=True)
    return to


def run_script(test, *words):
    """What a script of service/ prints, which has to end well. At status 2 something that it wants is not here."""
    told = subprocess.run([sys.executable, os.path.join(os.path.dirname(HERE), words[0]), *words[1:]], capture_output=True, text=True, check=False, timeout=SCRIPT_SECONDS)
    if told.returncode == 2:
        test.skipTest(told.stdout.strip())
    test.assertEqual(told.returncode, 0, told.stdout + told.stderr)
    return told.stdout


def make(folder, can=""):
    """Makes the stand-in for the nodes' program in a folder. The words say what it can (stand_in.py)."""
    return make_program(folder, NODE, "stand_in.py", can)


def make_retrace(folder, can=""):
    """Makes the stand-ins for the nodes' program and for `ksi_retrace` in a folder."""
    make(folder, can)
    return make_program(folder, "ksi_retrace", "stand_in_retrace.py")


def make_counting(folder):
    """Makes the stand-in for the nodes' program, and a `ksi_retrace` that agrees with every record: for tests of what is seen without it."""
    make(folder)
    path = os.path.join(folder, "ksi_retrace")
    with open(path, "w", encoding="utf-8") as file:
        file.write(COUNTING)
    os.chmod(path, 0o755)
    return folder


def make_program(folder, name, script, can=""):
    os.makedirs(folder, exist_ok=True)
    path = os.path.join(folder, name)
    with open(path, "w", encoding="utf-8") as file:
        file.write(f'#!/bin/sh\nKSI_STAND_IN={can} exec {sys.executable} {os.path.join(HERE, script)} "$@"\n')
    os.chmod(path, os.stat(path).st_mode | stat.S_IXUSR)
    return folder


class Messages(logging.Handler):
    """Keeps the messages of log lines."""

    def __init__(self):
        super().__init__()
        self.messages = []

    def emit(self, record):
        self.messages.append(record.getMessage())


def logged(test, name):
    """The messages that a module logs from here to the end of the test, in a list that grows."""
    logger = logging.getLogger(name)
    handler = Messages()
    logger.addHandler(handler)
    test.addCleanup(logger.removeHandler, handler)
    test.addCleanup(logger.setLevel, logger.level)
    logger.setLevel(logging.INFO)
    return handler.messages
