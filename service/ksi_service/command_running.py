"""The commands that run a service: start, run, stop, status and clock-accepted."""
import argparse
import asyncio
import json
import os
import re
import signal
import subprocess
import sys
import time

from . import files, joining, logs, running, service
from .clocks import DEFAULT_BOUND, ClockCheck
from .command_asking import ask, door
from .command_words import Failed, add, natural, positive, seconds_of
from .door_words import add_door_words, words_of
from .host import WITHOUT
from .plan import SECONDS

DOOR = os.environ.get("KSI_DOOR", "127.0.0.1:8080")
LONG_SECONDS, START_SECONDS, STOP_SECONDS = 30, 600, 60
"""How long a start takes before it says so, and before it is stopped: nodes read whole files. And how long a stop takes at most."""
OTHERS_SECONDS = 10
"""How long a start waits for other machines. Then the service waits for them in the background."""


def address_of(text):
    host, _, port = text.rpartition(":")
    if not port.isdigit() or int(port) > 65535:
        raise Failed(f"{text} is not HOST:PORT")
    return host.strip("[]") or "127.0.0.1", int(port)


def start(words):
    """Starts the service in the background, and waits until its door is open."""
    files.make_folder(words.folder)
    again = [sys.executable, os.path.abspath(sys.argv[0]), "run", *sys.argv[2:]]
    path = os.path.join(words.folder, "log")
    with open(path, "ab") as log:
        before = log.tell()
        child = subprocess.Popen(again, stdin=subprocess.DEVNULL, stdout=log, stderr=log, start_new_session=True)
    began, told = time.monotonic(), False
    while time.monotonic() - began < START_SECONDS:
        if child.poll() is not None:
            raise Failed(f"it did not start: {reason_in(path, before)}")
        address = door_of(words.folder, child.pid)
        waits = address and not is_ready(words.folder)
        if address and not (waits and time.monotonic() - began < OTHERS_SECONDS):
            print(*(row for row in rows_in(path, before) if WITHOUT in row or service.REFUSES in row), f"started over {words.folder}, the door is {address}", sep="\n")
            if waits:
                print("it waits for other machines: its door answers 503 until a majority of the cores is there")
            return
        if not told and time.monotonic() - began > LONG_SECONDS:
            print(f"its nodes still read their files: see {path}", flush=True)
            told = True
        time.sleep(0.1)
    child.terminate()
    raise Failed(f"it did not open its door within {START_SECONDS} seconds, and is stopped: see {path}")


def door_of(folder, number):
    """The address of the door that a process has opened, or None."""
    try:
        it = door(folder)
        return it.url if it.process == number else None
    except Failed:
        return None


def is_ready(folder):
    """Whether a service whose door is open takes requests. If it just ended, that is seen by its process."""
    try:
        return json.loads(ask(folder, "/status"))["ready"]
    except Failed:
        return False


def rows_in(path, before):
    """The lines of a log after a place. Another service over the folder may write to it too."""
    with open(path, "rb") as log:
        log.seek(before)
        return log.read().decode(errors="replace").splitlines()


def reason_in(path, before):
    """Why a service ended, by the lines of its log after a place."""
    rows = rows_in(path, before)
    hint = f"see {path}" if rows else "its log is empty, as on a full disk"
    return next((row[len("ksi-service: "):] for row in reversed(rows) if row.startswith("ksi-service: ")), hint)


def run(words):
    logs.begin()
    if words.machines:
        joining.use_python_with("redis" if words.over else "aiohttp")
    asyncio.run(running.run(words.folder, words.cores, words.aggregators, address_of(words.door), make=maker_of(words), publish_every=words.publish_every,
                            most_waiting=words.most_waiting, cut_every=words.cut_every, forget_every=words.forget_every, discard=words.discard,
                            clock=ClockCheck(words.clock_bound, words.clock_unchecked), start=running.Start(words.identity, words.moved, words.mirror, words.print),
                            on_publication=words.on_publication, succeed_after=words.succeed_after, door_words=words_of(words)))


def maker_of(words):
    """The function that makes the service: alone, or as one of several machines. Then the plan is copied into the folder."""
    if not words.machines:
        return service.Service
    joined = joining.Words(words.machines, words.certificate, words.key, words.authority, words.machine, words.over)
    make = joining.maker(joined)
    joining.take_plan(joined, words.folder)
    return make


def stop(words):
    number = door(words.folder).process
    if not files.is_held(words.folder):
        raise Failed(f"no service runs over {words.folder}, and the last one was not stopped")
    os.kill(number, signal.SIGTERM)
    end = time.monotonic() + STOP_SECONDS
    while time.monotonic() < end:
        if not files.is_held(words.folder):
            print("stopped")
            return
        time.sleep(0.1)
    raise Failed(f"it did not stop within {STOP_SECONDS} seconds")


def accept_clock(words):
    """Has a running service accept the clock as it is now, after it was set."""
    number = door(words.folder).process
    if not files.is_held(words.folder):
        raise Failed(f"no service runs over {words.folder}")
    os.kill(number, signal.SIGUSR1)
    print("accepted: the clock counts from its present time")


def status(words):
    for name, value in json.loads(ask(words.folder, "/status")).items():
        if isinstance(value, dict):
            value = " ".join(f"{key}={it}" for key, it in value.items() if not isinstance(it, dict))
        print(f"{name:16} {value}")


def server(text):
    """The URL of a server, which may have a password and is not printed."""
    if not re.match("(redis|rediss|unix)://.", text):
        raise argparse.ArgumentTypeError("it is redis://HOST, rediss://HOST or unix://PATH")
    return text


def url(text):
    if not re.match("https?://.", text):
        raise argparse.ArgumentTypeError("it is http://HOST or https://HOST")
    return text


def add_running(commands, name, does, told):
    """Adds a command that runs the service."""
    one = add(commands, name, does, told, "folder")
    one.add_argument("--cores", type=int, choices=range(1, 10), metavar="1..9", help="number of cores of a new folder (default 3)")
    one.add_argument("--aggregators", metavar="NUMBER|PARENTS", help="number of aggregators of a new folder (default 2); or the parent of each, as c0,c1,a0,a0")
    one.add_argument("--door", default=DOOR, metavar="HOST:PORT", help=f"the address to listen at: {DOOR}; port 0 takes a free one")
    add_door_words(one)
    add_joining(one)
    one.add_argument("--clock-bound", type=seconds_of, default=DEFAULT_BOUND, metavar="SECONDS", help=f"sign only if the kernel's estimate of the clock's error is at most this (default {DEFAULT_BOUND:g})")
    one.add_argument("--clock-unchecked", action="store_true", help="sign even if the kernel reports that the clock is not synchronised, as on a laptop or in a test")
    one.add_argument("--identity", metavar="FILE", help="the file for the identity of the plan, outside the folder (default: in $STATE_DIRECTORY, or below $XDG_STATE_HOME/ksi)")
    one.add_argument("--moved", action="store_true", help="the folder was stopped on another machine and moved here; a service of one machine also needs --mirror or --print")
    one.add_argument("--mirror", type=url, default=os.environ.get("KSI_MIRROR"), metavar="URL", help="a mirror to ask at each start: a folder that lacks one of its publications is refused")
    one.add_argument("--print", metavar="'SECOND ROOT'", help="the last print, as `ksi-service publications` printed it: a folder that lacks it is refused")
    one.add_argument("--publish-every", type=positive, default=3600, metavar="SECONDS", help="publish every SECONDS (default 3600)")
    one.add_argument("--most-waiting", type=positive, default=service.MOST_WAITING, metavar="REQUESTS", help=f"answer 503 if this many requests wait (default {service.MOST_WAITING})")
    one.add_argument("--cut-every", type=positive, default=3600, metavar="SECONDS", help="begin a new file of the record every SECONDS, and compress the one before (default 3600)")
    one.add_argument("--forget-every", type=natural, default=3600, metavar="SECONDS", help="let nodes forget old seconds, whose signatures were handed out, every SECONDS (default 3600); 0 is never")
    one.add_argument("--succeed-after", type=natural, default=SECONDS, metavar="SECONDS", help=f"let the next plan follow without a command SECONDS after the plan's first second, the same on all machines (default {SECONDS}, all that a plan has); 0 is never")
    one.add_argument("--discard", type=natural, default=0, metavar="FILES", help="remove all closed files of the record except the last FILES: the run can then not be checked from its start, nor signatures of those seconds audited; 0 keeps all")
    add_anchoring(one)


def add_anchoring(one):
    one.add_argument("--on-publication", default=os.environ.get("KSI_ANCHOR"), metavar="COMMAND", help="a command that keeps publications elsewhere: it gets the second and the root, and is run again if it fails")


def add_joining(one):
    """Adds the words of a machine that is one of several. The environment may have them, so that all machines have one unit."""
    one.add_argument("--machines", default=os.environ.get("KSI_MACHINES"), metavar="FILE", help="run as one of several machines: the file that `ksi-service plan` wrote")
    one.add_argument("--certificate", metavar="FILE", help="this machine's certificate (default: the one next to the file of machines that has a key)")
    one.add_argument("--key", metavar="FILE", help="the certificate's key (default: the one next to the certificate)")
    one.add_argument("--authority", metavar="FILE", help="the certificate of the machines' authority (default: authority.crt next to the file of machines)")
    one.add_argument("--machine", metavar="NAME", help="the name of this machine (default: the name in the certificate)")
    one.add_argument("--over", type=server, default=os.environ.get("KSI_OVER"), metavar="redis://HOST", help="carry messages between machines over a Redis server (default: by HTTPS from host to host)")


def add_commands(commands):
    add_running(commands, "start", start, "start a service in the background")
    add_running(commands, "run", run, "run a service in the foreground")
    add(commands, "stop", stop, "stop a service", "folder")
    add(commands, "clock-accepted", accept_clock, "let a service sign again after its clock was set and checked", "folder")
    add(commands, "status", status, "its counters", "folder")
