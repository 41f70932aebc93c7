"""Counters in Prometheus' text form, how long requests take, and how much memory processes have."""
import bisect
import contextlib
import os
import time

TELLS = {
    "up_seconds": ("gauge", "Seconds since the service was started."),
    "nodes": ("gauge", "Nodes of the plan."),
    "nodes_up": ("gauge", "Nodes whose process runs, and is not late with an answer."),
    "nodes_left_out": ("gauge", "Nodes that cannot be used, and are left out."),
    "node_restarts": ("counter", "Starts of a node after its first."),
    "lines_refused": ("counter", "Lines that a node refused."),
    "signed": ("counter", "Requests that were signed."),
    "asked_again": ("counter", "Requests that were made again for a later second."),
    "waiting": ("gauge", "Requests that wait for their signatures."),
    "busy": ("counter", "Requests that were refused because too many waited."),
    "room": ("gauge", "How many requests may wait, by how many are signed in time."),
    "clients_left": ("counter", "Requests that were dropped since their client left."),
    "lines_spared": ("counter", "Lines of the vote that were not given to a node, because they changed nothing any more."),
    "ballots": ("counter", "Ballots that cores of this machine tried."),
    "door_connections": ("gauge", "Connections that are open."),
    "door_refused": ("counter", "Requests that were refused with a status of 400 to 499."),
    "seconds_decided": ("counter", "Seconds whose root was decided since the start."),
    "last_second": ("gauge", "The last second of a command to seal."),
    "steps": ("counter", "Steps on the record."),
    "record_bytes": ("counter", "Bytes written to the record since the start."),
    "record_syncs": ("counter", "Groups of entries that were written and synced to the record since the start."),
    "rounds_forgotten": ("counter", "Rounds that aggregators have forgotten since the start."),
    "core_facts_forgotten": ("counter", "Facts that cores have forgotten since the start."),
    "files_discarded": ("gauge", "Files of the record that --discard removed."),
    "hour_checked": ("gauge", "The last hour of the record that was checked by itself."),
    "hour_checked_at": ("gauge", "When that was, in Unix time."),
    "hours_differ": ("gauge", "Hours whose check failed: something in the record is not as the proved nodes have it."),
    "publications": ("gauge", "Publications so far."),
    "last_publication": ("gauge", "The last second that was published."),
    "lookup_complete": ("gauge", "Whether the index of signatures has all of this machine's record: 1, or 0 while it is made."),
    "calendar_next": ("gauge", "The first second that the calendar files lack."),
    "anchored_second": ("gauge", "The last publication that was anchored outside."),
    "anchored_age_seconds": ("gauge", "Seconds since a publication was last anchored outside, or since the start if none was."),
    "anchors_failed": ("counter", "Runs of --on-publication that failed since the start."),
    "messages_sent": ("counter", "Messages that other machines received."),
    "messages_lost": ("counter", "Messages to other machines that were lost."),
    "batches_sent": ("counter", "Batches of messages that other machines received."),
    "messages_dropped": ("counter", "Messages of other machines that were not used: too early, too many, malformed, or of another plan or version."),
    "lines_forged": ("counter", "Lines whose sender is not a node of the machine that sent them."),
    "requests_late": ("counter", "Requests that came too late for their round."),
    "seconds_told": ("counter", "Seconds that were sent to cores that lacked them."),
    "plan_seconds_left": ("gauge", "Seconds of the plan that are still to come. Nothing is signed after the last one."),
    "next_publication": ("gauge", "The second that is published next."),
}
"""The kind of each counter, and its meaning."""
LABELLED = {
    "memory_bytes": ("memory_bytes", "process", "Resident memory of the host and of each node."),
    "machines": ("machine_there", "machine", "Whether another machine is there: 1, or 0 if it is away or takes no part."),
    "silent_seconds": ("machine_silent_seconds", "machine", "Seconds since another machine was last heard, or since the start."),
    "clock_offsets": ("clock_offset_seconds", "machine", "By how many seconds the clock of another machine is ahead of this one's, less the time of a message."),
    "cores_next": ("core_next_second", "core", "The first second that a core lacks."),
    "gateways_dropped": ("gateway_dropped", "gateway", "Messages of a gateway right below that were dropped since the start."),
    "free_bytes": ("disk_free_bytes", "folder", "Bytes that the service may still write on the disk of a folder."),
}
"""Gauges that have a value for each machine or process: their name, the name of their label, and their meaning."""
HISTOGRAMS = {
    "sign_seconds": "From a request to its signature.",
    "extend_seconds": "From a signature to its extension.",
}
"""Times with their meaning."""
BOUNDS = [0.1, 0.25, 0.5, 0.75, 1.0, 1.5, 2.0, 3.0, 5.0, 10.0, 30.0]


class Spans:
    """How many requests took at most each number of seconds."""

    def __init__(self):
        self.counts = [0] * (len(BOUNDS) + 1)
        self.sum = 0.0

    def add(self, seconds):
        self.counts[bisect.bisect_left(BOUNDS, seconds)] += 1
        self.sum += seconds

    @contextlib.contextmanager
    def timed(self):
        """Adds how long work takes that succeeds."""
        began = time.monotonic()
        yield
        self.add(time.monotonic() - began)

    def told(self):
        """The counts, each with those below it, by their bound."""
        told, below = {}, 0
        for bound, count in zip([*BOUNDS, "+Inf"], self.counts):
            below += count
            told[str(bound)] = below
        return {"within": told, "sum": round(self.sum, 3), "count": below}


def memory(processes):
    """The resident memory of processes in bytes, by their names."""
    told = {}
    for name, number in processes.items():
        try:
            with open(f"/proc/{number}/statm", encoding="ascii") as file:
                told[name] = int(file.read().split()[1]) * os.sysconf("SC_PAGE_SIZE")
        except OSError:
            pass
    return told


def number_of(value):
    return int(value == "there") if isinstance(value, str) else value


def labelled(name, values):
    """The rows of a gauge that has several values."""
    full, label, meaning = LABELLED[name]
    return [f"# HELP ksi_{full} {meaning}", f"# TYPE ksi_{full} gauge", *(f'ksi_{full}{{{label}="{it}"}} {number_of(value)}' for it, value in values.items())]


def requests_of(counts):
    """The rows of the requests that were answered, by path and status."""
    rows = [f'ksi_requests_total{{path="{path}",status="{status}"}} {count}' for path, by_status in counts.items() for status, count in by_status.items()]
    return ["# HELP ksi_requests_total Requests that were answered, by path and status.", "# TYPE ksi_requests_total counter", *rows]


def histogram(name, spans):
    """The rows of a histogram."""
    rows = [f"# HELP ksi_{name} {HISTOGRAMS[name]}", f"# TYPE ksi_{name} histogram"]
    rows += [f'ksi_{name}_bucket{{le="{bound}"}} {count}' for bound, count in spans["within"].items()]
    return [*rows, f"ksi_{name}_sum {spans['sum']}", f"ksi_{name}_count {spans['count']}"]


def info_of(counters):
    """The rows of the versions, as the labels of a gauge that is always 1."""
    labels = f'version="{counters["version"]}",protocol="{counters["protocol"]}"'
    return ["# HELP ksi_build_info The version of the program, and of the protocol between machines.", "# TYPE ksi_build_info gauge", f"ksi_build_info{{{labels}}} 1"]


def prometheus(counters):
    rows = info_of(counters) if "version" in counters else []
    for name, value in counters.items():
        if name in TELLS:
            kind, tells = TELLS[name]
            full = f"ksi_{name}_total" if kind == "counter" else f"ksi_{name}"
            rows += [f"# HELP {full} {tells}", f"# TYPE {full} {kind}", f"{full} {int(value) if isinstance(value, bool) else value}"]
        elif name in LABELLED:
            rows += labelled(name, value)
        elif name in HISTOGRAMS:
            rows += histogram(name, value)
        elif name == "requests":
            rows += requests_of(value)
    return "\n".join(rows)
