"""The counters of a mirror in Prometheus' text form."""
import time
from typing import Any, Dict, List

from .source import STATES

TELLS = {
    "last_second": ("gauge", "The last second of the mirror's calendar."),
    "publications": ("gauge", "Publications that the mirror recomputed."),
    "last_publication": ("gauge", "The last second that was published."),
    "forks": ("gauge", "Forks with evidence. Any is an alarm."),
    "frozen": ("gauge", "1 if the mirror takes nothing new, since its sources show two calendars."),
    "faults": ("counter", "How often a source was found at fault since the start."),
    "probes_extended": ("counter", "Probes that were extended since the start."),
    "probes_failed": ("counter", "Probes that could not be signed, extended or verified since the start."),
    "probe_waiting_seconds": ("gauge", "The age of the oldest probe that is not extended yet."),
    "anchored_second": ("gauge", "The last publication that was anchored outside."),
    "anchored_age_seconds": ("gauge", "Seconds since a publication was last anchored outside, or since the start if none was."),
    "anchors_failed": ("counter", "Runs of --on-publication that failed since the start."),
}


def label(text: str) -> str:
    return text.replace("\\", "\\\\").replace('"', '\\"').replace("\n", "\\n")


def prometheus(counters: Dict[str, Any]) -> str:
    rows: List[str] = []
    for name, (kind, tells) in TELLS.items():
        if name in counters:
            full = f"ksi_mirror_{name}_total" if kind == "counter" else f"ksi_mirror_{name}"
            rows += [f"# HELP {full} {tells}", f"# TYPE {full} {kind}", f"{full} {int(counters[name])}"]
    rows += ["# HELP ksi_mirror_look_age_seconds Seconds since all sources were last looked at.", "# TYPE ksi_mirror_look_age_seconds gauge",
             f"ksi_mirror_look_age_seconds {int(time.time() - counters['looked'])}"]
    rows += ["# HELP ksi_mirror_source Whether a source is in a state.", "# TYPE ksi_mirror_source gauge"]
    for it in counters["sources"]:
        kind = "service" if it["is_door"] else "mirror"
        rows += [f'ksi_mirror_source{{url="{label(it["url"])}",kind="{kind}",state="{state}"}} {int(it["state"] == state)}' for state in STATES]
    return "\n".join(rows)
