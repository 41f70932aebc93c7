"""Whether this machine's clock may be trusted to drive seconds.

Two things are watched. First the kernel's own report (`adjtimex`, as ntpd and chrony keep it): whether the clock is synchronised, and
by how much it may be wrong. Second a clock that was set: the difference between the time of day and the time since boot, which only
changes if somebody sets the clock. A host whose clock fails either test drives no second and takes no request; its core still votes."""
import ctypes
import time
from typing import Callable, NamedTuple, Optional

DEFAULT_BOUND = 0.5
"""The largest estimated error, in seconds, with which a host still drives."""
MOST_MOVED = 2.0
"""By how many seconds the clock may be set while the host runs."""
CHECK_EVERY = 1.0
"""For how many seconds a report of the kernel is used again."""

STATE_ERROR = 5
"""TIME_ERROR of adjtimex(2): the clock is not synchronised."""
STATUS_UNSYNCHRONISED = 0x0040
"""STA_UNSYNC of adjtimex(2)."""


class Timex(ctypes.Structure):
    """struct timex of <sys/timex.h>, on Linux with 64-bit longs."""

    _fields_ = [
        ("modes", ctypes.c_uint),
        ("offset", ctypes.c_long),
        ("freq", ctypes.c_long),
        ("maxerror", ctypes.c_long),
        ("esterror", ctypes.c_long),
        ("status", ctypes.c_int),
        ("constant", ctypes.c_long),
        ("precision", ctypes.c_long),
        ("tolerance", ctypes.c_long),
        ("seconds", ctypes.c_long),
        ("microseconds", ctypes.c_long),
        ("tick", ctypes.c_long),
        ("ppsfreq", ctypes.c_long),
        ("jitter", ctypes.c_long),
        ("shift", ctypes.c_int),
        ("stabil", ctypes.c_long),
        ("jitcnt", ctypes.c_long),
        ("calcnt", ctypes.c_long),
        ("errcnt", ctypes.c_long),
        ("stbcnt", ctypes.c_long),
        ("tai", ctypes.c_int),
        ("padding", ctypes.c_int * 11),
    ]


class Report(NamedTuple):
    """The kernel's report on its clock."""

    synchronised: bool
    error: float
    """The estimated error, in seconds."""


def kernel_report() -> Report:
    """Reads the kernel's report. It changes nothing and needs no right."""
    library = ctypes.CDLL(None, use_errno=True)
    timex = Timex()
    state = library.adjtimex(ctypes.byref(timex))
    if state < 0:
        number = ctypes.get_errno()
        raise OSError(number, "the kernel's clock cannot be read")
    synchronised = state != STATE_ERROR and not timex.status & STATUS_UNSYNCHRONISED
    return Report(synchronised, timex.esterror / 1e6)


def seconds_since_boot() -> float:
    return time.clock_gettime(time.CLOCK_BOOTTIME)


class ClockCheck:
    """Decides whether this machine's clock may drive. `fault` is the reason if it may not."""

    def __init__(
        self,
        bound: float = DEFAULT_BOUND,
        unchecked: bool = False,
        report: Callable[[], Report] = kernel_report,
        now: Callable[[], float] = time.time,
        since_boot: Callable[[], float] = seconds_since_boot,
    ) -> None:
        self.bound = bound
        self.unchecked = unchecked
        self.report = report
        self.now = now
        self.since_boot = since_boot
        self.booted = self.time_of_boot()
        """The time of day at boot, by the clock as it was when the host started or when the operator accepted it."""
        self.moved = False
        """Whether the clock was set since then."""
        self.read_at = float("-inf")
        self.last: Optional[str] = None

    def time_of_boot(self) -> float:
        return self.now() - self.since_boot()

    def shift(self) -> float:
        """By how many seconds the clock was set since the host started. It is positive if it was set ahead."""
        return self.time_of_boot() - self.booted

    def fault(self) -> Optional[str]:
        """Why this machine may not drive, or None. A clock that was set stays a fault, even if it is set back, until `accept`."""
        if abs(self.shift()) > MOST_MOVED:
            self.moved = True
        if self.moved:
            return f"the clock was set by {self.shift():+.1f} seconds while the host ran: check it, then run `ksi-service clock-accepted`"
        return None if self.unchecked else self.fault_of_kernel()

    def fault_of_kernel(self) -> Optional[str]:
        """The kernel is asked once a second."""
        if self.since_boot() - self.read_at >= CHECK_EVERY:
            self.read_at = self.since_boot()
            self.last = self.fault_in(self.report())
        return self.last

    def fault_in(self, report: Report) -> Optional[str]:
        if not report.synchronised:
            return "the kernel reports that the clock is not synchronised: start chrony or another time service, or use --clock-unchecked"
        if report.error > self.bound:
            return f"the clock may be wrong by {report.error:.3f} seconds, more than --clock-bound {self.bound:g}"
        return None

    def accept(self) -> None:
        """The operator has checked the clock: it counts from its present time."""
        self.booted = self.time_of_boot()
        self.moved = False

    def described(self) -> dict:
        """The fields that `status` and the first entry of a record's file show."""
        return {"bound": self.bound, "checked": not self.unchecked}
