"""Progress of a long command on standard error: a bar of Debian's python3-tqdm on a terminal, otherwise a line now and then."""
import sys
import threading
import time
from typing import Any

TERMINAL_SECONDS, LINE_SECONDS = 0.2, 10.0


def size_of(count: float) -> str:
    for unit in ("bytes", "kB", "MB", "GB"):
        if count < 1000:
            return f"{count:,.0f} {unit}" if unit == "bytes" else f"{count:,.1f} {unit}"
        count /= 1000
    return f"{count:,.1f} TB"


def bar() -> Any:
    """A bar on the terminal, or None."""
    if not sys.stderr.isatty():
        return None
    try:
        from tqdm import tqdm  # pylint: disable=import-outside-toplevel
    except ImportError:
        return None
    return tqdm(unit=" files", file=sys.stderr, mininterval=TERMINAL_SECONDS, dynamic_ncols=True, leave=False)


class Progress:
    """Counts files and bytes, from several threads too."""

    def __init__(self, does: str, wanted: bool = True) -> None:
        self.does = does
        self.wanted = wanted
        self.bar = bar() if wanted else None
        self.files = 0
        self.bytes = 0
        self.began = self.shown = time.monotonic()
        self.lock = threading.Lock()

    def read(self, count: int) -> None:
        """More bytes were read."""
        with self.lock:
            self.bytes += count
        self.show()

    def done(self, files: int) -> None:
        """That many files are done in all."""
        with self.lock:
            more, self.files = files - self.files, files
        if self.bar is not None:
            self.bar.update(more)
        self.show()

    def show(self) -> None:
        now = time.monotonic()
        if not self.wanted or now - self.shown < (LINE_SECONDS if self.bar is None else TERMINAL_SECONDS):
            return
        self.shown = now
        if self.bar is not None:
            self.bar.set_postfix_str(f"{size_of(self.bytes)} read", refresh=True)
        else:
            print(f"{self.does}: {self.files:,} files, {size_of(self.bytes)} read, {now - self.began:.0f} s", file=sys.stderr, flush=True)

    def say(self, line: str) -> None:
        """Prints a line without disturbing the bar."""
        if self.bar is not None:
            self.bar.write(line, file=sys.stderr)
        else:
            print(line, file=sys.stderr, flush=True)

    def close(self) -> None:
        if self.bar is not None:
            self.bar.close()
