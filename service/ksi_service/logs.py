"""Log lines of a running service: one line an event on stderr, with its level if that is above `info`."""
import logging


class Lines(logging.Formatter):
    """The message, after the level's name if that is above `info`. journald adds the time."""

    def format(self, record: logging.LogRecord) -> str:
        text = super().format(record)
        return text if record.levelno <= logging.INFO else f"{record.levelname.lower()}: {text}"


def begin(level: int = logging.INFO) -> None:
    """Sends log lines of this level and above to stderr. A line that cannot be written, as on a full disk, is dropped."""
    logging.raiseExceptions = False
    handler = logging.StreamHandler()
    handler.setFormatter(Lines())
    logging.basicConfig(level=level, handlers=[handler])
