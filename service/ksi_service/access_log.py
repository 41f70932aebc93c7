"""The log of requests, if it is wanted: one JSON line for each answer. It goes on in a new file after the old one was moved."""
import json
import logging
import logging.handlers
import time
from typing import Any

from .answers import Answer


class AccessLog:
    def __init__(self, path: str) -> None:
        self.handler = logging.handlers.WatchedFileHandler(path, encoding="utf-8")
        self.handler.setFormatter(logging.Formatter("%(message)s"))
        # a log that cannot be written ends nothing
        self.handler.handleError = lambda record: None  # type: ignore[method-assign]

    def add(self, request: Any, answer: Answer) -> None:
        row = {
            "time": time.strftime("%Y-%m-%dT%H:%M:%SZ", time.gmtime()),
            "id": request.id,
            "client": request.caller.name if request.caller else None,
            "address": request.caller.address if request.caller else None,
            "method": request.method,
            "path": request.path,
            "status": answer.status.value,
            "hashes": len(request.imprints),
            "second": request.second,
            "milliseconds": round((time.monotonic() - request.began) * 1000, 1),
        }
        self.handler.emit(logging.makeLogRecord({"msg": json.dumps(row)}))

    def close(self) -> None:
        self.handler.close()
