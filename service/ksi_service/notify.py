"""Reports to systemd that a service is ready, as a unit of Type=notify wants (sd_notify(3)). Without systemd it does nothing."""
import logging
import os
import socket

log = logging.getLogger(__name__)


def notify(state: str) -> None:
    """Sends a state, as READY=1, to the socket that NOTIFY_SOCKET names. An @ begins an abstract name."""
    address = os.environ.get("NOTIFY_SOCKET")
    if not address:
        return
    try:
        with socket.socket(socket.AF_UNIX, socket.SOCK_DGRAM) as sender:
            sender.sendto(state.encode(), "\0" + address[1:] if address[0] == "@" else address)
    except OSError as error:
        log.warning("systemd takes no %s: %s", state, error)
