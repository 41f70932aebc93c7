"""TLS of a door by a certificate and a key in files, which are read again after they changed."""
import logging
import ssl
from typing import Optional

from .errors import NeedsOperator
from .watching import Watch

log = logging.getLogger(__name__)

HANDSHAKE_SECONDS = 15.0
"""How long a client may take until its first request can be read."""


class BadCertificate(NeedsOperator):
    """The certificate or the key cannot be used."""


def context_of(certificate: str, key: str) -> ssl.SSLContext:
    context = ssl.SSLContext(ssl.PROTOCOL_TLS_SERVER)
    context.minimum_version = ssl.TLSVersion.TLSv1_2
    context.set_alpn_protocols(["http/1.1"])
    try:
        context.load_cert_chain(certificate, key)
    except (OSError, ssl.SSLError) as fault:
        raise BadCertificate(f"{certificate} with {key}: {fault}") from None
    return context


class DoorCertificate:
    def __init__(self, certificate: str, key: str) -> None:
        self.certificate = certificate
        self.key = key
        self.watch = Watch(certificate, key)
        self.watch.has_changed()
        self.last = context_of(certificate, key)

    def context(self) -> Optional[ssl.SSLContext]:
        """The context for a new connection. While the new files cannot be used, as between the writes of both, the old ones count."""
        if self.watch.has_changed():
            try:
                self.last = context_of(self.certificate, self.key)
            except BadCertificate as fault:
                log.error("the door keeps its certificate: %s", fault)
        return self.last
