"""Who may use a door: the loopback, clients with a key, those that a trusted proxy lets in, or everybody.

Paths that give what is published anyway are for all. The name in a request's `Host` has to be one of the door's: otherwise a page of another
site, whose name leads to this address, could use the door by a visitor's browser."""
import functools
import ipaddress
import socket
from typing import FrozenSet, Iterable, NamedTuple, Optional

from .answers import Refusal
from .clients import Client, Clients
from .errors import NeedsOperator
from .plan import NAME
from .routes import Route

LOOPBACK_NAMES = frozenset(["localhost", "127.0.0.1", "::1"])
BEARER = "bearer "


class OpenDoor(NeedsOperator):
    """The door would be open to others, and nobody said that it may."""


class Caller(NamedTuple):
    """Who sent a request."""

    address: str
    """By the connection, or by the proxy that is trusted; empty if the proxy does not say."""
    client: Optional[Client]
    is_local: bool
    """Whether it is a process of this machine."""
    signs_as: Optional[str] = None
    """The name that is hashed with its hashes."""

    @property
    def name(self) -> Optional[str]:
        return self.client.name if self.client else None

    def take(self, count: int) -> None:
        """Counts hashes. Raises a Refusal if the client is over its rate."""
        if self.client:
            self.client.take(count)


@functools.lru_cache(4096)
def is_loopback(address: str) -> bool:
    try:
        return ipaddress.ip_address(plain(address)).is_loopback
    except ValueError:
        return False


@functools.lru_cache(4096)
def plain(address: str) -> str:
    """An address as it is usually written. An IPv4 address in the form of IPv6 is the IPv4 address. Raises ValueError if it is none."""
    it = ipaddress.ip_address(address.split("%")[0])
    return str(getattr(it, "ipv4_mapped", None) or it)


def name_in(host: str) -> str:
    """The name of a `Host` without its port, in lower case."""
    host = host.strip().lower()
    if host.startswith("["):
        return host[1:].split("]")[0]
    return host.rsplit(":", 1)[0] if ":" in host else host


class Access:
    def __init__(self, clients: Optional[Clients] = None, proxies: Iterable[str] = (), is_open: bool = False, host_names: Optional[Iterable[str]] = (),
                 names: bool = False) -> None:
        self.clients = clients
        self.names = names
        """Whether the names of clients are hashed with their hashes."""
        self.proxies: FrozenSet[str] = frozenset(plain(it) for it in proxies)
        self.is_open = is_open
        self.host_names = None if host_names is None else LOOPBACK_NAMES.union(name.lower() for name in host_names)
        """The names that `Host` may have besides the address of the connection, or None if it may have any."""

    def has_keys(self) -> bool:
        return self.clients is not None and self.clients.are_there

    def see_address(self, host: str, port: int) -> None:
        """Raises OpenDoor if others than this machine could use a door at this address, and nothing says who may."""
        if self.has_keys() or self.proxies or self.is_open:
            return
        found = {row[4][0] for row in socket.getaddrinfo(host, port, type=socket.SOCK_STREAM)}
        if not all(map(is_loopback, found)):
            raise OpenDoor(f"the door at {host}:{port} would be open to other machines: add clients (`ksi-service client add NAME`), "
                           "or name a proxy that lets only the right ones in (--trusted-proxy ADDRESS), or say that it may be open (--open-door)")

    def caller(self, request, route: Route) -> Caller:
        """Who sent a request. Raises a Refusal if the caller may not use the route, or the request is not for this door."""
        writer = request.connection.writer
        peer = plain(writer.get_extra_info("peername")[0])
        is_proxied = peer in self.proxies
        if not is_proxied:
            self.see_host(request.host, writer.get_extra_info("sockname")[0])
        address = forwarded(request.headers) if is_proxied else peer
        is_local = is_loopback(address)
        client = self.client_of(request, route, is_local, is_proxied)
        return Caller(address, client, is_local, self.name_of(client))

    def name_of(self, client: Optional[Client]) -> Optional[str]:
        """The name of a client that signs by name. A name with `@` is none in a tree."""
        return client.name if self.names and client and NAME.fullmatch(client.name) else None

    def see_host(self, host: str, own: str) -> None:
        if self.host_names is None or not host:
            return
        name = name_in(host)
        if name not in self.host_names and name != plain(own):
            raise Refusal("host-not-allowed", f"this door has not the name {name}: --host-name adds one")

    def client_of(self, request, route: Route, is_local: bool, is_proxied: bool) -> Optional[Client]:
        if self.clients is not None:
            self.clients.look()
        if self.has_keys():
            given = request.headers.get("authorization", "")
            if given.lower().startswith(BEARER):
                client = self.clients.of_key(given[len(BEARER):].strip())
                if client is None and not route.is_public:
                    raise Refusal("key-unknown", "no client has this key", WWW_Authenticate='Bearer error="invalid_token"')
                return client
            if not route.is_public and not (route.is_counter and is_local):
                raise Refusal("key-required", "a client sends its key as Authorization: Bearer KEY", WWW_Authenticate="Bearer")
        elif not (route.is_public or is_local or is_proxied or self.is_open):
            raise Refusal("client-not-allowed", "this door is for its own machine, and for those that a trusted proxy lets in")
        return None


def forwarded(headers) -> str:
    """The address of the client that a trusted proxy adds at the end of X-Forwarded-For, or nothing."""
    text = headers.get("x-forwarded-for", "").rsplit(",", 1)[-1].strip()
    try:
        return plain(text)
    except ValueError:
        return ""
