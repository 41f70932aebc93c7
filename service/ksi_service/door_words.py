"""The words of the command that say who may use the door, and how."""
import os
from typing import List, NamedTuple, Optional, Tuple

from .access import Access
from .access_log import AccessLog
from .clients import Clients
from .command_words import Failed
from .door import Door
from .door_tls import DoorCertificate


class DoorWords(NamedTuple):
    clients: Optional[str] = None
    """The file of clients; otherwise `clients` in the folder."""
    proxies: Tuple[str, ...] = ()
    is_open: bool = False
    host_names: Tuple[str, ...] = ()
    certificate: Optional[str] = None
    key: Optional[str] = None
    access_log: Optional[str] = None
    names: bool = False
    """Whether the names of clients are hashed with their hashes."""

    def clients_in(self, folder: str) -> str:
        return self.clients or os.path.join(folder, "clients")

    def access(self, folder: str) -> Access:
        try:
            return Access(Clients(self.clients_in(folder)), self.proxies, self.is_open, self.host_names, self.names)
        except ValueError as fault:
            raise Failed(f"--trusted-proxy: {fault}") from None

    def see(self, folder: str, address: Tuple[str, int]) -> None:
        """Raises OpenDoor if nothing says who may use a door at an address."""
        self.access(folder).see_address(*address)

    def door(self, house, most: int, folder: str) -> Door:
        access = self.access(folder)
        certificate = DoorCertificate(self.certificate, self.key) if self.certificate and self.key else None
        return Door(house, most, access=access, certificate=certificate, log_to=AccessLog(self.access_log) if self.access_log else None)


def words_of(words) -> DoorWords:
    if bool(words.door_certificate) != bool(words.door_key):
        raise Failed("--door-certificate and --door-key go together")
    return DoorWords(words.clients, tuple(words.trusted_proxy), words.open_door, tuple(words.host_name), words.door_certificate, words.door_key, words.access_log, words.name_clients)


def listed(name: str) -> List[str]:
    """The words of a variable of the environment."""
    return os.environ.get(name, "").split()


def add_door_words(one) -> None:
    one.add_argument("--clients", default=os.environ.get("KSI_CLIENTS"), metavar="FILE", help="the file of clients and their keys; otherwise `clients` in the folder, if it is there")
    one.add_argument("--trusted-proxy", action="append", default=listed("KSI_TRUSTED_PROXY"), metavar="ADDRESS", help="a reverse proxy that lets only the right clients in, and adds X-Forwarded-For; may be given again")
    one.add_argument("--open-door", action="store_true", default=os.environ.get("KSI_OPEN_DOOR", "").lower() in ("yes", "1", "true"), help="let whoever reaches the door use it, as in a private network")
    one.add_argument("--host-name", action="append", default=listed("KSI_HOST_NAMES"), metavar="NAME", help="a name of the door that clients send as Host; may be given again. Its address and the names of the loopback count too")
    one.add_argument("--door-certificate", default=os.environ.get("KSI_DOOR_CERTIFICATE"), metavar="FILE", help="serve HTTPS with this certificate; it is read again after it changed")
    one.add_argument("--door-key", default=os.environ.get("KSI_DOOR_KEY"), metavar="FILE", help="its key")
    one.add_argument("--name-clients", action="store_true", default=os.environ.get("KSI_NAME_CLIENTS", "").lower() in ("yes", "1", "true"), help="hash the name of each client with its hashes: its signatures show the name to everybody")
    one.add_argument("--access-log", default=os.environ.get("KSI_ACCESS_LOG"), metavar="FILE", help="log each request to this file, as a JSON line")
