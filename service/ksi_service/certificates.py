"""An authority of the operator's own and a certificate for each machine, made by `openssl`.

A certificate has the machine's name twice: as its common name, by which a host knows who sends, and as a DNS name, by which it knows
whom it reached. It has no address, so a machine may move. The authority certifies nothing else: whoever has a certificate of it may
speak for the nodes of the machine that it names."""
import os
import re
import subprocess
from typing import Optional, Sequence

from . import files
from .places import text_for
from .errors import ServiceError

DAYS = 3650
NAME = re.compile(r"[A-Za-z]([A-Za-z0-9-]{0,61}[A-Za-z0-9])?")
"""A machine's name: one label of a host name (RFC 1123, 2.1) that begins with a letter."""
KEY = ["-newkey", "ec", "-pkeyopt", "ec_paramgen_curve:P-256", "-nodes"]


class NotCertified(ServiceError):
    """A certificate was not made or cannot be read."""


def openssl(*words: str) -> str:
    """Runs `openssl` and returns its output. Raises NotCertified with its reason."""
    try:
        ran = subprocess.run(["openssl", *words], stdin=subprocess.DEVNULL, capture_output=True, text=True, check=False)
    except FileNotFoundError:
        raise NotCertified("the program openssl is missing: apt-get install openssl") from None
    if ran.returncode:
        reason = (ran.stderr.strip().splitlines() or [f"status {ran.returncode}"])[-1]
        raise NotCertified(f"openssl {words[0]}: {reason}")
    return ran.stdout


def make_authority(folder: str, days: int = DAYS) -> bool:
    """Makes authority.crt and authority.key, unless the folder has them. Returns whether it made them."""
    certificate = os.path.join(folder, "authority.crt")
    key = os.path.join(folder, "authority.key")
    if os.path.exists(certificate) and os.path.exists(key):
        return False
    if os.path.exists(certificate):
        raise NotCertified(f"{key} is not there, and {certificate} is: bring the key, or choose another folder")
    openssl("req", "-x509", *KEY, "-days", str(2 * days), "-subj", "/CN=ksi machines", "-addext", "basicConstraints=critical,CA:TRUE,pathlen:0",
            "-addext", "keyUsage=critical,keyCertSign,cRLSign", "-keyout", key, "-out", certificate)
    return True


def make_certificate(folder: str, machine: str, days: int = DAYS, authority: Optional[str] = None) -> None:
    """Makes the folder of a machine: its certificate and key by the authority of the folder above or of another one, and the other files that it needs from above."""
    made = os.path.join(folder, machine)
    authority = authority or folder
    files.make_folder(made)
    certify(authority, machine, days, os.path.join(made, f"{machine}.crt"), *KEY, "-keyout", os.path.join(made, f"{machine}.key"))
    copy_files(folder, machine, authority)


def certify(authority: str, machine: str, days: int, out: str, *words: str) -> None:
    """Makes a certificate for a machine's name, for a new key or that of a request."""
    openssl("req", "-x509", *words, "-days", str(days), "-CA", os.path.join(authority, "authority.crt"), "-CAkey", os.path.join(authority, "authority.key"),
            "-subj", f"/CN={machine}", "-addext", "basicConstraints=critical,CA:FALSE", "-addext", f"subjectAltName=DNS:{machine}",
            "-addext", "extendedKeyUsage=serverAuth,clientAuth", "-out", out)


def copy_files(folder: str, machine: str, authority: str) -> None:
    """Copies the other files that a machine needs to its folder. A gateway's file of machines has no other gateways."""
    for name in ("plan", "machines", "succeeds", "authority.crt"):
        path = os.path.join(authority if name == "authority.crt" else folder, name)
        content = text_for(path, machine) if name == "machines" else files.content_of(path)
        if content is not None:
            files.write(os.path.join(folder, machine, name), content)


def make_request(folder: str, machine: str) -> str:
    """Makes MACHINE.key, which only its user can read, and the request MACHINE.csr. Returns the path of the request."""
    see_name(machine)
    files.make_folder(folder)
    key, request = (os.path.join(folder, f"{machine}.{end}") for end in ("key", "csr"))
    if os.path.lexists(key):
        raise NotCertified(f"{key} is there already, and is not replaced")
    openssl("req", "-new", *KEY, "-subj", f"/CN={machine}", "-keyout", key, "-out", request)
    return request


def sign_request(folder: str, machine: str, request: str, days: int = DAYS) -> None:
    """Makes the folder of a machine, without a key: its certificate by a request, and the other files that it needs. Of the request only
    the key is used, and the name compared."""
    see_names(folder, [machine])
    if not os.path.exists(request):
        raise NotCertified(f"{request}: no such file; `ksi-service certificates OUT {machine} --request` makes it on that machine")
    subject = openssl("req", "-in", request, "-verify", "-noout", "-subject", "-nameopt", "multiline")
    if common_name_in(subject) != machine:
        raise NotCertified(f"{request} is not a request of {machine}, but of '{common_name_in(subject)}'")
    if not os.path.exists(os.path.join(folder, "authority.key")):
        raise NotCertified(f"{folder} has no authority.key: sign where `ksi-service certificates` made it")
    files.make_folder(os.path.join(folder, machine))
    certify(folder, machine, days, os.path.join(folder, machine, f"{machine}.crt"), "-in", request)
    copy_files(folder, machine, folder)


def see_name(machine: str) -> None:
    if not NAME.fullmatch(machine):
        raise NotCertified(f"'{machine}' is not a machine's name: letters, digits and '-', a letter first")


def common_name_in(subject: str) -> Optional[str]:
    """The common name in a subject as openssl prints it on several lines."""
    found = re.search(r"(?m)^\s*commonName\s*= (.*)$", subject)
    return found[1] if found else None


def see_names(folder: str, machines: Sequence[str]) -> None:
    """Whether these are names of machines that have no certificate here yet."""
    for machine in machines:
        see_name(machine)
        if os.path.lexists(os.path.join(folder, machine)):
            raise NotCertified(f"{os.path.join(folder, machine)} is there already, and is not replaced")
    if len({it.lower() for it in machines}) < len(machines):
        raise NotCertified("two machines have one name: capital letters make no difference in host names")


def make_all(folder: str, machines: Sequence[str], days: int = DAYS) -> None:
    """Makes an authority, if the folder has none, and a folder for each machine in it. Nothing is made if a name is wrong."""
    files.make_folder(folder)
    see_names(folder, machines)
    make_authority(folder, days)
    for machine in machines:
        make_certificate(folder, machine, days)


def name_of(certificate: str) -> str:
    """The common name of a certificate file: which machine it is."""
    if not os.path.exists(certificate):
        raise NotCertified(f"{certificate}: no such file; `ksi-service certificates` makes it")
    subject = openssl("x509", "-in", certificate, "-noout", "-subject", "-nameopt", "multiline")
    found = common_name_in(subject)
    if found is None or not NAME.fullmatch(found):
        raise NotCertified(f"{certificate} has no machine's name as its common name")
    return found
