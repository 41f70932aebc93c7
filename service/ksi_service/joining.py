"""The options by which `run` is one of several machines: its name, the others, and the carrier to them."""
import importlib.util
import os
import subprocess
import sys
from typing import Any, Callable, Dict, NamedTuple, Optional

from . import certificates, files, plans
from .errors import NeedsOperator, ServiceError
from .places import Places
from .plan import Plan
from .service import Service


DEBIANS = "/usr/bin/python3"
"""The Python that has Debian's packages."""


class NotJoined(ServiceError):
    """The files of a machine are not complete."""


class OtherPlan(NeedsOperator):
    """The folder has another plan than the one that was brought."""


class Words(NamedTuple):
    """The words of the command: paths, the machine's name, and the URL of a server. Only the file of machines has to be given."""

    machines: str
    certificate: Optional[str] = None
    key: Optional[str] = None
    authority: Optional[str] = None
    machine: Optional[str] = None
    over: Optional[str] = None

    def beside(self, name: str) -> str:
        """A file next to the file of machines."""
        return os.path.join(os.path.dirname(os.path.abspath(self.machines)), name)


def certificate_of(words: Words) -> str:
    """The machine's certificate: the one that is named, or else the only one with a key next to the file of machines."""
    if words.certificate:
        return words.certificate
    folder = words.beside("")
    found = [it for it in sorted(os.listdir(folder)) if it.endswith(".crt") and it != "authority.crt" and os.path.exists(words.beside(f"{it[:-4]}.key"))]
    if len(found) != 1:
        raise NotJoined(f"{folder} has {len(found)} certificates with a key, and this machine needs its own: bring it there, or name it by --certificate")
    return words.beside(found[0])


def credentials_of(words: Words):
    """The paths of the certificate, of its key, and of the authority's certificate."""
    from .carrier_https import Credentials
    certificate = certificate_of(words)
    return Credentials(certificate, words.key or f"{os.path.splitext(certificate)[0]}.key", words.authority or words.beside("authority.crt"))


def carrier_of(words: Words, me: str, places: Places, plan: Plan, former: Dict[str, str]):
    """HTTPS from host to host, or the server that was asked for. Each needs a package, which is named if it is missing. Machines of the
    plan before that have no part any more may connect too: they learn of this plan."""
    if words.over:
        from .carrier_redis import RedisCarrier
        return RedisCarrier(me, places.neighbours(plan), words.over)
    from .carrier_https import HttpsCarrier
    near = {it: places.addresses[it] for it in (me, *places.neighbours(plan))}
    return HttpsCarrier(me, {**former, **near}, credentials_of(words))


def use_python_with(package: str) -> None:
    """Runs this command again by Debian's Python if that has a package which this one, somebody's own, lacks."""
    is_own = importlib.util.find_spec(package) is None and os.path.realpath(sys.executable) != os.path.realpath(DEBIANS)
    if is_own and os.path.isfile(sys.argv[0]) and os.path.exists(DEBIANS):
        if subprocess.run([DEBIANS, "-c", f"import {package}"], capture_output=True, check=False).returncode == 0:
            os.execv(DEBIANS, [DEBIANS, *sys.argv])


def take_plan(words: Words, folder: str) -> None:
    """Copies the plan that was brought with the file of machines to the machine's folder, at its first start. If it succeeds another
    plan, the file that names that one comes with it. The plan may also be the last one that was begun over the folder, or one that is to
    succeed the folder's plan of one machine."""
    brought = files.content_of(words.beside("plan"))
    path = os.path.join(folder, "plan")
    kept = files.content_of(path)
    if None not in (brought, kept) and brought not in [files.content_of(os.path.join(it, "plan")) for it in plans.chain_of(folder)] and not grows(words, folder):
        raise OtherPlan(f"{path} is another plan than {words.beside('plan')}: another plan needs another folder")
    if brought is None and kept is None:
        raise NotJoined(f"{words.beside('plan')}: no such file; `ksi-service plan` writes it together with {words.machines}")
    succeeds = files.content_of(words.beside("succeeds"))
    if kept is None:
        files.make_folder(folder)
        if succeeds is not None:
            files.write(os.path.join(folder, "succeeds"), succeeds)
        files.write(path, brought)
    elif succeeds is not None and brought == kept and files.content_of(os.path.join(folder, "succeeds")) != succeeds:
        raise OtherPlan(f"{folder} was begun without {words.beside('succeeds')}, which names the plan before, or with another one: begin in an empty folder")


def grows(words: Words, folder: str) -> bool:
    """Whether the plan that was brought is to succeed the newest plan of a folder, which is of one machine."""
    succeeds = files.content_of(words.beside("succeeds"))
    before = plans.Before.parsed(succeeds.decode("ascii", "replace")) if succeeds else None
    kept = files.content_of(os.path.join(plans.newest(folder), "plan"))
    return before is not None and before.alone != "" and kept is not None and before.content.plan.text().encode() == kept


def maker(words: Words) -> Callable[..., Service]:
    """Makes the service of one of several machines."""
    me = words.machine or certificates.name_of(certificate_of(words))

    def make(folder: str, plan: Plan, **options: Any) -> Service:
        # the folder of a plan that succeeded another one on this machine has its own machines
        own = os.path.join(folder, "machines")
        if not os.path.exists(own) and grows(words, folder):
            made = Service(folder, plan, **options)
            made.host.succession.grows_as = me
            return made
        places = Places.read(own if os.path.exists(own) else words.machines, me, plan)
        before = plans.Before.read(folder)
        former = before.content.addresses if before else {}
        return Service(folder, plan, places=places, carrier=carrier_of(words, me, places, plan, former), **options)
    return make
