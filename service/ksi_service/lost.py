"""A majority of a plan's cores is lost for good: another plan follows without their retirement.

The operator names each lost machine and gives the last print. The cores that are left retire to the next plan, and it begins once all
machines retired that have cores and are not named (`Before.is_over`). Nothing shows that the lost cores vote no more. So no claim is made
that a second has one root in both plans, and the next plan says how it began: in its file `succeeds`, in the book and in `status`."""
from typing import Set, Tuple

from .newest import NotNewest, line_of, print_in
from .plans import Before, Content
from .succession import NotRetired


class Answers(NotRetired):
    """A machine that was named as lost answers."""


class Later(NotRetired):
    """Somebody knows a later second than the print."""


def answering(host) -> Set[str]:
    """The other machines that are there, or that are reached."""
    return {it.name for it in host.peers.values() if it.is_there} | set(host.carrier.reachable() if host.carrier else ())


def see_machines(host, way: Before, content: Content) -> None:
    """Raises NotRetired unless the machines that are named are lost, all others are there, and the others have no majority."""
    me, lost = host.places.me, set(way.lost)
    cores = {it for it in host.places.nodes if way.content.cores_of(it)}
    silent = cores - lost - {me} - answering(host)
    for fault, reason in (
        (not lost <= cores, f"{' '.join(sorted(lost - cores))} is no machine of this plan that has a core"),
        (me in lost, f"{me} is this machine"),
        (bool(lost & set(content.nodes)), f"{' '.join(sorted(lost & set(content.nodes)))} has a part in the next plan: a new machine needs another name than a lost one"),
        (host.plan.is_majority(way.content.count_cores(cores - lost)), "the machines that are not named have a majority of the cores: run `succeed` without --lost"),
        (bool(silent), f"{' '.join(sorted(silent))} does not answer, and is not named as lost"),
    ):
        if fault:
            raise NotRetired(reason)
    if lost & answering(host):
        raise Answers(f"{' '.join(sorted(lost & answering(host)))} answers: it is not lost")


def held_to(host) -> int:
    """The last second to which a core of a machine that is there holds all."""
    ends = [it.next for it in host.cores.values()] + [end for it in host.peers.values() if it.is_there for end in it.next.values()]
    return max(ends, default=host.plan.start) - 1


async def root_of(host, publishing, second: int) -> str:
    """The root of the calendar to a second by a core of this machine, or no root."""
    for name in (it.name for it in host.cores.values() if it.next > second):
        root = await publishing.root_of(name, second)
        if root is not None:
            return root
    return ""


async def see_print(host, publishing, printed: str) -> Tuple[int, str]:
    """The print. Raises Later if a machine that is there knows a later second or another root."""
    try:
        second, root = print_in(printed)
    except NotNewest as fault:
        raise NotRetired(str(fault)) from None
    known = held_to(host)
    if not host.plan.start <= second <= host.plan.last_second:
        raise NotRetired(f"second {second} is not one of this plan")
    if second <= known:
        mine = await root_of(host, publishing, known)
        if not mine:
            raise NotRetired(f"the machines that are there hold all seconds to {known}, and no core of this one gives that root yet: ask again")
        if (second, root) != (known, mine):
            raise Later(f"the machines that are there know all seconds to {known}: print `{line_of(known, mine)}`, and give that line")
    return second, root


async def see(host, publishing, way: Before, content: Content) -> None:
    """Raises NotRetired unless the next plan may follow without a majority. Publishes the second of the print, if a core here holds it."""
    see_machines(host, way, content)
    for name in host.cores:
        # a host that waits for a majority did not ask its cores yet
        await host.look(name)
    second, _ = await see_print(host, publishing, way.printed)
    # what was looked at may have changed while a core was asked
    see_machines(host, way, content)
    if (publishing.publications.last() or 0) < second <= held_to(host):
        await publishing.publish(second)
