"""The command `succeed`: another plan follows that of a running service."""
import json
import os
import urllib.error
import urllib.request

from . import asking, files
from .command_words import DEFAULT, WORDS, Failed
from .lost import Answers, Later
from .newest import ANSWER_SECONDS, NoAnswer, line_of, print_in, published_at
from .plans import Before, newest
from .proved import Refused
from .succession import NotRetired

FILES = "plan", "machines", "succeeds"


def succeed(words):
    """Lets the cores of a running service retire to the plan of a folder. Status 3 if they do not: the service goes on."""
    contents = {name: files.content_of(os.path.join(words.next, name)) for name in FILES}
    if contents["plan"] is None:
        raise Failed(f"{os.path.join(words.next, 'plan')}: no such file; `ksi-service plan` writes it")
    if words.never:
        print(f"all machines of the plan {asked(words, 'never', contents)[:16]} recorded that they never start it; a machine that retired to it and runs this command is free")
        return
    if words.lost or words.print or words.ask:
        contents["succeeds"] = without_majority(words, contents["succeeds"])
    second, name = asked(words, "succeed", contents).split(" ")
    if words.lost:
        keep_way(words.next, contents["succeeds"])
    needs = "all machines that are not lost have" if words.lost else "a majority of the cores has"
    print(f"this machine's cores retired at second {second}; the plan {name[:16]} begins at second {int(second) + 1}, once {needs} retired to it")


def running(folder):
    """The service over a folder, which may wait for a majority of the cores."""
    try:
        return asking.Running(folder)
    except Refused:
        return asking.Running(folder, at=asking.WAITING)


def asked(words, question, contents):
    """The answer of the running service to a question about the next plan. Raises NotRetired if it refuses."""
    with running(newest(words.folder)) as service:
        kind, _, text = service.told(f"{question} " + " ".join(it.hex() if it else "-" for it in contents.values()))[0].partition(" ")
    if kind == "refused":
        raise NotRetired(text)
    return text


def without_majority(words, content):
    """The file `succeeds` of a plan that follows although a majority of the cores is lost. Asks doors and mirrors."""
    if not words.lost or not words.print:
        raise Failed("--lost names the lost machines and --print the last print: a plan without a majority needs both")
    if content is None:
        raise Failed(f"{os.path.join(words.next, 'succeeds')}: no such file; `ksi-service plan NEXT .. --of OLD` writes it")
    before = Before.parsed(content.decode("ascii", "replace"))
    way = before.by({"lost": words.lost, "print": line_of(*print_in(words.print))})
    if before.lost and before != way:
        raise Failed(f"{words.next} follows after {' '.join(before.lost)} was lost, after the print of {before.printed}: another plan needs another folder")
    for url in words.ask:
        see_url(url, way)
    return way.text().encode()


def see_url(url, way):
    """Raises NotRetired if a door or a mirror is that of a lost machine, knows a later publication than the print or another one for its
    second, or does not answer."""
    if machine_at(url) in way.lost:
        raise Answers(f"{url} is the door of {machine_at(url)}, which is not lost")
    try:
        published = published_at(url)
    except NoAnswer as reason:
        if str(reason) != "it answers 404":
            raise NotRetired(f"{url} has to say which publications it knows, and does not: {reason}. Leave it out only if it is lost") from None
        published = []
    second, root = print_in(way.printed)
    for it in published:
        if it[0] > second or it[0] == second and it[1] != root:
            raise Later(f"{url} knows another publication than the print: `{line_of(*it)}`. Give that one, if it is of this service")


def machine_at(url):
    """The machine whose door a URL is, if it says so."""
    try:
        with urllib.request.urlopen(f"{url.rstrip('/')}/status", timeout=ANSWER_SECONDS) as answer:
            return json.load(answer).get("machine")
    except (OSError, ValueError, AttributeError, urllib.error.HTTPError):
        return None


def keep_way(folder, content):
    """Writes the file `succeeds` with the lost machines, also into the folders of new machines."""
    for name in [folder, *(os.path.join(folder, it) for it in sorted(os.listdir(folder)))]:
        path = os.path.join(name, "succeeds")
        if os.path.exists(path):
            files.write(path, content)


def add_commands(commands):
    one = commands.add_parser("succeed", help="let the next plan follow that of the running service")
    one.add_argument("next", metavar="NEXT", help="the folder of the next plan, as `ksi-service plan` writes it")
    one.add_argument("--folder", default=DEFAULT, help=WORDS["folder"])
    one.add_argument("--never", action="store_true", help="give up NEXT, to which no majority retired: all its machines record that they never start it, and this one is free again")
    one.add_argument("--lost", nargs="+", action="extend", default=[], metavar="NAME", help="a majority of the cores is lost for good: the lost machines, all of them")
    one.add_argument("--print", metavar="'SECOND ROOT'", help="with --lost: the last print, as `ksi-service publications` printed it")
    one.add_argument("--ask", nargs="+", action="extend", default=[], metavar="URL", help="with --lost: doors and mirrors to ask whether they know a later publication")
    one.set_defaults(does=succeed)
