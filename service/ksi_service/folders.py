"""The folders of a plan's machines, read as one run while no service runs over them."""
import os
from typing import Dict, Iterator, List, Sequence, Set, Union

from . import files, merging
from .errors import ServiceError
from .plan import Plan
from .record import Step, told


class NotOneRun(ServiceError):
    """The folders are not all those of one run."""


class Folders:
    """One folder, or the folders of all machines of a plan. Which nodes a folder has is seen by their files of facts."""

    def __init__(self, folders: Union[str, Sequence[str]]) -> None:
        self.paths: List[str] = [folders] if isinstance(folders, str) else list(folders)
        self.plan_path = os.path.join(self.paths[0], "plan")
        self.plan = Plan.read(self.plan_path)
        for path in self.paths[1:]:
            if files.content_of(os.path.join(path, "plan")) != files.content_of(self.plan_path):
                raise NotOneRun(f"{path} is of another plan than {self.paths[0]}")
        self.of_node: Dict[str, str] = {}
        """The folder of each node."""
        for path in self.paths:
            for name in self.plan.names():
                if os.path.exists(os.path.join(path, f"{name}.facts")):
                    self.add(name, path)

    def add(self, name: str, path: str) -> None:
        if name in self.of_node:
            raise NotOneRun(f"both {self.of_node[name]} and {path} have the node {name}")
        self.of_node[name] = path

    @property
    def records(self) -> List[str]:
        return [os.path.join(path, "record") for path in self.paths]

    @property
    def missing(self) -> List[str]:
        """The nodes of the plan that none of the folders has."""
        return [name for name in self.plan.names() if name not in self.of_node]

    def nodes_of(self, path: str) -> List[str]:
        return [name for name in self.plan.names() if self.of_node.get(name) == path]

    @property
    def cores(self) -> List[str]:
        return [name for name in self.plan.names() if name[0] == "c" and name in self.of_node]

    def is_of_others(self) -> bool:
        """Whether this is the folder of one of several machines: other machines have nodes of the plan."""
        return len(self.paths) == 1 and bool(self.missing) and bool(self.of_node)

    def see_all(self) -> None:
        """Raises NotOneRun if no folder has one of the plan's nodes, unless it is an aggregator without a machine: nodes took nothing of it."""
        missing = self.missing
        if missing and all(it[0] == "a" for it in missing):
            missing = sorted(self.senders() & set(missing))
        if missing:
            raise NotOneRun(f"no folder has the facts of {' '.join(missing)}: name the folders of all machines, or check each alone by --by-node and compare digests")

    def senders(self) -> Set[str]:
        """The aggregators of which nodes took submissions."""
        lines = (it.line or "" for record in self.records for it in told(record) if isinstance(it, Step))
        return {f"a{line.split(' ')[1]}" for line in lines if line.startswith("submission ")}

    def entries(self) -> Iterator[object]:
        """The steps of all records and the signatures that were handed out, in an order of causes."""
        return told(self.records[0]) if len(self.paths) == 1 else merging.merged(self)
