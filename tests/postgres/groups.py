"""The groups of tests over one cluster."""

from collections.abc import Callable, Iterator
from functools import partial

from tests.postgres.cluster import Cluster
from tests.postgres import questions, schemas, steps
from tests.program import checks_of
from tests.program.room import Group, Room
from tests.running import Outcome

MODULES = [steps, schemas]


class OverCluster(Group):
    """Cases over the cluster, which is started before."""

    cluster: Cluster

    def __init__(self, module: str, name: str, check: Callable[[Cluster, Room], Iterator[Outcome]]) -> None:
        super().__init__(name, partial(self.over, check))
        self.module = module.rpartition(".")[2]

    def over(self, check: Callable[[Cluster, Room], Iterator[Outcome]], room: Room) -> Iterator[Outcome]:
        return check(self.cluster, room)


def groups() -> list[OverCluster]:
    """A group for each function over the cluster and a room, and for each seed of questions."""
    checks = [(module, *each) for module in MODULES for each in checks_of(module, Cluster, Room)]
    checks += [(questions, *each) for each in questions.GROUPS]
    return [OverCluster(module.__name__, name, check) for module, name, check in checks]
