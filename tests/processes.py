"""Runs groups of cases in several processes: in one, the Python of each group would wait for the others'."""

import contextlib
import multiprocessing
import os
from collections import deque
from collections.abc import Iterator, Sequence
from multiprocessing.connection import Connection, wait

from tests.running import Cases, Counted, count_all

# Three for each two processors, since a group now and then waits without using one, as for a silent client. More would
# gain nothing, since a case often runs a program with a processor of its own.
MOST = 6

# A process has what this one has imported and read.
FORK = multiprocessing.get_context("fork")


def usual() -> int:
    """The default number of processes."""
    return min(MOST, max(1, 3 * len(os.sched_getaffinity(0)) // 2))


def try_each(groups: Sequence[Cases], case: str, asked: Connection, others: list[Connection]) -> None:
    """What such a process does: it runs each group whose place it gets, reports the result, and ends when no more can
    come."""
    # If it kept them open, the other processes would not see their end.
    for connection in others:
        connection.close()
    with contextlib.suppress(EOFError):
        while True:
            asked.send(count_all([groups[asked.recv()]], case))


class Worker:
    """A process that runs one group after the other, and the place of its present one."""

    def __init__(self, groups: Sequence[Cases], case: str, beside: "list[Worker]") -> None:
        self.place = -1
        self.asking, asked = FORK.Pipe()
        others = [self.asking, *(worker.asking for worker in beside)]
        self.process = FORK.Process(target=try_each, args=[groups, case, asked, others])
        self.process.start()
        asked.close()

    def give(self, place: int) -> None:
        self.place = place
        self.asking.send(place)

    def answer(self) -> Counted | None:
        """The result of the group; None if the process ended amid it."""
        try:
            counted: Counted = self.asking.recv()
        except (EOFError, OSError):
            self.end()
            return None
        return counted

    def end(self) -> None:
        self.asking.close()
        self.process.join()


class Side:
    """Groups run by so many processes, and the results of finished ones, by their places."""

    def __init__(self, groups: Sequence[Cases], case: str, most: int) -> None:
        self.groups = groups
        self.case = case
        self.waiting = deque(range(len(groups)))
        self.done: dict[int, Counted] = {}
        self.workers: list[Worker] = []
        for _ in range(min(most, len(groups))):
            self.add()

    def add(self) -> None:
        """Starts a process and gives it the next group, if one is left."""
        if self.waiting:
            self.workers.append(Worker(self.groups, self.case, self.workers))
            self.go_on(self.workers[-1])

    def go_on(self, worker: Worker) -> None:
        if self.waiting:
            worker.give(self.waiting.popleft())
        else:
            self.workers.remove(worker)
            worker.end()

    def take(self, worker: Worker) -> None:
        """Takes the result of a group. If its process has ended, the group has failed, and another process goes on."""
        counted = worker.answer()
        if counted is not None:
            self.done[worker.place] = counted
            self.go_on(worker)
            return
        lost = Counted()
        lost.add(
            self.groups[worker.place].id(),
            f"wanted its cases to run, came the end of its process, status {worker.process.exitcode}",
        )
        self.done[worker.place] = lost
        self.workers.remove(worker)
        self.add()

    def take_some(self) -> None:
        """Waits for the next event."""
        if not self.workers:
            raise RuntimeError("a group was given to no process")
        ready = wait([worker.asking for worker in self.workers])
        for worker in [worker for worker in self.workers if worker.asking in ready]:
            self.take(worker)

    def end(self) -> None:
        for worker in self.workers:
            worker.end()


def tried(groups: Sequence[Cases], case: str, most: int) -> Iterator[Counted]:
    """The result of each group, in order, while so many processes run them."""
    side = Side(groups, case, most)
    try:
        for place in range(len(groups)):
            while place not in side.done:
                side.take_some()
            yield side.done.pop(place)
    finally:
        side.end()
