"""Has the tasks of a folder done: by somebody else, by threads (asking.py), or by Dask's workers (dask_engine.py).

An engine is given what does a task, the folder, and the numbers that have no result yet; it gives each number as soon
as its result is in the folder."""

from collections.abc import Callable, Iterable, Iterator

from .. import progress
from . import tasks
from .tasks import FolderFault, TaskFolder, Work

Engine = Callable[[Work, TaskFolder, Iterable[int]], Iterator[int]]

TRIES = 3  # of a task whose worker dies each time


class TaskFault(Exception):
    """Why a task could not be done."""

    def __init__(self, number: int, reason: str) -> None:
        super().__init__(f"task {number}: {reason}")
        self.number, self.reason = number, reason

    def __reduce__(self) -> tuple[type["TaskFault"], tuple[int, str]]:
        return TaskFault, (self.number, self.reason)


class TasksLeft(Exception):
    """Tasks that somebody else is to do, as was asked."""


def done(work: Work, folder: TaskFolder, number: int) -> TaskFault | None:
    """Does a task, and gives why it could not be done; a value, as not every exception goes from process to process."""
    try:
        tasks.do(work, folder, number)
    except FolderFault as fault:
        return TaskFault(number, str(fault))
    except Exception as fault:
        return TaskFault(number, f"{type(fault).__name__}: {fault}")
    return None


def checked(number: int, fault: TaskFault | None) -> int:
    if fault:
        raise fault
    return number


def only_planned(work: Work, folder: TaskFolder, numbers: Iterable[int]) -> Iterator[int]:
    """By somebody else: that the tasks are written is reported, and the run ends."""
    left = len(list(numbers))
    if left:
        raise TasksLeft(f"{left} of {folder.count()} tasks are left in {folder.path}: do them by `overlay task "
                        f"{folder.path} N..`, numbers from 0, and then say the same again")
    yield from ()


def run(engine: Engine, work: Work, folder: TaskFolder, told: progress.OfTasks) -> None:
    """Does all tasks of a folder that have no result yet."""
    left = folder.left()
    told.begin(folder.count(), len(left))
    for _ in engine(work, folder, left):
        told.step()
    told.end()
