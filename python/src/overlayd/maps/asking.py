"""By whom the blocks of a question are done: programs of this machine, processes, Dask, or whoever has a task's number.

Without a folder blocks go to programs at once. With --work or --dask each block is a task of a folder, and each reply
its result; each part of a question is a stage of its own, in a folder 1, 2 and so on."""

import contextlib
import pathlib
import tempfile
import threading
import time
from collections.abc import Callable, Iterable, Iterator, Mapping
from dataclasses import dataclass, field
from typing import Any

from .. import ending, progress
from ..ending import Unusable
from ..kernel.rows import Rows, rows_of
from ..kernel.running import GoesOn, in_order, several
from . import dask_engine, engines, tasks
from .dask_engine import DaskFault
from .engines import Engine, TaskFault
from .replying import ByProgram
from .tasks import FolderFault, TaskFolder, Work

Say = Callable[[str], None]
SECONDS_BETWEEN = 10  # of two lines of a file


class AskFault(Exception):
    """Why a question cannot be asked so."""


@dataclass
class Doing:
    """What does the blocks of one question, and what that asks as a folder keeps it."""

    question: str
    asked: Mapping[str, Any]
    say: Say
    processes: int
    dask: str | None = None
    work: pathlib.Path | None = None
    stage: int = 0

    def __post_init__(self) -> None:
        if self.processes == 0 and self.dask is None and self.work is None:
            raise AskFault("--processes 0 leaves the tasks to others: say --work FOLDER, where they find them")

    def runs(self, program: str, blocks: Iterable[bytes], goes_on: GoesOn) -> Iterator[Rows]:
        """The rows of each block, in their order."""
        self.stage += 1
        if self.dask is None and self.work is None:
            return several(self.processes)(program, blocks, goes_on)
        return self.by_tasks(str(self.stage), program, blocks)

    def by_tasks(self, stage: str, program: str, blocks: Iterable[bytes]) -> Iterator[Rows]:
        """The same by tasks of a folder, which are written where they are not there yet."""
        with contextlib.ExitStack() as ends:
            ends.enter_context(told_faults(self.work))
            top = self.work or pathlib.Path(ends.enter_context(tempfile.TemporaryDirectory(prefix="overlay.")))
            ends.enter_context(tasks.held(top / stage))
            folder = tasks.begin(top / stage, self.asked, blocks)
            told = progress.OfTasks(f"{self.question} {stage}", self.say)
            engines.run(self.engine(folder), ByProgram(program), folder, told)
            for result in folder.results():
                yield rows_of(result)

    def engine(self, folder: TaskFolder) -> Engine:
        """Who does the tasks."""
        if self.dask is not None:
            return dask_engine.by_dask(self.dask or None, self.processes or 1)
        if self.processes == 0:
            return engines.only_planned
        return by_threads(self.processes)


def by_threads(count: int) -> Engine:
    """So many tasks at once, each by a thread, which waits for the program that does it."""

    def engine(work: Work, folder: TaskFolder, numbers: Iterable[int]) -> Iterator[int]:
        for number, fault in in_order(count, lambda number: (number, engines.done(work, folder, number)), numbers,
                                      threading.Event()):
            yield engines.checked(number, fault)

    return engine


@dataclass
class Shown:
    """How far a question is, without a folder: a bar on a terminal, else a line each ten seconds."""

    question: str
    say: Say
    clock: Callable[[], float] = time.monotonic
    bar: Any = None
    last: float = field(default=0.0)

    def __call__(self, part: float) -> bool:
        """Tells it, and goes on."""
        if self.bar is None:
            self.bar, self.last = progress.bar(self.question, 100, unit="%"), self.clock()
        self.bar.update(max(0, int(100 * part) - self.bar.n))
        if self.bar.disable and self.clock() - self.last >= SECONDS_BETWEEN:
            self.last = self.clock()
            self.say(f"{self.question}: {100 * part:.0f} % done")
        return True

    def end(self) -> None:
        """No more is told."""
        if self.bar is not None:
            self.bar.close()


def do_tasks(program: str, folder: pathlib.Path, numbers: Iterable[int]) -> None:
    """Does the tasks of a folder that are named: for xargs, GNU parallel, Slurm, or by hand."""
    with told_faults(folder):
        tasks.do_numbers(ByProgram(program), folder, numbers)


@contextlib.contextmanager
def told_faults(folder: pathlib.Path | None) -> Iterator[None]:
    """Faults as commands end with them: a folder that cannot serve as what cannot be asked, all else as what failed."""
    try:
        yield
    except FolderFault as fault:
        raise AskFault(str(fault)) from fault
    except (TaskFault, DaskFault) as fault:
        kept = f"; what is done is kept in {folder}: say the same again" if folder else ""
        raise Unusable(f"{fault}{kept}") from fault
    except OSError as fault:
        raise Unusable(ending.fault_text(fault.filename or folder or tempfile.gettempdir(), fault)) from fault
