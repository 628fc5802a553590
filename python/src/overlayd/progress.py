"""Says how far long work is: by a bar of python3-tqdm on a terminal.

Elsewhere, and of work that takes less than a second, nothing is said; `OfTasks`, of runs that may take hours, has lines
for a file too."""

import time
from collections.abc import Callable, Iterable
from typing import Any


BEGIN_SECONDS = 1.0
SECONDS_BETWEEN_TASKS = 10  # two lines of a file


def bar(what: str, total: int, items: Iterable[Any] | None = None, unit: str = "it") -> Any:
    """A bar of so many steps, over items or by its `update`, which goes when the work is done."""
    import tqdm

    tqdm.tqdm.monitor_interval = 0  # no thread of its own
    return tqdm.tqdm(items, desc=what, total=total, unit=unit, delay=BEGIN_SECONDS, leave=False, disable=None)


class OfTasks:
    """What is reported while tasks are done, those before that were done by an earlier run."""

    def __init__(self, what: str, say: Callable[[str], None], clock: Callable[[], float] = time.monotonic) -> None:
        self.what, self.say, self.clock = what, say, clock
        self.total = self.here = self.done = 0
        self.began = self.last = 0.0
        self.bar: Any = None

    def begin(self, total: int, left: int) -> None:
        """So many tasks there are, and so many of them are left."""
        self.total, self.here, self.done = total, left, 0
        self.began = self.last = self.clock()
        if left < total:
            self.say(f"{self.what}: {total - left} of {total} tasks were done before")
        self.bar = bar(self.what, left, unit="task")

    def step(self) -> None:
        """One task is done."""
        self.done += 1
        self.bar.update()
        if self.bar.disable and (self.clock() - self.last >= SECONDS_BETWEEN_TASKS or self.done == self.here):
            self.last = self.clock()
            self.say(f"{self.what}: {self.line()}")

    def line(self) -> str:
        seconds = self.clock() - self.began
        pace = self.done / seconds if seconds > 0 else 0.0
        left = f"{(self.here - self.done) / pace:.0f} seconds left" if pace else "no pace yet"
        return f"{self.total - self.here + self.done} of {self.total} tasks, {pace:.3g} a second, {left}"

    def end(self) -> None:
        """No more is reported."""
        self.bar.close()
