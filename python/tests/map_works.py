"""What does tasks in the tests of engines: each can be pickled, and leaves its process's number in a folder."""

import os
import pathlib
import signal
import sys
import time
from dataclasses import dataclass

from overlayd import progress
from overlayd.maps import asking, dask_engine, engines, tasks


@dataclass(frozen=True)
class Reversing:
    """Turns a task round. Its name is in `marks`, as is the process's: the first `deaths` processes that get the task
    named `culprit` are killed, and each task takes some seconds."""

    marks: pathlib.Path
    culprit: bytes = b""
    deaths: int = 0
    seconds: float = 0.0

    def __call__(self, task: bytes) -> bytes:
        (self.marks / f"process {os.getpid()}").touch()
        time.sleep(self.seconds)
        if task == self.culprit and len(list(self.marks.glob("death *"))) < self.deaths:
            (self.marks / f"death {os.getpid()}").touch()
            os.kill(os.getpid(), signal.SIGKILL)
        return task[::-1]


@dataclass(frozen=True)
class Refusing:
    """Refuses each task that is not whole, by an exception that cannot be pickled and made again."""

    def __call__(self, task: bytes) -> bytes:
        if b"bad" in task:
            raise Odd("no", "good")
        return task


class Odd(Exception):
    def __init__(self, one: str, other: str) -> None:
        super().__init__(f"{one} {other}")


def tell(text: str) -> None:
    print(text, file=sys.stderr)


def main() -> None:
    """A run of its own process: FOLDER MARKS SECONDS ENGINE DEATHS; ENGINE is 'several', 'dask' or an address."""
    signal.signal(signal.SIGINT, signal.default_int_handler)  # also where a shell has it ignored
    folder, marks = map(pathlib.Path, sys.argv[1:3])
    engine = asking.by_threads(2)
    if sys.argv[4] != "several":
        engine = dask_engine.by_dask(None if sys.argv[4] == "dask" else sys.argv[4], 2)
    work = Reversing(marks, b"task 5", int(sys.argv[5]), float(sys.argv[3]))
    with tasks.held(folder):
        made = tasks.begin(folder, {"asks": "names"}, [f"task {number}".encode() for number in range(12)])
        engines.run(engine, work, made, progress.OfTasks("names", tell))


if __name__ == "__main__":
    main()
