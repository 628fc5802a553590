"""Tasks as numbered files of a folder, and what came of each as a file beside it.

    run.json         what the run asks, and how many tasks there are; it appears when the last task is written
    000017.task      what task 17 is given
    000017.result    what came of it; it appears whole, by a rename
    lock             held by the run that has the folder in hand

The last line of a task and of a result is the digest of what is before it, so a file that was cut or altered is known.
The line before that of a result is its task's digest, so one that came of another task is known too.

So whoever can name a file can do a task, several at once and on several machines, and a run that was broken off goes on
where it was: nothing is known but what is in files."""

import contextlib
import fcntl
import hashlib
import json
import os
import pathlib
from collections.abc import Callable, Iterable, Iterator, Mapping
from dataclasses import dataclass
from typing import Any

from ..files import writing

Work = Callable[[bytes], bytes]
"""What does a task: from what a task file holds to what its result file holds. It can be pickled."""

FORM = 6  # of the folder, of tasks and of results; a folder of another one is another run's


class FolderFault(Exception):
    """Why a folder cannot serve a run: one line with the folder and what to do."""


@dataclass(frozen=True)
class TaskFolder:
    """A folder of tasks."""

    path: pathlib.Path

    def task(self, number: int) -> pathlib.Path:
        return self.path / f"{number:06d}.task"

    def result(self, number: int) -> pathlib.Path:
        return self.path / f"{number:06d}.result"

    @property
    def plan(self) -> pathlib.Path:
        return self.path / "run.json"

    def given(self, number: int) -> bytes:
        """What a task is given."""
        return unsealed(self.task(number), "begin the run again in another folder, or without this one")

    def came_of(self, number: int) -> bytes:
        """What came of a task."""
        advice = "remove it and say the same again, which does the task once more"
        result, end = self.result(number), self._named(number)
        data = unsealed(result, advice)
        if not data.endswith(end):
            raise FolderFault(f"{result}: it came of another task; {advice}")
        return data.removesuffix(end)

    def keep(self, number: int, result: bytes) -> None:
        """Keeps what came of a task."""
        put(self.result(number), sealed(result + self._named(number)))

    def _named(self, number: int) -> bytes:
        """The line by which a result names its task: the digest at the end of this one."""
        return b"\ntask " + last_line(self.task(number))

    def count(self) -> int:
        """How many tasks there are, all of them written."""
        return int(self._planned()["tasks"])

    def run(self) -> dict[str, Any]:
        """What the run asks."""
        return dict(self._planned()["run"])

    def _planned(self) -> dict[str, Any]:
        try:
            told = json.loads(self.plan.read_bytes())
        except FileNotFoundError:
            raise FolderFault(f"{self.path}: no tasks of a run: run.json appears when all are written") from None
        except (OSError, ValueError, RecursionError) as fault:
            raise FolderFault(f"{self.plan}: {getattr(fault, 'strerror', None) or fault}; remove the folder, and begin "
                              "the run again") from None
        if not isinstance(told, dict) or told.get("form") != FORM:
            raise FolderFault(f"{self.path}: tasks of another release of this tool; take another folder")
        if not isinstance(told.get("run"), dict) or type(told.get("tasks")) is not int or told["tasks"] < 0:
            raise FolderFault(f"{self.plan}: it does not say what a run asks and how many tasks there are; remove the "
                              "folder, and begin the run again")
        return told

    def left(self) -> list[int]:
        """The numbers of the tasks without a result."""
        with os.scandir(self.path) as entries:
            done = {entry.name for entry in entries if entry.name.endswith(".result")}
        return [number for number in range(self.count()) if self.result(number).name not in done]

    def results(self) -> Iterator[bytes]:
        """What came of each task, in the order of their numbers."""
        for number in range(self.count()):
            yield self.came_of(number)


def put(path: pathlib.Path, data: bytes) -> None:
    """Writes a file that appears whole or not at all, whoever else writes it meanwhile."""
    writing.write_all({path: data})


def sealed(data: bytes) -> bytes:
    """Some bytes with a last line that has their digest."""
    return data + b"\nsha256 " + hashlib.sha256(data).hexdigest().encode() + b"\n"


SEAL = sealed(b"")  # as long as each


def last_line(path: pathlib.Path) -> bytes:
    """The digest at the end of a sealed file."""
    try:
        with path.open("rb") as file:
            file.seek(-min(len(SEAL), path.stat().st_size), os.SEEK_END)
            return file.read().strip()
    except OSError as fault:
        raise FolderFault(f"{path}: {fault.strerror or fault}; begin the run again in another folder") from None


def unsealed(path: pathlib.Path, advice: str) -> bytes:
    """What was sealed in a file."""
    try:
        whole = path.read_bytes()
    except OSError as fault:
        raise FolderFault(f"{path}: {fault.strerror or fault}; {advice}") from None
    data = whole[: -len(SEAL)]
    if sealed(data) != whole:
        raise FolderFault(f"{path}: damaged, as it has not the digest of what was written; {advice}")
    return data


def begin(path: pathlib.Path, run: Mapping[str, Any], tasks: Iterable[bytes]) -> TaskFolder:
    """The folder with the tasks of a run: they are written where they are not all there yet, else none is looked at.
    Where there is no plan, no result is taken for one of this run's.

    run: what is asked, as JSON has it; a folder that has tasks of anything else is refused."""
    folder = TaskFolder(path)
    path.mkdir(parents=True, exist_ok=True)
    wanted = json.loads(json.dumps(run))
    if folder.plan.exists():
        _same_run(folder, wanted)
        return folder
    foreign = sorted(entry.name for entry in path.iterdir() if not _is_ours(entry.name))
    if foreign:
        raise FolderFault(f"{path}: {foreign[0]} is no task; take an empty folder, or one that is not there yet")
    for result in path.glob("*.result"):  # of tasks whose plan is gone, which may have asked something else
        result.unlink()
    count = 0
    for count, task in enumerate(tasks, 1):
        put(folder.task(count - 1), sealed(task))
    put(folder.plan, json.dumps({"form": FORM, "tasks": count, "run": wanted}, indent=1).encode() + b"\n")
    return folder


def _same_run(folder: TaskFolder, wanted: dict[str, Any]) -> None:
    had = folder.run()
    for name in sorted({*had, *wanted}):
        if had.get(name) != wanted.get(name):
            raise FolderFault(f"{folder.path}: tasks of another run ({name}: {had.get(name)!r} there, "
                              f"{wanted.get(name)!r} here); take another folder, or remove this one")


def _is_ours(name: str) -> bool:
    return name in ("run.json", "lock") or name.endswith((".task", ".result", ".new"))


@contextlib.contextmanager
def held(path: pathlib.Path) -> Iterator[None]:
    """Keeps the folder for this process, as long as it lives; a folder that another one has is refused."""
    path.mkdir(parents=True, exist_ok=True)
    with (path / "lock").open("a+b") as lock:
        try:
            fcntl.lockf(lock, fcntl.LOCK_EX | fcntl.LOCK_NB)
        except (BlockingIOError, PermissionError):
            raise FolderFault(f"{path}: another run is at work in it; wait, or take another folder") from None
        yield


def do(work: Work, folder: TaskFolder, number: int) -> None:
    """Does one task, where it has no result yet."""
    if not folder.result(number).exists():
        folder.keep(number, work(folder.given(number)))


def do_numbers(work: Work, path: pathlib.Path, numbers: Iterable[int]) -> None:
    """Does some tasks of a folder: for whatever hands out numbers, as xargs, GNU parallel, Slurm, make."""
    folder = TaskFolder(path)
    count = folder.count()
    for number in numbers:
        if not 0 <= number < count:
            raise FolderFault(f"{path}: no task {number}: they are 0 to {count - 1}")
        do(work, folder, number)


# Files that hold a part of a map, by the end of its name; SQLite keeps changes beside any of its stores.
PARTS = {".shp": (".dbf", ".shx", ".prj", ".cpg"), ".tab": (".dat", ".map", ".id"), ".mif": (".mid",),
         ".gml": (".xsd", ".gfs")}


def stamp(path: str | os.PathLike[str]) -> list[Any]:
    """What tells one input map from another, or from itself after a change: its path, size and time, and these of the
    files that hold a part of it, as all in a folder do."""
    map_file = pathlib.Path(os.path.abspath(path))
    told = map_file.stat()
    ends = [way(end) for end in PARTS.get(map_file.suffix.lower(), ()) for way in (str.lower, str.upper)]
    parts = [map_file.with_suffix(end) for end in ends]
    parts += [map_file.with_name(map_file.name + "-wal"), *sorted(map_file.glob("**/*"))]
    found = [(part, part.stat()) for part in parts if part.is_file()]
    return [str(map_file), told.st_size, told.st_mtime_ns,
            *([part.name, one.st_size, one.st_mtime_ns] for part, one in found if one.st_size)]
