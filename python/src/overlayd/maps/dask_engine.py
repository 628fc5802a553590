"""Does tasks by workers of Dask: of a cluster that is made on this machine, or of a scheduler at an address.

Dask's scheduler runs whatever Python it is sent. So a cluster of this machine speaks TLS with keys of its own, and an
address beyond the loopback is reported where it is without TLS."""

import contextlib
import ipaddress
import logging
import pathlib
import sys
import tempfile
import time
import uuid
import zipfile
from collections.abc import Callable, Iterable, Iterator
from functools import partial
from itertools import islice
from typing import Any
from urllib.parse import urlsplit

import overlayd

from . import engines
from .engines import TRIES, Engine, TaskFault
from .tasks import TaskFolder, Work

IN_HAND = 3  # tasks a thread of a worker: what is done, what waits, what is on its way
WORKERS_WITHIN = 30  # seconds
SOURCES = pathlib.Path(overlayd.__file__).resolve().parents[1]
# What a worker elsewhere needs.
SENT = ("__init__", "progress", "files/__init__", "files/writing", "maps/__init__", "maps/engines", "maps/replying",
        "maps/tasks")
NEEDED = (
    "--dask needs Dask: apt-get install python3-distributed python3-cryptography, and run this by /usr/bin/python3; "
    "--jobs N needs nothing")


class DaskFault(Exception):
    """Why Dask cannot be asked: one line with what to do."""


def by_dask(address: str | None, jobs: int) -> Engine:
    """Workers of the scheduler at an address; where there is none, so many processes of this machine."""

    def engine(work: Work, folder: TaskFolder, numbers: Iterable[int]) -> Iterator[int]:
        with _client(address, jobs) as client:
            yield from _handed_out(client, _is_shared(client, folder), work, folder, iter(numbers))

    return engine


def _dask() -> Any:
    try:
        import distributed
    except ImportError:
        raise DaskFault(NEEDED) from None
    return distributed


@contextlib.contextmanager
def _client(address: str | None, jobs: int) -> Iterator[Any]:
    """A client whose workers have this package."""
    dask = _dask()
    with contextlib.ExitStack() as ends:
        if address is None:
            yield ends.enter_context(dask.Client(ends.enter_context(_cluster(dask, jobs))))
            return
        if is_open_to_all(address):
            print(f"{address}: whoever reaches this port can run programs as you, and read what is sent; beyond the "
                  "loopback take tls:// and Dask's tls settings", file=sys.stderr)
        try:
            client = ends.enter_context(dask.Client(address, timeout=WORKERS_WITHIN))
            client.wait_for_workers(1, timeout=WORKERS_WITHIN)
        except (OSError, TimeoutError, ValueError, TypeError) as fault:
            raise DaskFault(f"{address}: no scheduler with a worker answers within {WORKERS_WITHIN} seconds ({fault}); "
                            f"start `dask-scheduler` there and `dask-worker {address}`") from None
        client.upload_file(str(packed(pathlib.Path(ends.enter_context(tempfile.TemporaryDirectory())))))
        yield client


def _cluster(dask: Any, jobs: int) -> Any:
    """Workers of this machine, which end with this process."""
    try:
        security = dask.Security.temporary()
    except ImportError:
        raise DaskFault(NEEDED) from None
    return dask.LocalCluster(n_workers=jobs, threads_per_worker=1, host="127.0.0.1", dashboard_address=None,
                             silence_logs=logging.CRITICAL, security=security)


def is_open_to_all(address: str) -> bool:
    """Whether an address is beyond the loopback and without TLS."""
    parts = urlsplit(address if "://" in address else f"tcp://{address}")
    if parts.scheme in ("tls", "wss", "inproc"):
        return False
    host = parts.hostname or ""
    try:
        return not ipaddress.ip_address(host).is_loopback
    except ValueError:
        return host != "localhost"


def packed(folder: pathlib.Path) -> pathlib.Path:
    """The modules that a task needs, as one file that workers import."""
    made = folder / "overlay_maps_modules.zip"
    with zipfile.ZipFile(made, "w") as file:
        for source in (path for pattern in SENT for path in SOURCES.glob(f"overlayd/{pattern}.py")):
            file.write(source, source.relative_to(SOURCES))
    return made


def _is_shared(client: Any, folder: TaskFolder) -> bool:
    """Whether all workers can read and write in the folder under its path, so that nothing has to be sent."""
    word = uuid.uuid4().hex.encode()
    mark = folder.path.resolve() / f"{word.decode()}.new"
    mark.write_bytes(word)
    try:
        return all(client.run(can_write_beside, str(mark), word).values())
    finally:
        mark.unlink()


def can_write_beside(path: str, word: bytes) -> bool:
    """Whether a file has this word, and another one can be made beside it."""
    try:
        own = pathlib.Path(path).with_name(f"{uuid.uuid4().hex}.new")
        own.touch(exist_ok=False)
        own.unlink()
        return pathlib.Path(path).read_bytes() == word
    except OSError:
        return False


def done_from_bytes(work: Work, number: int, task: bytes) -> bytes | TaskFault:
    """What comes of a task that was sent, or why nothing does."""
    try:
        return work(task)
    except Exception as fault:
        return TaskFault(number, f"{type(fault).__name__}: {fault}")


def _handed_out(client: Any, shared: bool, work: Work, folder: TaskFolder, numbers: Iterator[int]) -> Iterator[int]:
    """Numbers as they are done, with no more in hand than keep the workers busy."""
    hand = Hand(client, shared, work, TaskFolder(folder.path.resolve()), numbers)
    going = _dask().as_completed(hand.more(), with_results=True, raise_errors=False)
    for batch in going.batches():
        for future, came in batch:
            number = hand.names.pop(future.key)
            yield engines.checked(number, _kept(folder, number, future.status, came))
            future.release()
        going.update(hand.more())


class Hand:
    """What the workers have in hand, and what comes next."""

    def __init__(self, client: Any, shared: bool, work: Work, folder: TaskFolder, numbers: Iterator[int]) -> None:
        self.client, self.shared, self.work, self.folder, self.numbers = client, shared, work, folder, numbers
        self.names: dict[str, int] = {}
        self.run, self.most, self.looked = uuid.uuid4().hex, 0, 0.0

    def room(self) -> int:
        """How many more tasks the workers can have, as many as there were a second ago."""
        if time.monotonic() > self.looked + 1:
            self.most = IN_HAND * max(1, sum(self.client.nthreads().values()))
            self.looked = time.monotonic()
        return self.most - len(self.names)

    def more(self) -> list[Any]:
        """Further tasks on their way."""
        some = list(islice(self.numbers, max(0, self.room())))
        if not some:
            return []
        names = [f"overlay-maps-{self.run}-{number}" for number in some]
        self.names |= zip(names, some)
        work: Callable[..., bytes | TaskFault | None]
        given: list[list[Any]]
        if self.shared:
            work, given = partial(engines.done, self.work, self.folder), [some]
        else:
            sent = [self.folder.given(number) for number in some]
            work, given = partial(done_from_bytes, self.work), [some, sent]
        return list(self.client.map(work, *given, key=names, pure=False, retries=TRIES))


def _kept(folder: TaskFolder, number: int, status: str, came: Any) -> TaskFault | None:
    """Keeps the result of a task that was sent; or gives why there is none."""
    if status != "finished":  # for something of Dask, or of the way to the worker
        fault = came[1] if isinstance(came, tuple) else came
        if isinstance(fault, _dask().KilledWorker):
            return TaskFault(number, "its worker died each time; is there memory enough?")
        return TaskFault(number, f"{type(fault).__name__}: {fault}")
    if isinstance(came, bytes):
        folder.keep(number, came)
        return None
    fault_of: TaskFault | None = came
    return fault_of
