"""The program `overlay_features` as a process: blocks go in, replies come out in their order, and it can be cancelled.

The process ends with the one that began it: its input is a pipe, at whose end it ends by itself, at the latest when it
has done the block in hand. No signal of the system's that belongs to a thread is asked for, so it outlives the thread
that began it. A thread that reads rows keeps Python from ending, as any does that is no daemon."""

import collections
import io
import itertools
import subprocess
import threading
from collections.abc import Callable, Iterable, Iterator
from concurrent import futures
from typing import IO, TypeVar

from .rows import Rows, rows_of

LENGTH = 8
PATIENCE = 0.1  # seconds between two looks at whether to go on
SAID = 4096  # bytes of what the program says that are kept, the last ones
TRIES = 3  # of a block whose program ends each time
IN_HAND = 2  # items of each thread: one that it does, and one that waits for it
NO_FAULT: Exception | None = None
GoesOn = Callable[[int], bool]
Runs = Callable[[str, Iterable[bytes], GoesOn], Iterator[Rows]]
T = TypeVar("T")
R = TypeVar("R")


class Cancelled(Exception):
    """The run was cancelled."""


class ProgramEnded(Exception):
    """The program ended before it had replied to all blocks: its status, and what it said."""

    def __init__(self, status: int, said: str) -> None:
        super().__init__(f"the program ended with status {status}: {said}")
        self.status, self.said = status, said


def always(done: int) -> bool:
    """Goes on to the end."""
    return True


def run(program: str, blocks: Iterable[bytes], goes_on: GoesOn = always) -> Iterator[Rows]:
    """The rows of each block. goes_on is asked ten times a second, in a thread of its own, with how many blocks are
    done; where it says no the program is ended, and Cancelled is raised."""
    process = subprocess.Popen([program], stdin=subprocess.PIPE, stdout=subprocess.PIPE, stderr=subprocess.PIPE)
    fed, said, watch = Feeding(process, blocks), Said(process), Watch(process, goes_on)
    try:
        while (reply := read_reply(process.stdout)) is not None:
            watch.done += 1
            yield rows_of(reply)
        finish(process, fed, said, watch)
    finally:
        watch.ended.set()
        process.kill()
        process.wait()
        assert process.stdout is not None
        process.stdout.close()


def several(processes: int) -> Runs:
    """So many programs at once; rows come in the blocks' order, whoever makes them. A block whose program ended goes to
    another one."""

    def runs(program: str, blocks: Iterable[bytes], goes_on: GoesOn = always) -> Iterator[Rows]:
        done, is_over = 0, threading.Event()
        for rows in in_order(processes, lambda block: tried(
                program, block, lambda _: not is_over.is_set() and goes_on(done)), blocks, is_over):
            done += 1
            yield rows

    return runs


def in_order(threads: int, do: Callable[[T], R], items: Iterable[T], is_over: threading.Event) -> Iterator[R]:
    """What comes of items, in their order, by so many threads; is_over is set where no more of it is wanted."""
    hand, left = collections.deque[futures.Future[R]](), iter(items)
    with futures.ThreadPoolExecutor(threads) as pool:
        try:
            while True:
                hand.extend(pool.submit(do, one) for one in itertools.islice(left, IN_HAND * threads - len(hand)))
                if not hand:
                    return
                yield hand.popleft().result()
        finally:
            is_over.set()
            pool.shutdown(cancel_futures=True)


def tried(program: str, block: bytes, goes_on: GoesOn) -> Rows:
    """The rows of one block, by as many programs as it takes."""
    for left in reversed(range(TRIES)):
        try:
            (rows,) = run(program, [block], goes_on)
            return rows
        except ProgramEnded:
            if not left:
                raise
    raise AssertionError


def finish(process: subprocess.Popen[bytes], fed: "Feeding", said: "Said", watch: "Watch") -> None:
    """Says why replies have ended."""
    if watch.fault is not None:
        raise watch.fault
    if watch.is_cancelled:
        raise Cancelled
    if process.wait() == 0 or fed.fault is not None:
        fed.thread.join()
    if fed.fault is not None:
        raise fed.fault
    if process.returncode or watch.done < fed.count:
        raise ProgramEnded(process.returncode, said.text())


def read_reply(replies: IO[bytes] | None) -> bytes | None:
    """The next whole reply; None at the end."""
    assert replies is not None
    head = replies.read(LENGTH)
    if len(head) < LENGTH:
        return None
    rest = int.from_bytes(head, "little") - LENGTH
    body = replies.read(rest)
    return head + body if len(body) == rest else None


class Feeding:
    """Writes blocks in a thread of its own, so that the program never waits for who reads its replies."""

    def __init__(self, process: subprocess.Popen[bytes], blocks: Iterable[bytes]) -> None:
        self.count, self.fault = 0, NO_FAULT
        self.process, self.blocks = process, blocks
        self.thread = threading.Thread(target=self._feed, daemon=True)
        self.thread.start()

    def _feed(self) -> None:
        into = self.process.stdin
        assert into is not None
        try:
            for block in self.blocks:
                self.count += 1
                into.write(block)
                into.flush()  # the next block may be made only of what this one gives
        except BrokenPipeError:
            pass
        except Exception as fault:  # of whoever makes the blocks: raised where rows are read
            self.fault = fault
        finally:
            try:
                into.close()
            except BrokenPipeError:
                pass


class Said:
    """Reads what the program says on standard error, so that it never waits there, and keeps the end of it."""

    def __init__(self, process: subprocess.Popen[bytes]) -> None:
        self.kept, self.source = b"", process.stderr
        self.thread = threading.Thread(target=self._read, daemon=True)
        self.thread.start()

    def _read(self) -> None:
        assert isinstance(self.source, io.BufferedReader)
        with self.source:
            while some := self.source.read1(SAID):
                self.kept = (self.kept + some)[-SAID:]

    def text(self) -> str:
        """What it has said, when it has ended."""
        self.thread.join()
        return self.kept.decode(errors="replace").strip()


class Watch:
    """Looks whether a run is to go on, in a thread of its own, and kills the program where it is not."""

    def __init__(self, process: subprocess.Popen[bytes], goes_on: GoesOn) -> None:
        self.done, self.is_cancelled, self.ended, self.fault = 0, False, threading.Event(), NO_FAULT
        self.process, self.goes_on = process, goes_on
        threading.Thread(target=self._watch, daemon=True).start()

    def _watch(self) -> None:
        while not self.ended.wait(PATIENCE):
            if not self._is_to_go_on():
                self.is_cancelled = True
                self.process.kill()
                return

    def _is_to_go_on(self) -> bool:
        try:
            return self.goes_on(self.done)
        except Exception as fault:  # of whoever asked: raised where rows are read
            self.fault = fault
            return False
