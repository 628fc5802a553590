"""A client of overlay_live, the polygon overlay server that answers each line at once.

    from overlayd.program import Server

    with Server("map.db", create=True, sessions=2) as server, server.session() as session:
        session.batch([session.put_line("parcel", "POLYGON ((0 0, 10 0, 10 10, 0 10, 0 0))"),
                       session.put_line("road", "POLYGON ((4 -5, 6 -5, 6 15, 4 15, 4 -5))"),
                       "DEFINE rest = parcel - road"])
        session.sync()                          # returns when both are in the file
        session.locate("rest", 7, 5)            # 'in'
        session.boundary("rest").pieces         # each with exact ends
        for reply in session.answers(f"LOCATE rest {x} 5" for x in range(10_000)):
            reply.first                         # many lines are sent ahead, and each has its reply

`Server` starts the program and ends it, and lends its one to four sessions. A `Session` is a pair of files, so it goes
over named pipes or a socket as well. It is used by one thread at a time. What the program refuses is raised as
`Refused`, with the number and the text that docs/COMMANDS.md has; a program or a session that has ended, as `Ended`; a
reply that does not come in time, as TimeoutError, and its session is lent again once it has come. A text that would be
another line, or none, is a `ValueError` before anything is sent.

It needs the standard library alone, and may be handed on as this one file. Rings, coordinates of the world and features
are those of overlayd.store.world."""

import contextlib
import fcntl
import os
import pathlib
import queue
import re
import select
import subprocess
import threading
import time
from collections import deque
from collections.abc import Iterable, Iterator, Sequence
from types import TracebackType
from typing import BinaryIO, NamedTuple, cast

NAME = re.compile(r"[A-Za-z][A-Za-z0-9_]{0,31}\Z")
LARGEST_BATCH = 64
SEVERAL = frozenset({"layers", "edges", "grid"})
"""The first words of replies of several lines: the last word of such a first line says how many come after it."""
COLUMNS = 33
MOST_SESSIONS = 4
BYTES_AHEAD = 1 << 20
"""How many bytes of requests without a reply are enough: no more are taken then."""
READ_AT_ONCE = 1 << 16
UNKNOWN_LAYER, OUT_OF_RANGE, PENDING, OVERSIZE = 10, 20, 21, 22

Point = tuple[int, int, int]
"""The point (x / w, y / w), as x, y and w."""
Piece = tuple[Point, Point]
"""A straight part of a boundary, its left end first."""
Request = str | Sequence[str]
"""A line of any command but BATCH; or the 1 to 64 lines of a batch."""


class Refused(Exception):
    """What the program refused: the number, the text and, for a line of a batch, which one it was, from 0."""

    def __init__(self, number: int, text: str, place: int | None = None) -> None:
        super().__init__(f"error {number} {text}" + ("" if place is None else f" (line {place} of the batch)"))
        self.number, self.text, self.place = number, text, place


class Ended(Exception):
    """The program has ended, or the session has."""


def gone() -> Ended:
    return Ended("the program has ended, or the session has")


class Layer(NamedTuple):
    """A layer as LAYERS has it: a base layer has a text, a derived one a definition, and the other is None."""

    name: str
    text: str | None
    definition: str | None


class Boundary(NamedTuple):
    """The boundary of a derived layer at one version, and all layers of that version."""

    version: int
    pieces: list[Piece]
    layers: list[Layer]


def refusal_of(line: str) -> Refused | None:
    """The refusal that a reply is, or None."""
    found = re.fullmatch(r"(?:refused (\d+) )?error (\d+) (.*)", line)
    return Refused(int(found[2]), found[3], int(found[1]) if found[1] else None) if found else None


def fault_of_start(errors: str) -> Refused | None:
    """The refusal of a program that did not start: a second line, where it has one, says of which file and why."""
    first, *more = errors.splitlines() or [""]
    fault = refusal_of(first)
    return Refused(fault.number, ": ".join([fault.text, *more])) if fault else None


def lines_after(first: str) -> int:
    """How many lines of a reply come after its first."""
    words = first.split(" ")
    return int(words[-1]) if words[0] in SEVERAL else 0


def layer_of(line: str) -> Layer:
    """A line of the reply to LAYERS."""
    name, rest = line.split(" ", 1)
    return Layer(name, None, rest[2:]) if rest.startswith("= ") else Layer(name, rest, None)


class Reply(NamedTuple):
    """A reply as it came: its first line, and the bytes of the lines after it, each with its line feed.

    All but refusal raise `Refused` where the request was refused."""

    first: str
    rest: bytes = b""

    @property
    def refusal(self) -> Refused | None:
        return refusal_of(self.first)

    def number(self) -> int:
        """The number of `ok N`, `built N` and `durable N`."""
        return int(self._accepted().first.split(" ")[1])

    def lines(self) -> list[str]:
        """The lines after the first."""
        return self._accepted().rest.decode().split("\n")[:-1]

    def pieces(self) -> list[Piece]:
        """The pieces that a reply to EDGES lists."""
        six = [map(int, self._accepted().rest.split())] * 6
        return [((x, y, w), (right_x, right_y, right_w)) for x, y, w, right_x, right_y, right_w in zip(*six)]

    def _accepted(self) -> "Reply":
        fault = self.refusal
        if fault:
            raise fault
        return self


def line_for(text: str) -> bytes:
    """The bytes of a line that has a reply of its own; a text that is none, or more than one, is a ValueError."""
    if "\n" in text or "\r" in text:
        raise ValueError("a line feed within a line")
    if not text.strip(" \t") or text.startswith("#"):
        raise ValueError("a line without a reply")
    return text.encode() + b"\n"


def request_bytes(request: Request) -> bytes:
    """The bytes of a request; one that is none is a ValueError."""
    if isinstance(request, str):
        if request.split(None, 1)[:1] == ["BATCH"]:
            raise ValueError("a batch goes by its lines")
        return line_for(request)
    sent = [line_for(line) for line in request]
    if not 1 <= len(sent) <= LARGEST_BATCH:
        raise ValueError(f"a batch has 1 to {LARGEST_BATCH} lines")
    return b"BATCH %d\n" % len(sent) + b"".join(sent)


def edges_lines(name: str, columns: Iterable[int]) -> list[str]:
    """The questions for the pieces of a derived layer's boundary that begin in some columns."""
    return [f"EDGES {name} {column}" for column in columns]


class Wire:
    """The two files of a session, each with a descriptor; each read is waited for at most so many seconds.

    What is posted goes out while replies come in: a wait for either ends when the other can go on. So a program that
    stops at a full pipe of replies never meets a client that stops at a full pipe of lines."""

    def __init__(self, lines: BinaryIO, replies: BinaryIO, timeout: float | None) -> None:
        self.files, self.timeout = (lines, replies), timeout
        self._unsent = bytearray()
        self._held, self._at = b"", 0

    def send(self, data: bytes) -> None:
        """Writes all, where no reply is under way: then the program reads, whatever it waits for."""
        lines, left = self.files[0], memoryview(data)
        try:
            while left:
                left = left[lines.write(left) :]
            lines.flush()
        except ConnectionError as fault:
            raise gone() from fault

    def post(self, data: bytes) -> None:
        """Keeps what is to be written as soon as the program takes it."""
        self._unsent += data

    def push(self) -> None:
        """Writes of what was posted all that goes without waiting."""
        lines = self.files[0].fileno()
        while self._unsent and ready({lines: select.POLLOUT}, 0):
            self._write(lines)

    def reply(self) -> Reply:
        """The next reply, whole. Where it does not come in time, what came of it begins the next one that is read."""
        line = self._block(1)
        first = line.decode()[:-1]
        try:
            return Reply(first, self._block(lines_after(first)))
        except TimeoutError:
            self._put_back([line])
            raise

    def _block(self, lines: int) -> bytes:
        """The bytes of so many lines."""
        parts = []
        while lines:
            end, found = self._ends(lines)
            parts.append(self._held[self._at : end])
            self._at, lines = end, lines - found
            if lines:
                try:
                    self._held, self._at = self._more(), 0
                except TimeoutError:
                    self._put_back(parts)
                    raise
        return b"".join(parts)

    def _put_back(self, parts: list[bytes]) -> None:
        self._held, self._at = b"".join([*parts, self._held[self._at :]]), 0

    def _ends(self, most: int) -> tuple[int, int]:
        """Where so many lines of what is held end, or as many as there are, and how many these are."""
        end = self._at
        for count in range(most):
            found = self._held.find(b"\n", end)
            if found < 0:
                return len(self._held), count
            end = found + 1
        return end, most

    def _more(self) -> bytes:
        """What comes next; what was posted goes out meanwhile."""
        lines, replies = (file.fileno() for file in self.files)
        while True:
            wanted = {replies: select.POLLIN}
            if self._unsent:
                wanted[lines] = wanted.get(lines, 0) | select.POLLOUT
            came = ready(wanted, self.timeout)
            if not came:
                raise TimeoutError(f"no reply within {self.timeout} seconds")
            if came.get(replies, 0) & ~select.POLLOUT:
                break
            self._write(lines)
        more = os.read(replies, READ_AT_ONCE)
        if not more:
            raise gone()
        return more

    def _write(self, lines: int) -> None:
        """Writes as much as goes without waiting where there is room at all."""
        try:
            written = os.write(lines, self._unsent[: select.PIPE_BUF])
        except ConnectionError as fault:
            raise gone() from fault
        del self._unsent[:written]

    def widen(self, room: int) -> None:
        """Gives the pipe of lines so much room, where it is a pipe and the system lets it."""
        with contextlib.suppress(OSError):
            fcntl.fcntl(self.files[0].fileno(), fcntl.F_SETPIPE_SZ, room)

    def close(self) -> None:
        for file in self.files:
            with contextlib.suppress(OSError):
                file.close()


def ready(wanted: dict[int, int], timeout: float | None) -> dict[int, int]:
    """What of the wanted events of descriptors is there within some seconds."""
    looking = select.poll()
    for descriptor, events in wanted.items():
        looking.register(descriptor, events)
    return dict(looking.poll(None if timeout is None else 1000 * timeout))


class Session:
    """A session: one question at a time and its reply, or many lines ahead.

    lines is written to and replies read from, each a file with a descriptor. Where a reply does not come in time the
    session is late: it takes no question until `settle` has passed over what is to come, as a `Server` has it do. Where
    a reply is broken off, as by an interrupt or the program's end, the session is closed: what comes next would be
    taken for another answer. lost_since: when it was closed or became late, by time.monotonic; None while it is whole.
    """

    def __init__(self, lines: BinaryIO, replies: BinaryIO, timeout: float | None = None) -> None:
        self._wire = Wire(lines, replies, timeout)
        self._ahead, self._late = False, 0
        self.closed, self.lost_since = False, cast("float | None", None)

    def ask(self, line: str) -> list[str]:
        """Sends a line of any command but BATCH, and gives the lines of its reply."""
        reply = self._exchange(request_bytes(str(line)))
        return [reply.first, *reply.lines()]

    def batch(self, lines: Iterable[str]) -> int:
        """Accepts 1 to 64 lines of PUT, DEFINE and DROP as one version, whose number it gives, or none of them."""
        return self._exchange(request_bytes(list(lines))).number()

    def _exchange(self, sent: bytes) -> Reply:
        """The reply to the bytes of one request, which was not refused."""
        self._begin()
        try:
            self._wire.send(sent)
            reply = self._wire.reply()
        except TimeoutError:
            self._be_late(1)
            raise
        except BaseException:
            self.close()
            raise
        if reply.refusal:
            raise reply.refusal
        return reply

    def _begin(self) -> None:
        if self.closed:
            raise gone()
        if self._late:
            raise TimeoutError("the reply to an earlier line has not come yet")
        if self._ahead:
            raise RuntimeError("what was asked ahead has not all its replies yet")

    def _be_late(self, replies: int) -> None:
        self._late, self.lost_since = replies, time.monotonic()

    def settle(self) -> None:
        """Waits for the replies that are late, for as long as it takes, and passes them over; then
        it is whole again."""
        timeout, self._wire.timeout = self._wire.timeout, None
        try:
            while self._late:
                self._wire.reply()
                self._late -= 1
        except BaseException:
            self.close()
            raise
        self._wire.timeout, self.lost_since = timeout, None

    def answers(self, requests: Iterable[Request], ahead: int = BYTES_AHEAD) -> Iterator[Reply]:
        """Sends many lines ahead, and gives the reply of each in order; one that is refused holds up no other.

        Requests are taken while fewer than so many bytes of them have no reply, so they may come from a generator that
        goes on for ever; one that needs an earlier reply must not. Until the last reply is read nothing else can be
        asked. Who leaves sooner, or whose requests raise, closes the session; a reply that does not come in time makes
        it late."""
        self._begin()
        self._ahead = True
        self._wire.widen(ahead)
        source, waiting = map(request_bytes, requests), deque[int]()
        try:
            self._post(source, waiting, ahead)
            while waiting:
                reply = self._wire.reply()
                waiting.popleft()
                self._post(source, waiting, ahead)
                yield reply
        except TimeoutError:
            if waiting:
                self._be_late(len(waiting))
            raise
        finally:
            self._ahead = False
            if waiting and not self._late:
                self.close()

    def _post(self, source: Iterator[bytes], waiting: deque[int], ahead: int) -> None:
        """Posts requests while fewer than so many bytes of them wait for a reply."""
        total = sum(waiting)
        while total < ahead and (request := next(source, None)) is not None:
            self._wire.post(request)
            waiting.append(len(request))
            total += len(request)
        self._wire.push()

    @staticmethod
    def put_line(name: str, wkt: str) -> str:
        """The PUT line of a text: each line feed and tab is made a space, so the offsets of faults stay."""
        return f"PUT {name} {wkt.translate(SPACES)}"

    def put(self, name: str, wkt: str) -> int:
        """Keeps the rings of a Well-Known Text. The number of the version that has them."""
        return number_of(self.ask(self.put_line(name, wkt)))

    def define(self, name: str, expression: str) -> int:
        """Keeps an expression over earlier layers. The number of the version that has it."""
        return number_of(self.ask(f"DEFINE {name} = {expression}"))

    def drop(self, name: str) -> int:
        """Takes a layer out. The number of the version that lacks it."""
        return number_of(self.ask(f"DROP {name}"))

    def layers(self) -> list[Layer]:
        """All layers in order."""
        return [layer_of(line) for line in self.ask("LAYERS")[1:]]

    def locate(self, name: str, x: int, y: int, w: int = 1) -> str:
        """Where (x / w, y / w) lies: 'in', 'out', or 'edge' on a segment of a base layer in reach."""
        return self.ask(f"LOCATE {name} {x} {y} {w}")[0]

    def grid(self, name: str, x: int, y: int, step: int, nx: int, ny: int) -> list[str]:
        """ny rows from y upwards, each of nx letters from x on: '#' in, '.' out, '+' edge."""
        return self.ask(f"GRID {name} {x} {y} {step} {nx} {ny}")[1:]

    def wait(self, name: str) -> int:
        """Waits until a derived layer is built, and gives the number of the version in which it is."""
        return number_of(self.ask(f"WAIT {name}"))

    def edges(self, name: str, column: int) -> list[Piece]:
        """The pieces of a derived layer's boundary that begin in a column."""
        return self._exchange(request_bytes(f"EDGES {name} {column}")).pieces()

    def columns(self, name: str) -> list[list[Piece] | None]:
        """Of each column of a derived layer the pieces, or None where it is pending. They may be of
        several versions."""
        replies = list(self.answers(edges_lines(name, range(COLUMNS))))
        return [None if is_pending(reply) else reply.pieces() for reply in replies]

    def boundary(self, name: str, columns: Iterable[int] = range(COLUMNS)) -> Boundary:
        """Waits for a derived layer, and gives its whole boundary at one version; or what begins in some columns.

        A session sees versions in their order. So where WAIT gives one number before and after the other questions,
        they were all answered at that version. Where another session has changed something in between, all is asked
        again."""
        questions = [f"WAIT {name}", "LAYERS", *edges_lines(name, columns), f"WAIT {name}"]
        while True:
            before, layers, *found, after = list(self.answers(questions))
            if before.number() == after.number():
                pieces = [piece for reply in found for piece in reply.pieces()]
                return Boundary(before.number(), pieces, [layer_of(line) for line in layers.lines()])

    def verify(self, name: str, column: int) -> str:
        """Builds a finished column anew and compares: 'same' or 'different'."""
        return self.ask(f"VERIFY {name} {column}")[0]

    def sync(self) -> int:
        """Waits until all that this session has seen is in the file. The number that is durable, at
        least that of it."""
        return number_of(self.ask("SYNC"))

    def close(self) -> None:
        """Ends the session, and nothing else: the program goes on until all of its sessions have ended."""
        self.closed = True
        self.lost_since = self.lost_since or time.monotonic()
        self._wire.close()


SPACES = {ord(mark): " " for mark in "\n\r\t"}


def number_of(reply: Sequence[str]) -> int:
    """The number of `ok N`, `built N` and `durable N`."""
    return Reply(reply[0]).number()


def is_pending(reply: Reply) -> bool:
    """Whether a column was asked that no worker has built yet."""
    return reply.refusal is not None and reply.refusal.number == PENDING


class Pool:
    """Sessions that threads borrow. One that is late is lent again once its replies have come, a closed one never."""

    def __init__(self, sessions: Sequence[Session]) -> None:
        self._free: queue.SimpleQueue[Session] = queue.SimpleQueue()
        self._all = list(sessions)
        for one in sessions:
            self._free.put(one)

    @contextlib.contextmanager
    def lend(self, timeout: float) -> Iterator[Session]:
        one = self._borrowed(time.monotonic() + timeout)
        try:
            yield one
        finally:
            self._give_back(one)

    def _give_back(self, one: Session) -> None:
        if one.closed or one.lost_since is None:
            self._free.put(one)
        else:
            threading.Thread(target=self._settle, args=(one,), daemon=True).start()

    def _settle(self, one: Session) -> None:
        with contextlib.suppress(Ended, OSError, ValueError):  # the last two where it is closed meanwhile
            one.settle()
        self._free.put(one)

    def lost(self) -> list[float]:
        """Since how many seconds each of those that are late or closed is."""
        since = [one.lost_since for one in self._all]
        return [time.monotonic() - begin for begin in since if begin is not None]

    def __len__(self) -> int:
        return len(self._all)

    def _borrowed(self, end: float) -> Session:
        """A free session that is whole. It looks each second whether there is still one to wait for."""
        while any(not one.closed for one in self._all):
            try:
                found = self._free.get(timeout=max(0.0, min(1.0, end - time.monotonic())))
            except queue.Empty:
                if time.monotonic() >= end:
                    raise TimeoutError("all sessions are asked") from None
                continue
            if found.lost_since is None:
                return found
            if not found.closed:
                self._give_back(found)
        raise Ended("all sessions have ended")


class Server:
    """A process of overlay_live and its sessions, over pipes that have no names.

    store: the file; without it all is kept in memory, and lost at the end. create: the file is made anew. read_only: it
    is opened for reading alone, as any number of programs may at once; what is put then lives in memory.
    timeout: how many seconds a session waits for a line of a reply, for ever where it is None; then it is late.
    A process that does not start raises its own fault as `Refused`."""

    def __init__(self, store: str | os.PathLike[str] | None = None, *, create: bool = False, read_only: bool = False,
                 sessions: int = 1, workers: int | None = None, max_blocks: int | None = None,
                 program: str | os.PathLike[str] = "overlay_live", timeout: float | None = None) -> None:
        if not 1 <= sessions <= MOST_SESSIONS:
            raise ValueError(f"a process has 1 to {MOST_SESSIONS} sessions")
        words = [os.fspath(program)]
        words += ["--store", os.fspath(store)] if store is not None else []
        words += ["--create"] * create + ["--read-only"] * read_only
        words += ["--workers", str(workers)] if workers is not None else []
        words += ["--max-blocks", str(max_blocks)] if max_blocks is not None else []
        self.store = None if store is None else pathlib.Path(store)
        self.program, self.read_only = os.fspath(program), read_only
        self.process, self.sessions = started(words, sessions, timeout)
        # What may sleep (WAIT, SYNC) goes by sessions of its own where there are several, so that it holds up no
        # LOCATE.
        quick = (sessions + 1) // 2
        self.quick = Pool(self.sessions[:quick])
        self.slow = Pool(self.sessions[quick:]) if sessions > 1 else self.quick
        try:
            self.sessions[0].layers()
        except BaseException as fault:
            status, errors = self.close()
            if not isinstance(fault, Ended):
                raise
            raise fault_of_start(errors) or Ended(f"the program ended with status {status}: {errors}") from None

    def session(self, *, slow: bool = False, timeout: float = 30) -> contextlib.AbstractContextManager[Session]:
        """Lends a session to one thread, `with server.session() as session:`; slow for what may sleep: WAIT, SYNC.

        Where none is free for so many seconds it raises TimeoutError, and Ended where none is left."""
        return (self.slow if slow else self.quick).lend(timeout)

    def close(self, timeout: float = 60) -> tuple[int, str]:
        """Ends all sessions, upon which the program commits and ends. Its exit status and what it reported of faults.

        A program that has not ended after so many seconds is killed."""
        for one in self.sessions:
            one.close()
        try:
            _, errors = self.process.communicate(timeout=timeout)
        except subprocess.TimeoutExpired:
            self.process.kill()
            _, errors = self.process.communicate()
        except ValueError:  # closed before
            errors = b""
        return self.process.returncode, errors.decode(errors="replace").strip()

    def __enter__(self) -> "Server":
        return self

    def __exit__(self, kind: type[BaseException] | None, fault: BaseException | None,
                 trace: TracebackType | None) -> None:
        self.close()


def started(words: list[str], sessions: int, timeout: float | None) -> tuple[subprocess.Popen[bytes], list[Session]]:
    """The process of some words and the sessions of as many pairs of pipes, which it opens as /dev/fd/N."""
    own: list[Session] = []
    given: list[int] = []
    try:
        for _ in range(sessions):
            line_in, line_out = os.pipe()
            reply_in, reply_out = os.pipe()
            given += [line_in, reply_out]
            own.append(Session(open(line_out, "wb", 0), open(reply_in, "rb", 0), timeout))
        # In a session of its own it does not get the interrupt that a terminal sends to all: its end is close.
        process = subprocess.Popen(words + [f"/dev/fd/{descriptor}" for descriptor in given], stdin=subprocess.DEVNULL,
                                   stdout=subprocess.DEVNULL, stderr=subprocess.PIPE, pass_fds=given,
                                   start_new_session=True)
    except BaseException:
        for session in own:
            session.close()
        raise
    finally:
        for descriptor in given:
            os.close(descriptor)
    return process, own
