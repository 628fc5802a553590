"""Stresses the live program: four sessions over one store, each reply judged by the plain model while they run.

python3 -m overlayd_lab.trials.live_stress PROGRAM [--seconds N] [--seed N] [--keep FOLDER]

PROGRAM is overlay_live. It runs again and again on one store, over pipes with and without names; the sessions share
layers. Each reply is judged as it comes. Two of three runs end by kill -9, the others by the end of all lines. The file
then holds a version no older than each `durable N` that was read, and the next run says the same; at the end its tiles
are compared with the model's. Status 1, and the store is kept: anything is wrong."""

import argparse
import bisect
import collections
import contextlib
import itertools
import os
import pathlib
import random
import select
import subprocess
import sys
import time
from collections.abc import Iterator, Sequence
from typing import Any, NamedTuple

from overlayd.grid.limits import COLUMNS
from overlayd.program import lines_after
from overlayd_lab.counting import Kept, Words, counted
from overlayd_lab.reference import judging, model, read_store
from overlayd_lab.trials import drawn_lines

SESSIONS = 4
PATIENCE = 60
BURSTS = [1, 1, 3, 15, 40]
BAD_SIZES = ["BATCH", "BATCH 0", "BATCH 65", "BATCH x", "BATCH 1 1"]

Reply = list[str]


# ---- lines


class LiveScript(drawn_lines.Script):
    """Draws the lines of one session, those of a batch together."""

    def batch(self) -> list[str]:
        """The lines of a batch, good or bad."""
        if self.draw.random() < 0.05:
            return [self.draw.choice(BAD_SIZES)]
        count = self.draw.choice([1, 2, 2, 3, 5])
        lines = [self.draw.choices([self.put, self.define, self.drop], [6, 4, 1])[0]() for _ in range(count)]
        if self.draw.random() < 0.1:
            lines[self.draw.randrange(count)] = self.draw.choice([self.broken, self.locate])()
        return [f"BATCH {count}", *lines]

    def lines(self) -> list[str]:
        """The lines that are drawn next."""
        return self.batch() if self.draw.random() < 0.08 else super().lines()


def scripts_of(seed: int) -> list[LiveScript]:
    """What draws the lines of each session."""
    draw = random.Random(seed)
    texts = [drawn_lines.text(draw) for _ in range(80)]
    points = [(draw.randrange(-65, 66), draw.randrange(-65, 66), draw.choice([1, 2, 3])) for _ in range(150)]
    points += [(x + step, 0, 1) for x in drawn_lines.FAR[1:-1] for step in (-1, 0, 1)]
    return [LiveScript(random.Random(f"{seed} {session}"), texts, points) for session in range(SESSIONS)]


# ---- judging while the sessions run


class Asked(NamedTuple):
    """A request, and the clock when it was sent."""

    request: Any
    sent: int


class Answer(NamedTuple):
    """A request with its reply, and the clock when that was read."""

    request: Any
    reply: Reply
    read: int


class Lane:
    """A session: what it has asked without a reply, and the replies that are still to be judged."""

    def __init__(self, history: judging.History) -> None:
        self.session = judging.Session(history, [], [], history.last(), True)
        self.asked: collections.deque[Asked] = collections.deque()
        self.answers: collections.deque[Answer] = collections.deque()

    def waiting(self) -> int:
        return len(self.asked) + len(self.answers)

    def last_accepted(self) -> int:
        """The least that the session's next command has to be above."""
        numbers = [judging.number_of(one.reply) for one in self.answers if one.reply[0].startswith("ok ")]
        return max([self.session.seen, *numbers])

    def kept(self) -> tuple[Any, ...]:
        """All that judging changes."""
        return list(self.asked), list(self.answers), self.session.seen, dict(self.session.built)

    def restore(self, kept: tuple[Any, ...]) -> None:
        asked, answers, self.session.seen, self.session.built = kept
        self.asked, self.answers = collections.deque(asked), collections.deque(answers)

    def has_asked_before(self, clock: int) -> bool:
        """Whether a command that was sent before some time has no reply yet."""
        return any(one.sent < clock and isinstance(one.request, judging.CHANGES) for one in self.asked)


class Judge:
    """Judges what a run of the program replies, over the history that the runs before it left."""

    def __init__(self, history: judging.History) -> None:
        self.history = history
        self.history.told_built.clear()
        self.clock = 1
        self.known: dict[int, Asked] = {}  # accepted, but not yet taken into the history, by number
        self.sent = [0] * len(history.versions)  # by version: when the last of the commands up to it was sent
        self.lanes = [Lane(history) for _ in range(SESSIONS)]
        self.durable = history.last()
        self.replies: collections.Counter[str] = collections.Counter()

    def ask(self, place: int, lines: Sequence[bytes]) -> None:
        """Takes down lines that are sent now."""
        self.clock += 1
        answered = [line for line in lines if model.is_answered(line)]
        self.lanes[place].asked.extend(Asked(one, self.clock) for one in judging.requests_of(answered))

    def read(self, place: int, reply: Reply) -> None:
        """Takes down a reply that was read now."""
        self.clock += 1
        lane = self.lanes[place]
        if not lane.asked:
            raise judging.Wrong(f"session {place + 1}: {reply[:3]} is no reply to any line")
        asked = lane.asked.popleft()
        if reply[0].startswith("ok "):
            self.accept(judging.number_of(reply), asked)
        if reply[0].startswith("built ") and isinstance(asked.request, model.Question) and asked.request.name:
            bisect.insort(self.history.told_built[asked.request.name], judging.number_of(reply))
        if reply[0].startswith("durable "):
            self.durable = max(self.durable, judging.number_of(reply))
        lane.answers.append(Answer(asked.request, reply, self.clock))

    def accept(self, number: int, asked: Asked) -> None:
        """Takes a command to its place in the history, as far as that goes without a gap."""
        if number in self.known or number <= self.history.last():
            raise judging.Wrong(f"two commands have the number {number}")
        if not isinstance(asked.request, judging.CHANGES):
            raise judging.Wrong(f"`ok {number}` is no reply to {str(asked.request)[:200]}")
        self.known[number] = asked
        while self.history.last() + 1 in self.known:
            self.add(self.known.pop(self.history.last() + 1))

    def add(self, asked: Asked) -> None:
        self.history.add(asked.request)
        self.sent.append(max(self.sent[-1], asked.sent))

    def judge(self, most: int) -> int:
        """Judges replies that can be judged by now, so many of each session. How many they were."""
        count = 0
        for place, lane in enumerate(self.lanes):
            for _ in range(min(most, len(lane.answers))):
                if not self.judge_first(place, lane):
                    break
                count += 1
        return count

    def judge_first(self, place: int, lane: Lane) -> bool:
        """Judges a session's first reply of those that wait; False where it has to wait for another reply."""
        request, reply, read = lane.answers[0]
        high = bisect.bisect_left(self.sent, read) - 1
        is_open = any(other is not lane and other.has_asked_before(read) for other in self.lanes)
        try:
            self.judge_one(lane.session, request, reply, high)
        except judging.Wrong as fault:
            if is_open:
                return False
            seen = f"versions {lane.session.seen} to {high}"
            asked = request.line() if isinstance(request, judging.REFUSALS) else request
            raise judging.Wrong(
                f"session {place + 1}, {seen}: {reply[:3]}: {fault}; asked {str(asked)[:300]}"
            ) from None
        lane.answers.popleft()
        self.replies[reply[0].split(" ")[0]] += 1
        return True

    def judge_one(self, session: judging.Session, request: Any, reply: Reply, high: int) -> None:
        if high < session.seen and not reply[0].startswith("ok "):
            raise judging.Wrong("what it saw is no version")
        session.asked, session.replies, session.bounds = [request], [reply], [high]
        if not session.judge(0):
            raise judging.Wrong("there is no reason for this refusal")

    # -- the end of a run

    def finish(self) -> None:
        """Judges all that is left of a run that answered every line."""
        self.judge(sys.maxsize)
        if any(lane.waiting() for lane in self.lanes) or self.known:
            raise judging.Wrong("there are lines without a reply, or numbers without a command")

    def cut_off(self, number: int, lines: Sequence[str]) -> None:
        """Judges all that is left of a run that was killed and left this version of these layers.

        Of each session the first line without a reply may have been run, the others not: each of these commands has
        some place in the history, or none, so that all replies are right."""
        if number < self.durable:
            raise judging.Wrong(f"version {self.durable} was reported durable, and the store has {number}")
        for lane in self.lanes:
            while len(lane.asked) > 1:
                lane.asked.pop()
        self.judge(sys.maxsize)
        lost = [lane for lane in self.lanes if lane.has_asked_before(sys.maxsize)]
        faults = []
        for count in range(len(lost) + 1):
            for lanes in itertools.permutations(lost, count):
                fault = self.fault_with(lanes, number, lines)
                if fault is None:
                    self.history.cut(number)
                    return
                faults.append(fault)
        raise judging.Wrong(f"killed, with {len(lost)} commands without a reply: {faults[0]}")

    def fault_with(self, lanes: Sequence[Lane], number: int, lines: Sequence[str]) -> str | None:
        """What is wrong where the lost commands of some sessions were run in this order. Then all is as before."""
        last, known = self.history.last(), dict(self.known)
        before = [lane.kept() for lane in self.lanes]
        try:
            self.fill(lanes)
            for lane in self.lanes:
                lane.asked.clear()
            self.finish()
            if number > self.history.last():
                raise judging.Wrong(f"the store has version {number}, and {self.history.last()} were accepted")
            if self.history.versions[number].lines() != lines:
                raise judging.Wrong(f"the layers of the store are not those of version {number}")
            return None
        except judging.Wrong as fault:
            self.history.cut(last)
            del self.sent[last + 1 :]
            self.known = known
            for lane, one in zip(self.lanes, before):
                lane.restore(one)
            return str(fault)

    def fill(self, lanes: Sequence[Lane]) -> None:
        """Takes what was cut off to the numbers that nobody has read, and then after all."""
        rest = list(lanes)
        while rest or self.known:
            number = self.history.last() + 1
            if number in self.known:
                self.add(self.known.pop(number))
            elif rest:
                lane = rest.pop(0)
                if number <= lane.last_accepted():
                    raise judging.Wrong(f"version {number} is older than what its session saw")
                self.add(lane.asked[0])
            else:
                raise judging.Wrong(f"no command has the number {number}")


# ---- a run of the program


class Channel:
    """The two pipes of a session."""

    def __init__(self, lines: int, replies: int) -> None:
        self.lines, self.replies = lines, replies
        self.to_send, self.held = b"", b""
        os.set_blocking(lines, False)
        os.set_blocking(replies, False)

    def send(self) -> None:
        """Sends as much as the pipe takes."""
        with contextlib.suppress(BlockingIOError, BrokenPipeError):
            while self.to_send:
                self.to_send = self.to_send[os.write(self.lines, self.to_send) :]

    def read(self) -> tuple[list[Reply], bool]:
        """The replies that are whole by now, and whether the pipe has ended."""
        is_ended = False
        with contextlib.suppress(BlockingIOError):
            part = os.read(self.replies, 1 << 20)
            is_ended = not part
            self.held += part
        found = []
        whole, _, self.held = self.held.rpartition(b"\n")
        lines = whole.decode().split("\n") if whole else []
        at = 0
        while at < len(lines):
            end = at + 1 + lines_after(lines[at])
            if end > len(lines):
                break
            found.append(lines[at:end])
            at = end
        self.held = "".join(line + "\n" for line in lines[at:]).encode() + self.held
        return found, is_ended

    def close(self) -> None:
        """Ends the session's lines."""
        if self.lines >= 0:
            os.close(self.lines)
            self.lines = -1


class Run:
    """The program with four sessions, and who judges it."""

    def __init__(self, process: subprocess.Popen[bytes], channels: list[Channel], judge: Judge) -> None:
        self.process, self.channels, self.judge = process, channels, judge

    def ask(self, place: int, lines: Sequence[str]) -> None:
        data = [line.encode() for line in lines]
        self.judge.ask(place, data)
        self.channels[place].to_send += b"".join(line + b"\n" for line in data)
        self.channels[place].send()

    def take(self, seconds: float) -> set[int]:
        """Waits for replies for at most some time and takes them. The sessions whose replies have ended."""
        looking = select.poll()
        for channel in self.channels:
            looking.register(channel.replies, select.POLLIN)
            if channel.to_send:
                looking.register(channel.lines, select.POLLOUT)
        ready = {file for file, _ in looking.poll(1000 * seconds)}
        ended = set()
        for place, channel in enumerate(self.channels):
            if channel.lines in ready:
                channel.send()
            if channel.replies in ready:
                replies, is_ended = channel.read()
                for reply in replies:
                    self.judge.read(place, reply)
                if is_ended:
                    ended.add(place)
        return ended

    def ask_alone(self, line: str) -> Reply:
        """The reply to a line of the first session, while nobody else asks."""
        self.ask(0, [line])
        end = time.monotonic() + PATIENCE
        lane = self.judge.lanes[0]
        while not lane.answers:
            if self.take(1) or time.monotonic() > end:
                raise judging.Wrong(f"no reply to {line}: {self.at_end(0)}")
        reply = lane.answers[-1].reply
        self.judge.judge(1)
        return reply

    def at_end(self, patience: float = PATIENCE) -> tuple[int | None, str]:
        """The status and standard error of a program that ends."""
        try:
            self.process.wait(patience)
        except subprocess.TimeoutExpired:
            self.process.kill()
            self.process.wait()
            return None, ""
        assert self.process.stderr
        return self.process.returncode, self.process.stderr.read().decode()

    def drain(self) -> None:
        """Reads and judges until all replies have ended."""
        ended: set[int] = set()
        end = time.monotonic() + PATIENCE
        while len(ended) < SESSIONS:
            ended |= self.take(0.2)
            self.judge.judge(20)
            if all(not one.to_send and one.lines >= 0 for one in self.channels):
                for channel in self.channels:
                    channel.close()
            if time.monotonic() > end:
                raise judging.Wrong("the replies do not end")

    def go(self, scripts: list[LiveScript], seconds: float) -> None:
        """Sends lines and judges replies for some time."""
        end, heard = time.monotonic() + seconds, time.monotonic()
        most = [script.draw.choice(BURSTS) for script in scripts]
        while time.monotonic() < end:
            for place, lane in enumerate(self.judge.lanes):
                while lane.waiting() < most[place]:
                    self.ask(place, scripts[place].lines())
            before = self.judge.clock
            self.take(0 if any(lane.answers for lane in self.judge.lanes) else 0.05)
            if self.judge.judge(5) or self.judge.clock > before:
                heard = time.monotonic()
            if time.monotonic() > heard + PATIENCE:
                raise judging.Wrong(f"no reply for {PATIENCE} seconds")


def without_names(words: list[str], judge: Judge) -> Run:
    """A run over pipes that the program opens as /dev/fd/N."""
    lines, replies = [os.pipe() for _ in range(SESSIONS)], [os.pipe() for _ in range(SESSIONS)]
    theirs = [file for (line_in, _), (_, reply_out) in zip(lines, replies) for file in (line_in, reply_out)]
    paths = [f"/dev/fd/{file}" for file in theirs]
    process = subprocess.Popen(words + paths, stdin=subprocess.DEVNULL, stdout=subprocess.DEVNULL,
                               stderr=subprocess.PIPE, pass_fds=theirs)
    for file in theirs:
        os.close(file)
    return Run(process, [Channel(line_out, reply_in) for (_, line_out), (reply_in, _) in zip(lines, replies)], judge)


def with_names(words: list[str], judge: Judge, folder: pathlib.Path) -> Run:
    """A run over named pipes. The own ends are opened first, so that nothing waits where the program does not come."""
    paths = [folder / f"{end}{place}" for place in range(SESSIONS) for end in ("in", "out")]
    for path in paths:
        if not path.exists():
            os.mkfifo(path)
    channels = [
        Channel(os.open(lines, os.O_RDWR | os.O_NONBLOCK), os.open(replies, os.O_RDONLY | os.O_NONBLOCK))
        for lines, replies in zip(paths[::2], paths[1::2])
    ]
    process = subprocess.Popen(words + list(map(str, paths)), stdin=subprocess.DEVNULL, stdout=subprocess.DEVNULL,
                               stderr=subprocess.PIPE)
    return Run(process, channels, judge)


@contextlib.contextmanager
def closing(run: Run) -> Iterator[Run]:
    """A run of which nothing is left behind."""
    try:
        yield run
    finally:
        run.process.kill()
        run.process.wait()
        if run.process.stderr:
            run.process.stderr.close()
        for channel in run.channels:
            channel.close()
            os.close(channel.replies)


# ---- all runs


class Stress:
    """The runs on one store."""

    def __init__(self, program: str, folder: pathlib.Path, seed: int) -> None:
        self.program, self.folder = program, folder
        self.store = folder / "store.db"
        self.draw = random.Random(f"runs {seed}")
        self.scripts = scripts_of(seed)
        self.history = judging.History(model.Meanings())
        self.replies: collections.Counter[str] = collections.Counter()
        self.kills = self.ends = self.lost = 0

    def started(self) -> Run:
        """The program once more, with what it says of the store looked at."""
        words = [self.program, "--store", str(self.store), "--workers", str(self.draw.randrange(1, 9))]
        judge = Judge(self.history)
        words += [] if self.store.exists() else ["--create"]
        return with_names(words, judge, self.folder) if self.draw.random() < 0.4 else without_names(words, judge)

    def open_again(self, run: Run) -> None:
        """Asks for version and layers of the store that a run has opened."""
        number = self.history.last()
        wanted = [f"durable {number}"]
        reply = run.ask_alone("SYNC")
        if reply != wanted:
            raise judging.Wrong(f"opened again: {reply}, not {wanted}: {run.at_end(0)}")
        layers = run.ask_alone("LAYERS")[1:]
        if layers != self.history.versions[number].lines():
            raise judging.Wrong(f"opened again: other layers than those of version {number}")

    def in_file(self) -> tuple[int, list[str]]:
        """Version and layers of the store, by its file."""
        lines = read_store.summary(self.store.read_bytes())
        if not lines[0].startswith("version "):
            raise judging.Wrong(f"the file is refused: {lines[0]}")
        return int(lines[0].split(" ")[1]), [line[6:] for line in lines if line.startswith("layer ")]

    def run(self, seconds: float, is_killed: bool) -> None:
        """One run of the program, from its start to its end."""
        with closing(self.started()) as run:
            self.open_again(run)
            run.go(self.scripts, seconds)
            if is_killed:
                run.process.kill()
                run.process.wait()
                for channel in run.channels:
                    channel.to_send = b""
            run.drain()
            if is_killed:
                accepted = max([run.judge.history.last(), *run.judge.known])
                number, lines = self.in_file()
                run.judge.cut_off(number, lines)
                self.kills, self.lost = self.kills + 1, self.lost + max(0, accepted - number)
            else:
                self.end(run)
            self.replies += run.judge.replies

    def end(self, run: Run) -> None:
        """Looks at a run that ended by itself."""
        run.judge.finish()
        ended = run.at_end()
        if ended != (0, ""):
            raise judging.Wrong(f"status and standard error {ended}")
        number, lines = self.in_file()
        if number != self.history.last() or lines != self.history.versions[number].lines():
            raise judging.Wrong(f"ended with version {self.history.last()}, and the file has {number}, or other layers")
        self.ends += 1

    def tiles_in_file(self) -> None:
        """Looks at the tiles that the store's file holds."""
        for (name, column), pieces in read_store.tiles_in(self.store.read_bytes()).items():
            if pieces != self.history.meanings.tile(self.history.key_at(name, self.history.last()), column):
                raise judging.Wrong(f"the store's tile {name} {column}")

    def asked_once_more(self) -> None:
        """Opens the store and asks for all layers at points, and for tiles of those that are waited for."""
        layers = self.history.versions[-1]
        with closing(self.started()) as run:
            self.open_again(run)
            for name in layers.names:
                for line in self.final_lines(name, layers.is_derived(name)):
                    run.ask_alone(line)
            run.drain()
            self.end(run)

    def final_lines(self, name: str, is_derived: bool) -> list[str]:
        points = [(self.draw.randrange(-62, 63), self.draw.randrange(-62, 63)) for _ in range(10)]
        lines = [f"LOCATE {name} {x} {y}" for x, y in points]
        if is_derived:
            columns = [15, 16, self.draw.randrange(COLUMNS)]
            lines.append(f"WAIT {name}")
            lines += [f"{word} {name} {column}" for column in columns for word in ("EDGES", "VERIFY")]
        return lines


def stressed(words: argparse.Namespace, folder: pathlib.Path) -> tuple[int, int]:
    """Runs the whole; how many runs and looks were right, and how many were not."""
    whole = Stress(os.path.abspath(words.program), folder, words.seed)
    end, passed = time.monotonic() + words.seconds, 0
    try:
        while time.monotonic() < end or passed < 3:
            whole.run(min(whole.draw.choice([0.3, 1, 1, 3]), max(0.3, end - time.monotonic())), passed % 3 != 2)
            passed += 1
        for look in (whole.tiles_in_file, whole.asked_once_more):
            look()
            passed += 1
        failed = 0
    except (judging.Wrong, OSError, ValueError) as fault:
        print(f"wrong: {type(fault).__name__}: {fault}; the store is {whole.store}")
        failed = 1
    print(
        f"runs ended by kill {whole.kills}, by themselves {whole.ends}; accepted {whole.history.last()}, and "
        f"{whole.lost} lost by kills that were reported durable to nobody; "
        f"replies judged {sum(whole.replies.values())}: "
        + ", ".join(f"{kind} {count}" for kind, count in sorted(whole.replies.items()))
    )
    return passed, failed


def main() -> int:
    parser = Words(__doc__)
    parser.add_argument("program", help="overlay_live")
    parser.add_argument("--seconds", type=float, default=60, help="how long runs begin (60)")
    parser.add_argument("--seed", type=int, default=1)
    parser.add_argument("--keep", metavar="FOLDER", help="keeps the store here")
    words = parser.parse_args()
    kept = Kept(words.keep, "live_stress")
    passed, kept.wrong = stressed(words, kept.folder)
    kept.end()
    return counted(passed, kept.wrong)


if __name__ == "__main__":
    sys.exit(main())
