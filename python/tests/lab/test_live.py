"""What the built overlay_live does: replies at once, pairs of paths, stores, faults.

overlayd runs the scripts of examples/ beside it, which have to give the same bytes by both, and reads what it kept."""

import contextlib
import os
import pathlib
import resource
import select
import shutil
import subprocess
import tempfile
import time
from collections.abc import Iterator

import pytest

from overlayd_lab import TOP

EXAMPLES = TOP / "examples"
SECONDS = 100  # that a reply, or the end of a run, may take
SOON = 4  # the seconds within which what waits for no tile is answered
SQUARE = "POLYGON ((0 0, 10 0, 10 10, 0 10, 0 0))"
A = f"PUT A {SQUARE}\n"
SCRIPT_LIMIT = 16_777_216
NOBODY = 65534
VERSION = "overlay_live 1.0, file format 2\n"


# What the system, or the program, says of a file that cannot be opened.
ABSENT = "No such file or directory (os error 2)"
FOLDER = "Is a directory (os error 21)"
NOT_PLAIN = "not a plain file"
IN_USE = "it is in use"


class Session:
    """Lines that are sent and replies that are read, one at a time."""

    def __init__(self, lines: int, replies: int) -> None:
        self.lines, self.replies, self.read = lines, replies, b""

    def send(self, text: str) -> None:
        """Sends text, of which nothing is kept back."""
        data = text.encode()
        while data:
            data = data[os.write(self.lines, data) :]

    def reply(self) -> str:
        """The next line of replies."""
        while b"\n" not in self.read:
            if not select.select([self.replies], [], [], SECONDS)[0]:
                raise AssertionError("no reply")
            part = os.read(self.replies, 65536)
            if not part:
                raise AssertionError(f"the replies ended behind {self.read!r}")
            self.read += part
        line, self.read = self.read.split(b"\n", 1)
        return line.decode()

    def ask(self, line: str) -> str:
        """The reply to a line."""
        self.send(line + "\n")
        return self.reply()

    def is_silent(self, seconds: float = 0.2) -> bool:
        """Whether no reply comes for a while."""
        return not self.read and not select.select([self.replies], [], [], seconds)[0]


class Running:
    """The program while it runs."""

    def __init__(self, process: subprocess.Popen[bytes], sessions: list[Session]) -> None:
        self.process, self.sessions = process, sessions

    def end(self) -> tuple[int, str]:
        """Ends the input of each session that still has one; gives the status and standard error."""
        for session in self.sessions:
            if session.lines >= 0:
                os.close(session.lines)
                session.lines = -1
        errors = self.process.stderr.read().decode() if self.process.stderr else ""
        return self.process.wait(SECONDS), errors

    def kill(self) -> None:
        """Ends the program as the system does that is out of memory."""
        self.process.kill()
        self.process.wait(SECONDS)


class Place:
    """The two programs, and a folder of a test's own."""

    def __init__(self, live: str, overlayd: str, folder: pathlib.Path) -> None:
        self.live, self.overlayd, self.folder = live, overlayd, folder

    def file(self, name: str) -> pathlib.Path:
        """A file of the folder."""
        return self.folder / name

    def run(self, *words: str | bytes, script: str | bytes = "", program: str | None = None) -> tuple[int, str, str]:
        """A run from a script to its end: its status, what it wrote, and standard error."""
        data = script.encode() if isinstance(script, str) else script
        ran = subprocess.run([program or self.live, *words], input=data, capture_output=True, cwd=self.folder,
                             timeout=SECONDS, check=False)
        return ran.returncode, ran.stdout.decode(), ran.stderr.decode()

    @contextlib.contextmanager
    def started(self, *words: str, program: str | None = None, user: int | None = None) -> Iterator[Running]:
        """A run with one session over pipes."""
        own_in, to = os.pipe()
        back, own_out = os.pipe()
        process = subprocess.Popen([program or self.live, *words], stdin=own_in, stdout=own_out, stderr=subprocess.PIPE,
                                   cwd=self.folder, user=user)
        os.close(own_in)
        os.close(own_out)
        yield from watched(Running(process, [Session(to, back)]))

    @contextlib.contextmanager
    def started_with_pairs(self, count: int, *words: str) -> Iterator[Running]:
        """A run with sessions over pipes that have no names."""
        inputs, outputs = [os.pipe() for _ in range(count)], [os.pipe() for _ in range(count)]
        paths = [f"/dev/fd/{fd}" for (own_in, _), (_, own_out) in zip(inputs, outputs) for fd in (own_in, own_out)]
        theirs = [fd for (own_in, _), (_, own_out) in zip(inputs, outputs) for fd in (own_in, own_out)]
        process = subprocess.Popen([self.live, *words, *paths], stdin=subprocess.DEVNULL, stderr=subprocess.PIPE,
                                   pass_fds=theirs, cwd=self.folder)
        for fd in theirs:
            os.close(fd)
        sessions = [Session(to, back) for (_, to), (back, _) in zip(inputs, outputs)]
        yield from watched(Running(process, sessions))


def watched(running: Running) -> Iterator[Running]:
    """Gives a run, of which nothing is left behind."""
    try:
        yield running
    finally:
        running.process.kill()
        running.process.wait(SECONDS)
        if running.process.stderr:
            running.process.stderr.close()
        for session in running.sessions:
            for fd in (session.lines, session.replies):
                if fd >= 0:
                    with contextlib.suppress(OSError):
                        os.close(fd)


@pytest.fixture
def place(overlay_live: str, overlayd: str) -> Iterator[Place]:
    """A folder that every user may enter."""
    with tempfile.TemporaryDirectory() as made:
        folder = pathlib.Path(made)
        folder.chmod(0o755)
        yield Place(overlay_live, overlayd, folder)


# ---- words


def test_wrong_words(place: Place) -> None:
    for words in (
        ["-h"], ["--"], ["-x"], ["--help", "--version"], ["--help", "--store", "a"], ["--store", "a", "--version"],
        ["--store"], ["--store", "a", "--store", "b"], ["--store=a"], ["--create"], ["--read-only"],
        ["--store", "a", "--create", "--read-only"], ["--store", "a", "--read-only", "--read-only"], ["--workers", "0"],
        ["--workers", "9"], ["--workers", "+3"], ["--workers", "00000001"], ["--max-blocks", "0"],
        ["--max-blocks", "1048577"], ["a"], ["a", "b", "c"], ["a", "b", "c", "d", "e", "f", "g", "h", "i"],
        ["a", "b", "c", "d", "e", "f", "g", "h", "i", "j"],
    ):
        assert (words, *place.run(*words)) == (words, 2, "", "error 50 words\n")
    assert place.run(b"\xff") == (2, "", "error 50 words\n")
    assert sorted(place.folder.iterdir()) == []


def test_right_words(place: Place) -> None:
    place.file("in").write_text("LOCATE Z 1 1\n")
    assert place.run("--workers", "0000008", "in", "out", "--max-blocks", "1048576") == (0, "", "")
    assert place.file("out").read_text() == "error 10 unknown layer\n"
    assert place.run("--create", "in", "--store", "map", "other") == (0, "", "")
    assert place.file("other").read_text() == "error 10 unknown layer\n"
    assert place.run("--store", "map", script=A) == (0, "ok 1\n", "")
    assert place.run("--read-only", "--store", "map", script="LOCATE A 2 2\n") == (0, "in\n", "")
    place.file("-").write_text("LAYERS\n")
    assert place.run("-", "other") == (0, "", "")
    # What stood in a file of replies is gone, as behind a shell's `>`.
    assert place.file("other").read_text() == "layers 0\n"


def fault(error: str, file: str, reason: str = "") -> str:
    """What is reported on standard error: a fault, then the file that it is about and what the system said of it."""
    return f"error {error}\n{file}{': ' if reason else ''}{reason}\n"


def test_texts(place: Place) -> None:
    assert place.run("--version", script=A) == (0, VERSION, "")
    status, text, errors = place.run("--help")
    assert (status, errors, text.endswith("\n"), max(map(len, text.splitlines())) <= 80) == (0, "", True, True)
    for word in ("--store FILE", "--create", "--read-only", "--workers N", "--max-blocks N", "IN OUT"):
        assert (word, word in text) == (word, True)
    with open("/dev/full", "w", encoding="utf-8") as full:
        ran = subprocess.run([place.live, "--help"], stdout=full, stderr=subprocess.PIPE, timeout=SECONDS, check=False)
    assert (ran.returncode, ran.stderr) == (1, b"error 49 write\n")


# ---- replies


def test_a_reply_before_the_input_ends(place: Place) -> None:
    with place.started("--store", "map", "--create") as run:
        one = run.sessions[0]
        assert one.ask(A.strip()) == "ok 1"
        assert one.ask("LOCATE A 2 2") == "in"
        assert one.ask("SYNC") == "durable 1"
        # Half a line has no reply, nor has a batch before its last line.
        one.send("LOCATE A ")
        assert one.is_silent()
        assert one.ask("10 5") == "edge"
        one.send(f"BATCH 2\n{A}")
        assert one.is_silent()
        assert one.ask("DEFINE B = A") == "ok 2"
        assert one.ask("WAIT B") == "built 2"
        # Replies that come from many lines at once stand in their order.
        one.send("HELLO\nLOCATE B 5 5\nLOCATE B 50 50\n# none\n\nVERIFY B 16\n")
        assert [one.reply() for _ in range(4)] == ["error 41 command syntax", "in", "out", "same"]
        # A last line may lack its LF.
        one.send("LOCATE A 0 0")
        os.close(one.lines)
        one.lines = -1
        assert one.reply() == "edge"
        assert run.end() == (0, "")
    assert place.run("--store", "map", script="SYNC\nVERIFY B 16\n") == (0, "durable 2\nsame\n", "")


def four_pairs(run: Running) -> None:
    """Four sessions over one map: the numbers are shared, each once and rising in a session; each
    reads its own replies."""
    numbers: list[int] = []
    for round_number in range(3):
        for k, one in enumerate(run.sessions):
            one.send(f"PUT L{k} POLYGON ((0 0, {10 + k} 0, {10 + k} 10, 0 10, 0 0))\nLOCATE L{k} {10 + k} 5\n")
        for k, one in enumerate(run.sessions):
            word, number = one.reply().split()
            assert (word, one.reply()) == ("ok", "edge")
            numbers.append(int(number))
        assert sorted(numbers) == list(range(1, 4 * round_number + 5))
    for one in run.sessions:
        assert [one.ask(f"LOCATE L{k} 5 5") for k in range(4)] == ["in"] * 4
    # One session ends; the others go on.
    os.close(run.sessions[1].lines)
    run.sessions[1].lines = -1
    assert run.sessions[2].ask("DROP L1") == "ok 13"
    assert run.sessions[0].ask("LAYERS") == "layers 3"
    assert sorted(run.sessions[0].reply().split()[0] for _ in range(3)) == ["L0", "L2", "L3"]
    assert run.end() == (0, "")


def test_four_pairs_without_names(place: Place) -> None:
    with place.started_with_pairs(4, "--store", "map", "--create") as run:
        four_pairs(run)
    assert place.run("--store", "map", script="SYNC\n") == (0, "durable 13\n", "")


def test_four_pairs_of_named_pipes(place: Place) -> None:
    paths = [place.file(f"{end}{k}") for k in range(4) for end in ("in", "out")]
    for path in paths:
        os.mkfifo(path)
    process = subprocess.Popen([place.live, *map(str, paths)], stdin=subprocess.DEVNULL, stderr=subprocess.PIPE,
                               cwd=place.folder)
    run = Running(process, [])
    with contextlib.contextmanager(watched)(run):
        # In the order in which the program opens them: each opening waits for the other end.
        for k in range(4):
            lines = os.open(paths[2 * k], os.O_WRONLY)
            run.sessions.append(Session(lines, os.open(paths[2 * k + 1], os.O_RDONLY)))
        four_pairs(run)


def test_a_reader_that_goes_away(place: Place) -> None:
    with place.started_with_pairs(2, "--store", "map", "--create") as run:
        gone, other = run.sessions
        assert gone.ask(A.strip()) == "ok 1"
        os.close(gone.replies)
        gone.replies = -1
        gone.send("LOCATE A 2 2\n")
        assert other.ask("LOCATE A 2 2") == "in"
        assert other.ask(A.strip().replace("A", "B", 1)) == "ok 2"
        status, errors = run.end()
        assert (status, errors.startswith("error 49 write\n/dev/fd/")) == (1, True)
    # The others' layers are there, and what it had put before.
    assert place.run("--store", "map", script="LOCATE A 2 2\nLOCATE B 2 2\nSYNC\n") == (0, "in\nin\ndurable 2\n", "")


def test_a_long_session(place: Place) -> None:
    """More than a script may have, through one session; nothing of it is kept."""
    comment = "#" + "x" * 65_534 + "\n"
    with place.started() as run:
        one = run.sessions[0]
        assert one.ask(A.strip()) == "ok 1"
        sent, sizes = 0, []
        for k in range(320):
            one.send(comment)
            sent += len(comment)
            if k % 16 == 0:
                assert one.ask(f"LOCATE A {k % 10} 5 1") == ("edge" if k % 10 == 0 else "in")
                sizes.append(resident(run.process.pid))
        assert sent > SCRIPT_LIMIT + 4_000_000
        assert one.ask("LOCATE A 5 5") == "in"
        assert (sizes, max(sizes[1:]) - sizes[1] < 500) == (sizes, True)
        assert run.end() == (0, "")


def resident(pid: int) -> int:
    """The kilobytes of memory that a process holds."""
    lines = pathlib.Path(f"/proc/{pid}/status").read_text(encoding="ascii").splitlines()
    return int(next(line for line in lines if line.startswith("VmRSS")).split()[1])


def test_examples_by_both_programs(place: Place) -> None:
    scripts = sorted(EXAMPLES.glob("*.txt"))
    assert len(scripts) > 20
    for script in scripts:
        data = script.read_bytes()
        assert (script.name, *place.run(script=data)) == (script.name, *place.run(script=data, program=place.overlayd))


# ---- stores


def test_killed_and_opened_again(place: Place) -> None:
    """What a session read to be durable is there after the program was killed amid further lines."""
    place.run("--store", "map", "--create")
    known = 0
    for round_number in range(6):
        with place.started("--store", "map") as run:
            one = run.sessions[0]
            number = int(one.ask("SYNC").split()[1])
            assert (round_number, number >= known) == (round_number, True)
            # Version n has a layer that is n wide.
            assert one.ask(f"LOCATE A {number} 5") == ("edge" if number else "error 10 unknown layer")
            for width in range(number + 1, number + 6):
                assert one.ask(f"PUT A POLYGON ((0 0, {width} 0, {width} 10, 0 10, 0 0))") == f"ok {width}"
                if width % 2:
                    known = int(one.ask("SYNC").split()[1])
                    assert known == width
            last = number + 5
            one.send("".join(f"PUT A POLYGON ((0 0, {w} 0, {w} 10, 0 10, 0 0))\nSYNC\n"
                             for w in range(last + 1, last + 40)))
            for _ in range(round_number * 5):
                word, durable = one.reply().split()
                known = max(known, int(durable)) if word == "durable" else known
            run.kill()
    status, text, errors = place.run("--store", "map", script="SYNC\n", program=place.overlayd)
    assert (status, errors, int(text.split()[1]) >= known) == (0, "", True)


def test_stores_that_are_refused(place: Place) -> None:
    """A store's fault is reported before anybody waits at a pair."""
    os.mkfifo(place.file("in"))
    os.mkfifo(place.file("out"))
    place.file("byte").write_bytes(b"x")
    for words, error, reason in (
        (["absent"], "30 device", ABSENT), (["byte"], "32 not a store", ""), (["byte", "--create"], "34 not empty", ""),
        ([".", "--create"], "30 device", FOLDER), (["two", "--create", "--max-blocks", "2"], "31 full", ""),
        (["absent", "--read-only"], "30 device", ABSENT), ([".", "--read-only"], "30 device", NOT_PLAIN),
        (["in", "--read-only"], "30 device", NOT_PLAIN), (["/dev/null", "--read-only"], "30 device", NOT_PLAIN),
        (["byte", "--read-only"], "32 not a store", ""),
    ):
        assert (words, *place.run("--store", *words, "in", "out")) == (words, 1, "", fault(error, words[0], reason))
    assert not place.file("absent").exists()


def test_damaged_stores(place: Place) -> None:
    assert place.run("--store", "map", "--create", "--max-blocks", "5", script=A) == (0, "ok 1\n", "")
    whole = place.file("map").read_bytes()
    # The format's number in the open slot of block 1, and a file that ends before its catalog.
    for number, damage in ((1, whole[:4120] + b"\0\0\0\3" + whole[4124:]), (3, whole[: 4 * 4096])):
        place.file("map").write_bytes(damage)
        for words in ([], ["--read-only"]):
            assert (number, *place.run("--store", "map", *words)) == \
                (number, 1, "", fault(f"33 damaged {number}", "map"))
        assert place.file("map").read_bytes() == damage


def test_pairs_that_cannot_be_opened(place: Place) -> None:
    place.file("in").write_text(A)
    assert place.run("absent", "out") == (1, "", fault("48 read", "absent", ABSENT))
    assert place.run("in", "absent/out") == (1, "", fault("48 read", "absent/out", ABSENT))
    assert place.run("in", "out", "in", ".") == (1, "", fault("48 read", ".", FOLDER))
    assert place.run("in", "/dev/full") == (1, "", fault("49 write", "/dev/full"))
    assert place.run("in", "out", "in", "/dev/full", "in", "last") == (1, "", fault("49 write", "/dev/full"))
    # A folder opens, and cannot be read: its session ends so, and says so.
    place.file("folder").mkdir()
    assert place.run("--store", "map", "--create", "folder", "first", "in", "second") == (1, "", "")
    assert (place.file("first").read_text(), place.file("second").read_text()) == ("error 48 read\n", "ok 1\n")
    assert place.run("--store", "map", script="SYNC\n") == (0, "durable 1\n", "")


def test_files_in_use(place: Place) -> None:
    """Replies go into no file that somebody has: the store, a file that is read, another pair's."""
    whole = made(place)
    place.file("in").write_text(A)
    for words in ([], ["--read-only"]):
        assert (words, *place.run("--store", "map", *words, "in", "map")) == \
            (words, 1, "", fault("48 read", "map", IN_USE))
    assert place.run("--store", "map", "map", "out") == (1, "", fault("48 read", "map", IN_USE))
    assert place.run("in", "in") == (1, "", fault("48 read", "in", IN_USE))
    assert place.run("in", "out", "in", "out") == (1, "", fault("48 read", "out", IN_USE))
    assert (place.file("map").read_bytes(), place.file("in").read_text()) == (whole, A)


def test_replies_go_into_no_store(place: Place) -> None:
    """A store that is given where replies go is refused and left as it is, also one that a crash
    left or that is damaged."""
    whole = made(place)
    place.file("in").write_text(A)
    refused = (1, "", fault("48 read", "map", "it is a store"))
    torn, cut = whole[:16] + bytes(48) + whole[64:], b"\0" + whole[1:4096] + b"\0" + whole[4097:]
    for store in (whole, torn, cut, whole[:4096]):
        place.file("map").write_bytes(store)
        assert place.run("in", "map") == refused
        assert place.run("--store", "other", "--create", "in", "map") == refused
        place.file("other").unlink()
        assert place.file("map").read_bytes() == store
    # Each other file is written from its beginning, as before.
    for text in (b"", b"x" * 10000, whole[16:]):
        place.file("out").write_bytes(text)
        assert (place.run("in", "out"), place.file("out").read_bytes()) == ((0, "", ""), b"ok 1\n")


def test_a_full_store(place: Place) -> None:
    with place.started("--store", "map", "--create", "--max-blocks", "4") as run:
        one = run.sessions[0]
        assert [one.ask(A.strip()), one.ask("SYNC"), one.ask("LOCATE A 2 2")] == ["ok 1", "error 31 full", "in"]
        assert run.end() == (1, fault("31 full", "map"))
    assert place.run("--store", "map", "--max-blocks", "5", script="LAYERS\n" + A + "SYNC\n") == \
        (0, "layers 0\nok 1\ndurable 1\n", "")


def test_output_that_is_refused(place: Place) -> None:
    with open("/dev/full", "w", encoding="utf-8") as full:
        ran = subprocess.run([place.live, "--store", "map", "--create"], input=A.encode(), stdout=full,
                             stderr=subprocess.PIPE, cwd=place.folder, timeout=SECONDS, check=False)
    assert (ran.returncode, ran.stderr) == (1, b"error 49 write\n")
    # The command was run before its reply failed, and is in the store.
    assert place.run("--store", "map", script="SYNC\n") == (0, "durable 1\n", "")


def test_committed_once_more(place: Place) -> None:
    """What was built after the last SYNC is in the file at the end."""
    with place.started("--store", "map", "--create") as run:
        one = run.sessions[0]
        assert [one.ask(A.strip()), one.ask("DEFINE B = A"), one.ask("WAIT B")] == ["ok 1", "ok 2", "built 2"]
        assert run.end() == (0, "")
    # Nothing of it has to be built, so nothing has to be written.
    before = place.file("map").read_bytes()
    assert place.run("--store", "map", "--read-only", script="WAIT B\nSYNC\n") == (0, "built 2\ndurable 2\n", "")
    assert place.file("map").read_bytes() == before


# ---- reading alone


def made(place: Place) -> bytes:
    """A store of two versions, and its bytes."""
    assert place.run("--store", "map", "--create", script=A + "SYNC\nDEFINE B = A\nWAIT B\nSYNC\n")[0] == 0
    return place.file("map").read_bytes()


def test_read_by_several_at_once(place: Place) -> None:
    before = made(place)
    with contextlib.ExitStack() as stack:
        runs = [stack.enter_context(place.started("--store", "map", "--read-only")) for _ in range(3)]
        for one in (run.sessions[0] for run in runs):
            assert [one.ask("LOCATE B 5 5"), one.ask("SYNC")] == ["in", "durable 2"]
        # Each puts layers of its own, which nobody else sees, and which cannot be durable.
        for k, one in enumerate(run.sessions[0] for run in runs):
            assert one.ask(f"PUT C{k} {SQUARE}") == "ok 3"
            assert [one.ask(f"DEFINE D = C{k} & B"), one.ask("WAIT D"), one.ask("LOCATE D 5 5")] == \
                ["ok 4", "built 4", "in"]
            assert [one.ask("SYNC"), one.ask("LAYERS")] == ["error 30 device", "layers 4"]
            assert [one.reply().split()[0] for _ in range(4)] == ["A", "B", f"C{k}", "D"]
        # Nobody writes to it meanwhile.
        assert place.run("--store", "map") == (1, "", fault("30 device", "map", IN_USE))
        assert place.run("--store", "map", program=place.overlayd) == (1, "", "error 30 device\n")
        assert [run.end() for run in runs] == [(0, "")] * 3
    assert place.file("map").read_bytes() == before
    with place.started("--store", "map") as run:
        assert run.sessions[0].ask("SYNC") == "durable 2"
        assert place.run("--store", "map", "--read-only") == (1, "", fault("30 device", "map", IN_USE))
        assert run.end() == (0, "")


def test_read_where_nothing_can_be_written(place: Place) -> None:
    """A file, in a folder, of which a user may read alone."""
    before = made(place)
    user = None
    if os.geteuid() == 0:
        user = NOBODY
        for program in (place.live, place.overlayd):
            shutil.copy(program, place.file(pathlib.Path(program).name))
    live, overlayd = (str(place.file(pathlib.Path(one).name)) if user else one for one in (place.live, place.overlayd))
    own = Place(live, overlayd, place.folder)
    place.file("map").chmod(0o444)
    place.folder.chmod(0o555)
    try:
        with own.started("--store", "map", user=user) as run:
            assert run.end() == (1, fault("30 device", "map", "Permission denied (os error 13)"))
        with own.started("--store", "map", "--read-only", user=user) as run:
            one = run.sessions[0]
            assert [one.ask("LOCATE B 5 5"), one.ask(f"PUT C {SQUARE}"), one.ask("SYNC")] == \
                ["in", "ok 3", "error 30 device"]
            assert run.end() == (0, "")
    finally:
        place.folder.chmod(0o755)
    assert place.file("map").read_bytes() == before


def test_an_opening_that_has_to_write(place: Place) -> None:
    """A commit that was cut off, or is still to come, is prepared by the opening: not where the file is read alone."""
    whole = made(place)
    for gate in (0, 4096):
        cut = whole[:gate] + b"\0" + whole[gate + 1 :]
        place.file("map").write_bytes(cut)
        assert (gate, *place.run("--store", "map", "--read-only")) == (gate, 1, "", fault("30 device", "map"))
        assert place.file("map").read_bytes() == cut
    assert place.run("--store", "map", script="DROP B\n") == (0, "ok 3\n", "")
    assert place.run("--store", "map", "--read-only", script="LAYERS\n")[0] == 0
    assert place.run("--store", "new", "--create") == (0, "", "")
    assert place.run("--store", "new", "--read-only") == (1, "", fault("30 device", "new"))


# ---- one program a file


def test_a_second_program(place: Place) -> None:
    """Refused while another has the file, and changes nothing; let in when that has ended, however it ended."""
    with place.started("--store", "map", "--create") as run:
        one = run.sessions[0]
        assert [one.ask(A.strip()), one.ask("SYNC")] == ["ok 1", "durable 1"]
        before = place.file("map").read_bytes()
        for program, refused in ((place.live, fault("30 device", "map", IN_USE)),
                                 (place.overlayd, "error 30 device\n")):
            for words in ([], ["--create"]):
                assert (words, *place.run("--store", "map", *words, script=A, program=program)) == \
                    (words, 1, "", refused)
        assert place.file("map").read_bytes() == before
        assert [one.ask("DEFINE B = A"), one.ask("SYNC")] == ["ok 2", "durable 2"]
        assert run.end() == (0, "")
    with place.started("--store", "map") as run:
        assert run.sessions[0].ask("SYNC") == "durable 2"
        run.kill()
        assert place.run("--store", "map", script="SYNC\n", program=place.overlayd) == (0, "durable 2\n", "")


def test_a_lock_after_a_failure(place: Place) -> None:
    """No other program is let in once a write has failed, until the program has ended."""
    ignoring = "trap '' XFSZ; exec \"$0\" \"$@\""
    with place.started("-c", ignoring, place.live, "--store", "map", "--create", program="/bin/sh") as run:
        one = run.sessions[0]
        assert [one.ask(A.strip()), one.ask("SYNC")] == ["ok 1", "durable 1"]
        resource.prlimit(run.process.pid, resource.RLIMIT_FSIZE, (4096, 4096))
        assert [one.ask("DROP A"), one.ask("SYNC")] == ["ok 2", "error 30 device"]
        assert place.run("--store", "map", script="SYNC\n", program=place.overlayd) == (1, "", "error 30 device\n")
        for words in ([], ["--read-only"]):
            assert (words, *place.run(*words, "--store", "map", script="SYNC\n")) == \
                (words, 1, "", fault("30 device", "map", IN_USE))
        assert run.end() == (1, fault("30 device", "map"))
    assert place.run("--store", "map", script="SYNC\n") == (0, "durable 1\n", "")


def test_closed_streams(place: Place) -> None:
    """The store gets no number of a stream that is closed when the program begins."""
    assert place.run("--store", "map", "--create", script=A + "SYNC\n") == (0, "ok 1\ndurable 1\n", "")
    before = place.file("map").read_bytes()
    place.file("in").write_text("LOCATE A 2 2\n" * 3000, encoding="utf-8")
    for closed in ([0], [1], [2], [0, 1], [0, 2], [1, 2], [0, 1, 2]):
        fault = "" if 2 in closed else "error 49 write\n"
        for words in ([], ["--read-only"]):
            wanted = ((1, "", fault) if 1 in closed else (1, "error 48 read\n", "") if 0 in closed
                      else (0, "in\n" * 3000, ""))
            assert run_without(place, closed, "--store", "map", *words) == wanted
            assert run_without(place, closed, "--store", "map", *words, "in", "out") == (0, "", "")
            assert place.file("out").read_text(encoding="utf-8") == "in\n" * 3000
            assert run_without(place, closed, "--store", "map", *words, "in", "/dev/full") == \
                (1, "", fault and fault + "/dev/full\n")
            assert place.file("map").read_bytes() == before


def run_without(place: Place, closed: list[int], *words: str) -> tuple[int, str, str]:
    """Runs the program over the file `in` with these of the numbers 0 to 2 closed."""
    how = " ".join(f"{number}>&-" for number in closed)
    with open(place.file("in"), "rb") as lines:
        ran = subprocess.run(["/bin/sh", "-c", f"exec \"$0\" \"$@\" {how}", place.live, *words], stdin=lines,
                             capture_output=True, cwd=place.folder, timeout=SECONDS, check=False)
    return ran.returncode, ran.stdout.decode(), ran.stderr.decode()


# ---- tiles that take long


def zigzag(number: int) -> str:
    """A polygon over column 16 whose 1,024 steps go to and fro, or up and down, so that each of one
    crosses each of another."""
    points = [(number + (60000 if k % 2 else 100), number + 100 + k * 58) for k in range(1024)]
    points = [(y, x) for x, y in points] if number % 2 else points
    return f"POLYGON (({', '.join(f'{x} {y}' for x, y in [*points, points[0]])}))"


def quickly(one: Session, *lines: str) -> None:
    """Asks lines, each of which is accepted, and soon."""
    began = time.monotonic()
    assert [reply for reply in map(one.ask, lines) if reply.split()[0] not in ("ok", "built")] == []
    assert time.monotonic() - began < SOON


def test_tiles_that_are_left(place: Place) -> None:
    """A worker leaves a tile that takes long once its layer is dropped, its input is another, or the program ends."""
    crossing = [f"PUT L{k} {zigzag(k)}" for k in range(8)]
    others = "\n".join(["BATCH 8", *(f"PUT L{k} {SQUARE}" for k in range(8))])
    slow = " & ".join(["DEFINE D = T", *(f"L{k}" for k in range(8))])
    with place.started("--workers", "1", "--store", "map", "--create") as run:
        one = run.sessions[0]
        quickly(one, "PUT T POLYGON ((30000 30000, 30020 30000, 30020 30020, 30000 30020, 30000 30000))", *crossing)
        for lines in (["DROP D", "DEFINE Q = T", "WAIT Q"], ["DROP D", "DEFINE D = T", "WAIT D"], [others, "WAIT D"]):
            quickly(one, slow)
            while one.ask("EDGES D 15") != "edges 0":
                pass
            time.sleep(0.5)
            quickly(one, *lines)
        quickly(one, *crossing)
        time.sleep(0.5)
        began = time.monotonic()
        assert run.end() == (0, "")
        assert time.monotonic() - began < SOON
    began = time.monotonic()
    status, replies, errors = place.run("--store", "map", script="EDGES D 15\nEDGES D 16\n")
    assert (status, replies[:17], errors) == (0, "edges 0\nerror 21 ", "")
    assert time.monotonic() - began < SOON
