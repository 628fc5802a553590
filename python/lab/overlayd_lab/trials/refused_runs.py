"""A module of growths.py and faults.py: runs of a program in which something is refused, and what each left."""

import argparse
import os
import pathlib
import re
import subprocess
import tempfile
from collections.abc import Sequence
from typing import Any

from overlayd_lab import unproved
from overlayd_lab.counting import Words, absolute
from overlayd_lab.reference import judging, model, read_store

HERE = pathlib.Path(__file__).resolve().parent
# The fault of a live program, with the file that it is about and the reason where the system gave one.
FAULT_LINES = re.compile(r"(error [^\n]+\n)(?:([^\n:]+)(?:: [^\n]+)?\n)?")

SQUARE = "POLYGON ((0 0, 10 0, 10 10, 0 10, 0 0))"
OTHER = "POLYGON ((5 5, 15 5, 15 15, 5 15, 5 5))"
WORDS = [f"PUT A {SQUARE}", f"PUT B {OTHER}", "DEFINE I = A & B", "LOCATE I 7 7", "LAYERS", "WAIT I", "EDGES I 16",
         "VERIFY I 16", "GRID I 4 4 2 4 4", "HELLO", "LOCATE Z 1 1", "PUT A POLYGON ((0 0, 9 0, 9 9, 0 9, 0 0))",
         "SYNC", "DEFINE J = I ^ B", "WAIT J", "DROP J", "SYNC", "LOCATE A 9 1"]
FIRST = [f"PUT A {SQUARE}", "DEFINE I = A", "WAIT I", "EDGES I 16", "SYNC", "GRID A 0 0 5 3 3", "LAYERS"]
SECOND = [f"PUT B {OTHER}", "SYNC", "DEFINE J = A ^ B", "WAIT J", "VERIFY J 16", "DROP I", "SYNC"]
BEFORE = [f"PUT A {SQUARE}", f"PUT B {OTHER}", "DEFINE I = A & B"]
AFTER = ["LOCATE I 7 7", "EDGES I 16", f"PUT C {SQUARE}", "SYNC", "DROP I", "VERIFY I 16"]
# Two layers over five columns: a WAIT takes a strip of 17, five of which have pieces. Then a change in two of these.
LONG = "((-720000 0, -400000 9, -400000 -9, -720000 0))"
STRIPS = [
    f"PUT A POLYGON {LONG}", "PUT B POLYGON ((-690000 9, -430000 -7, -430000 7, -690000 9))", "DEFINE I = A ^ B",
    "WAIT I", "EDGES I 5", "EDGES I 7", "VERIFY I 9", "SYNC",
    f"PUT A MULTIPOLYGON ({LONG}, ((-530000 1, -520000 1, -520000 30, -530000 1)))", "WAIT I",
    *[f"EDGES I {column}" for column in range(5, 10)], "VERIFY I 8", "SYNC",
]


class Scenario:
    """Scripts and words of a run; before: the commands that made the store that it opens (None: no store)."""

    def __init__(self, name: str, scripts: list[list[str]], workers: int, before: Sequence[str] | None = ()) -> None:
        self.name = name
        self.scripts = ["\n".join(script).encode() + b"\n" for script in scripts]
        self.workers = workers
        self.before = before

    def commands(self) -> list[Any]:
        """The commands that made the store."""
        return [model.read_line(line.encode()) for line in self.before or ()]

    def prepare(self, program: str, folder: pathlib.Path) -> bytes | None:
        """Makes the store that the runs open; its bytes, None where they make one.

        The gate of its older root is half open, so that opening writes and syncs."""
        if not self.before:
            return None
        path = folder / "before.db"
        script = "\n".join([*self.before, "WAIT I", "SYNC"]).encode()
        words = [program, "--store", str(path), "--create"]
        subprocess.run(words, input=script, stdout=subprocess.DEVNULL, check=True, timeout=60)
        data = path.read_bytes()
        path.unlink()
        older = read_store.BLOCK * ((read_store.find_root(data).sequence + 1) % 2)
        return data[:older] + b"\x55" + data[older + 1 :]


MEMORY = Scenario("one script in memory", [WORDS], 1, None)
CREATED = Scenario("two scripts, a new store", [FIRST, SECOND], 2)
OPENED = Scenario("one script, a store opened", [AFTER], 2, BEFORE)
STRIPS_CREATED = Scenario("strips of columns, a new store", [STRIPS], 2)
# Scripts that wait for nothing: runs that end, though memory never comes back.
QUIET = [[f"PUT A {SQUARE}", "DEFINE I = A", "LOCATE I 2 2", "LAYERS"], [f"PUT B {OTHER}", "GRID B 4 4 2 4 4"]]
QUIET_MEMORY = Scenario("one script that waits for nothing", QUIET[:1], 1, None)
QUIET_CREATED = Scenario("two of them, a new store", QUIET, 2)


def compiled(name: str, folder: pathlib.Path) -> pathlib.Path:
    """Compiles a source beside this file, by the kit's compiler, into something that a program can be made to load."""
    library, tools = folder / (name + ".so"), unproved.kit() / "toolchain/bin"
    words: unproved.Command = [tools / "clang", "--target=x86_64-unknown-linux-gnu", "--no-default-config",
                               "-fintegrated-cc1", "-O1"]
    words += ["-fno-builtin", "-fPIC", "-shared", "-nostdlib", f"--ld-path={tools / 'ld.lld'}"]
    subprocess.run([*words, "-o", library, HERE / (name + ".c")], check=True)
    return library


class Outcome:
    """What a run left."""

    def __init__(self, sessions: int, status: int | None, output: str, fault: str, store: bytes | None,
                 counts: tuple[int, int], is_early: bool, is_live: bool = False) -> None:
        self.sessions = sessions
        self.status = status  # None where it did not end by itself
        self.output = output
        self.fault = fault
        self.store = store
        self.counts = counts
        self.is_early = is_early  # whether it was refused something before a session read a line
        self.is_live = is_live  # whether a session's replies are written though the run is refused a thread
        self.is_lost = False


class Runner:
    """Runs a scenario, each time in a folder of its own."""

    is_live = False

    def __init__(self, program: str, scenario: Scenario, library: pathlib.Path, folder: pathlib.Path,
                 seconds: int) -> None:
        self.program = program
        self.scenario = scenario
        self.library = library
        self.folder = folder
        self.seconds = seconds
        self.prepared = scenario.prepare(program, folder)
        self.paths: list[pathlib.Path] = []
        for place, script in enumerate(scenario.scripts):
            self.paths.append(folder / f"script{place + 1}.txt")
            self.paths[-1].write_bytes(script)
        self.early = 0

    def count_early(self, prefix: str) -> None:
        """Counts the calls of runs whose scripts are empty: at most these are made before a session reads a line."""
        paths, empty = self.paths, self.folder / "empty.txt"
        empty.write_bytes(b"")
        self.paths = [empty] * len(paths)
        self.early = max(self.run({}, prefix).counts[0] for _ in range(3))
        self.paths = paths

    def words(self, store: pathlib.Path) -> list[Any]:
        """The words of a run over a store."""
        words = [self.program, "--workers", str(self.scenario.workers)]
        if self.scenario.before is not None:
            words += ["--store", str(store)] + ([] if self.prepared is not None else ["--create"])
        return words + list(map(str, self.paths))

    def run(self, settings: dict[str, int], prefix: str) -> Outcome:
        """A run with settings in its environment, whose names begin so."""
        with tempfile.TemporaryDirectory(dir=self.folder) as place:
            store, counts = pathlib.Path(place) / "store.db", pathlib.Path(place) / "counts"
            if self.prepared is not None:
                store.write_bytes(self.prepared)
            given = {f"{prefix}_{name}": str(value) for name, value in settings.items()}
            given |= {f"{prefix}_COUNTS": str(counts), f"{prefix}_STORE": str(store), f"{prefix}_FOLDER": place}
            given |= {"LD_PRELOAD": str(self.library)}
            with subprocess.Popen(
                self.words(store), cwd=place, stdin=subprocess.DEVNULL, stdout=subprocess.PIPE, stderr=subprocess.PIPE,
                env={**os.environ, **given},
            ) as run:
                try:
                    output, fault = run.communicate(timeout=self.seconds)
                    status = run.returncode
                except subprocess.TimeoutExpired:
                    run.kill()
                    output, fault = run.communicate()
                    status = None
            numbers = counts.read_bytes() if counts.exists() else b""
            counted = int.from_bytes(numbers[:8], "little"), int.from_bytes(numbers[8:16], "little")
            data = store.read_bytes() if store.exists() else None
            texts = self.replies(output, pathlib.Path(place)), self.fault(fault.decode(errors="replace"), store)
            is_early = settings.get("FIRST", 0) <= self.early
            return Outcome(len(self.paths), status, *texts, data, counted, is_early, self.is_live)

    def replies(self, output: bytes, _folder: pathlib.Path) -> str:
        """The replies that a run wrote: on standard output."""
        return output.decode(errors="replace")

    def fault(self, text: str, _store: pathlib.Path) -> str:
        """The fault that a run told: standard error."""
        return text

    def reopened(self, data: bytes) -> tuple[list[str], int]:
        """What the program says of the store that a run left, with nothing refused: its layers and its version."""
        with tempfile.TemporaryDirectory(dir=self.folder) as place:
            store = pathlib.Path(place) / "store.db"
            store.write_bytes(data)
            script = b"LAYERS\nPUT One_more POLYGON EMPTY\nSYNC\n"
            words = [self.program, "--store", str(store)]
            done = subprocess.run(words, input=script, capture_output=True, timeout=60, check=False)
            if done.returncode != 0:
                raise judging.Wrong(f"opened again: status {done.returncode}, {done.stderr[:100]!r}")
            replies = judging.sections(done.stdout.decode(), 1)[0]
            return replies[0][1:], judging.number_of(replies[1]) - 1


class LiveRunner(Runner):
    """The same for overlay_live, whose sessions write their replies each into a file of its own."""

    is_live = True

    def words(self, store: pathlib.Path) -> list[Any]:
        """With a pair of paths for each session."""
        words = super().words(store)
        paths = words[-len(self.paths) :]
        pairs = [word for number, path in enumerate(paths, 1) for word in (path, f"replies{number}")]
        return words[: -len(paths)] + pairs

    def replies(self, output: bytes, folder: pathlib.Path) -> str:
        """As overlayd prints them: with a line before each where there are several; nothing where none has a reply."""
        files = [folder / f"replies{number}" for number in range(1, len(self.paths) + 1)]
        texts = [file.read_text(errors="replace") if file.exists() else "" for file in files]
        if output:
            return output.decode(errors="replace")
        if len(texts) == 1 or not any(texts):
            return "".join(texts)
        return "".join(f"# script {number}\n{text}" for number, text in enumerate(texts, 1))

    def fault(self, text: str, store: pathlib.Path) -> str:
        """As overlayd says it, without the file, which has to be one that the program was given."""
        lines = FAULT_LINES.fullmatch(text)
        return lines[1] if lines and lines[2] in (None, *self.words(store)) else text


def parser_of(page: str | None) -> Words:
    """The words of a script that refuses something to a program."""
    parser = Words(page)
    parser.add_argument("program", type=absolute)
    parser.add_argument("--live", action="store_true", help="the program is overlay_live")
    parser.add_argument("--seconds", type=int, default=20, help="how long a run may take (20)")
    return parser


def runner_of(words: argparse.Namespace, scenario: Scenario, library: pathlib.Path, folder: pathlib.Path) -> Runner:
    """What runs a scenario with the program of a script's words."""
    kind = LiveRunner if words.live else Runner
    return kind(words.program, scenario, library, folder, words.seconds)
