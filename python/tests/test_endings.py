"""Each tool ends with one line, or none, where what it writes cannot be written."""

import os
import pathlib
import shlex
import subprocess
import sys
import unittest

from overlayd import ending
from .common import OVERLAY, SECONDS, SQUARE, InFolder, ran

COUNT = 20000
SQUARES = 2000
# A layer of so many squares.
MANY = "MULTIPOLYGON (" + ", ".join(
    f"(({x} 0, {x + 1} 0, {x + 1} 1, {x} 1, {x} 0))" for x in range(0, 2 * SQUARES, 2)) + ")"
# A program in the place of overlay_live, which answers each line by what it begins with.
PROGRAM = """#!{}
import sys
with open(sys.argv[-2]) as lines, open(sys.argv[-1], 'w') as replies:
    for line in lines:
        replies.write(next(text for begin, text in {!r}.items() if line.startswith(begin)))
        replies.flush()
"""


class Endings(InFolder):
    def calls(self) -> list[list[str]]:
        """A call of each tool that writes more than a buffer of the interpreter and of a pipe holds."""
        map_file = self.file("map.wkt", "".join(f"POLYGON (({x} 100000, {x + 9} 100000, {x + 9} 100009, {x} 100000))\n"
                                                for x in range(100000, 115000, 10)))
        store = self.file("a.db", "")
        listed = {"LAYERS": f"layers 1\n{'A' * 32} {SQUARE}\n", "SYNC": "durable 1\n", "LOCATE": "in\n"}
        many = self.program("many", {"LAYERS": f"layers {COUNT}\n" + "I = A\n" * COUNT})
        answers = self.program("answers", listed)
        drawing = self.program("drawing", {**listed, "LAYERS": f"layers 1\nA {MANY}\n", "EDGES": "edges 0\n",
                                           "": "ok 1\n"})
        points = self.file("points.txt", "1 1\n" * 4000)
        return [["import", str(map_file), "--split"], ["dump", str(store), "--program", str(many)],
                ["which", "--store", str(store), "--program", str(answers), "--points", str(points)],
                *([name, "--store", str(store), "--program", str(drawing)] for name in ("rings", "export", "svg"))]

    def program(self, name: str, answers: dict[str, str]) -> pathlib.Path:
        return self.file(name, PROGRAM.format(sys.executable, answers), 0o700)

    def test_a_reader_that_went_away(self) -> None:
        calls = self.calls()
        for unbuffered, (name, *words) in [("", call) for call in calls] + [("1", calls[-2])]:
            begin = f"PYTHONUNBUFFERED={unbuffered} {shlex.join(OVERLAY)} {name} {' '.join(words)}"
            text = f"{begin} 2> {self.folder}/errors | head -c 10 > {self.folder}/output; echo ${{PIPESTATUS[0]}}"
            done = ran("bash", "-c", text, check=True)
            told = (self.folder / "errors").read_text()
            assert (done.stdout, "Broken" in told, "Traceback" in told) == ("1\n", False, False), name + told

    def test_output_is_kept_where_notes_cannot_be_told(self) -> None:
        square = self.file("a.wkt", SQUARE + "\n")
        plain = subprocess.run([*OVERLAY, "import", str(square)], capture_output=True, check=True,
                               timeout=SECONDS)
        assert plain.stdout and plain.stderr
        for stream, status in (("2>/dev/full", 1), ("2>&-", 0)):
            call = shlex.join([*OVERLAY, "import", str(square)])
            done = subprocess.run(["bash", "-c", f"{call} {stream}"], stdout=subprocess.PIPE, check=False,
                                  timeout=SECONDS)
            assert (done.returncode, done.stdout) == (status, plain.stdout), stream

    def test_a_full_device(self) -> None:
        for name, *words in [*self.calls(), ["which", "--help"]]:
            with open("/dev/full", "w", encoding="utf-8") as full:
                done = subprocess.run([*OVERLAY, name, *words], stdout=full, stderr=subprocess.PIPE,
                                      text=True, check=False, timeout=SECONDS)
            assert done.returncode == 1, name
            assert done.stderr.splitlines()[-1] == f"overlay {name}: standard output: No space left on device"
            assert "Traceback" not in done.stderr
            assert "Exception" not in done.stderr

    def test_both_streams(self) -> None:
        name, *words = self.calls()[1]
        call = f"{shlex.join(OVERLAY)} {name} {' '.join(words)}"
        for streams, status in ((">/dev/full 2>&1", 1), (">&- 2>/dev/null", 1), (">/dev/null", 0)):
            done = ran("bash", "-c", f"{call} {streams}")
            assert (done.returncode, done.stdout, done.stderr) == (status, "", ""), streams


class Reasons(unittest.TestCase):
    def test_a_file_is_named_once(self) -> None:
        for fault, text in ((FileNotFoundError(2, os.strerror(2), "a.txt"), "No such file or directory"),
                            (OSError(28, os.strerror(28)), "No space left on device"), (OSError("odd"), "odd"),
                            (ValueError("x"), "x")):
            assert ending.fault_text("a.txt", fault) == f"a.txt: {text}"
