"""Input that is no map, places that are no files, faults that nobody foresaw: each is a line, and nothing is lost."""

import json
import os
import subprocess
import sys
from typing import Any

from overlayd import ending
from overlayd.cli import PURPOSES
from overlayd.commands import export as to_geojson, import_ as to_script, rings as to_rings, svg as to_svg, which
from overlayd.files import writing
from .common import SECONDS, SOURCES, SQUARE, TOP, InFolder, in_python, on_file, outcome, ran

RING = [[0, 0], [9, 0], [0, 9], [0, 0]]


def feature(name: str) -> dict[str, Any]:
    return {"type": "Feature", "properties": {"n": name}, "geometry": {"type": "Polygon", "coordinates": [RING]}}


class BadMaps(InFolder):
    def test_collections_whose_members_are_no_list(self) -> None:
        for kind, key in (("FeatureCollection", "features"), ("GeometryCollection", "geometries")):
            for odd in (5, True, "x", {"a": 1}):
                told = f'refused: FILE: "{key}" that are no list\nno layer: nothing is written\n'
                assert on_file(to_script, json.dumps({"type": kind, key: odd})) == (1, "", told)

    def test_halves_of_characters(self) -> None:
        value = {"type": "FeatureCollection", "features": [feature("\ud800"), feature("a")]}
        file, output = self.file("odd.geojson", json.dumps(value)), self.folder / "odd.txt"
        status, _, errors = outcome(to_script, file, "--name-by", "n", "--fit", "--output", output)
        assert status == 1
        told = f'refused: {file}, feature 1: property "n" has half of a character, \'\\ud800\': no UTF-8\n'
        assert told in errors
        assert output.read_text().startswith("PUT a ")

    def test_coordinates_that_are_nested_deep(self) -> None:
        for depth in (10, 300, 900, 960, 970, 990, 5000):
            text = f'{{"type": "Polygon", "coordinates": [[[{"[" * depth}{"]" * depth}, 0], [9, 0], [0, 9], [0, 0]]]}}'
            status, output, errors = on_file(to_script, text)
            assert (status in (1, 2), output, len(errors.splitlines()) <= 2) == (True, "", True), errors

    def test_folders_in_the_place_of_files(self) -> None:
        square = self.file("a.wkt", SQUARE)
        for folder in (".", "/", self.folder):
            for tool in (to_rings, to_svg, to_geojson, which):
                words = ["--store", folder] + (["1", "1"] if tool is which else [])
                status, output, errors = outcome(tool, *words, "--program", "none")
                assert (status, output, errors) == (1, "", errors)
                self.assertRegex(errors, f"^{folder}: a folder, and no (file|store)\n$")
            assert outcome(to_script, square, "--output", folder)[:2] == (2, "")


class WholeFiles(InFolder):
    def test_all_or_none(self) -> None:
        first, second = self.file("a", "old", 0o640), self.folder / "absent" / "b"
        with self.assertRaises(OSError) as fault:
            writing.write_all({first: b"new", second: b"new"})
        assert fault.exception.filename == str(second)
        assert [file.name for file in self.folder.iterdir()] == ["a"]
        assert first.read_text() == "old"
        link = self.folder / "link"
        link.symlink_to(first)
        writing.write_all({link: b"new", self.folder / "c": b"more"})
        assert (first.read_text(), link.is_symlink(), first.stat().st_mode & 0o777) == ("new", True, 0o640)
        assert sorted(file.name for file in self.folder.iterdir()) == ["a", "c", "link"]

    def test_a_pipe_is_written_to(self) -> None:
        pipe = self.folder / "pipe"
        os.mkfifo(pipe)
        with subprocess.Popen(["timeout", "60", "cat", str(pipe)], stdout=subprocess.PIPE) as reader:
            writing.write_all({pipe: b"text"})
            assert reader.communicate(timeout=SECONDS)[0] == b"text"

    def test_no_part_of_a_map_is_written(self) -> None:
        square = self.file("a.wkt", SQUARE)
        (self.folder / "map.scale.json").mkdir()
        status, _, errors = outcome(to_script, square, "--output", self.folder / "map.txt")
        assert (status, len(errors.splitlines())) == (2, 1), errors
        assert sorted(file.name for file in self.folder.iterdir()) == ["a.wkt", "map.scale.json"]


class Unforeseen(InFolder):
    """Each tool, with a part of it that raises what none of them foresees."""

    def call(self, name: str, *options: str) -> subprocess.CompletedProcess[str]:
        code = ("import importlib\n"
                "def broken(*_): raise KeyError('odd\\nthing')\n"
                "importlib.import_module = broken\n"
                "from overlayd import cli\n"
                f"cli.main(args=[{name!r}])\n")
        return ran(sys.executable, *options, "-c", code, cwd=TOP, env=SOURCES)

    def test_one_line_and_status_1(self) -> None:
        for name in PURPOSES:
            done = self.call(name)
            assert (done.returncode, done.stdout) == (1, ""), name
            self.assertRegex(done.stderr, rf"^overlay {name}: KeyError: 'odd\\nthing' \(<string>, line 2\): a "
                                          r"defect of this tool; python3 -X dev shows more\n$")
        assert "Traceback" in self.call("which", "-X", "dev").stderr

    def test_a_tool_that_is_stopped_while_it_is_imported(self) -> None:
        code = ("import importlib\n"
                "from overlayd import cli\n"
                "def stopped(name): raise KeyboardInterrupt\n"
                "importlib.import_module = stopped\n"
                "cli.main(args=['which'])\n")
        done = in_python(code)
        assert (done.returncode, done.stdout, done.stderr) == (ending.INTERRUPTED, "", "")

    def test_a_tool_that_is_stopped_from_the_keyboard(self) -> None:
        code = "from overlayd import ending\ndef main(words): raise KeyboardInterrupt\nending.run(main)\n"
        done = in_python(code)
        assert (done.returncode, done.stdout, done.stderr) == (ending.INTERRUPTED, "", "")
