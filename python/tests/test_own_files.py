"""Tests that tools write over no file that was not named to them, by the commands, and that a kill
leaves nothing for good."""

import functools
import json
import signal
import subprocess
import sys
from unittest import mock

import pytest

from overlayd.commands import pieces
from overlayd.files import gdal_writing
from .common import OVERLAY, SOURCES, SQUARE, InFolder, Programs, outcome, ran

MINE = "mine\n"
PLAN = ('{"type": "Feature", "properties": {"name": "plan"}, "geometry": {"type": "Polygon", '
        '"coordinates": [[[0, 0], [10, 0], [10, 10], [0, 10], [0, 0]]]}}')


class OwnFiles(InFolder):
    def ran(self, tool: str, *words: object) -> tuple[int, str]:
        done = ran(*OVERLAY, tool, *words)
        return done.returncode, done.stderr

    def test_files_beside_an_output_that_are_the_users(self) -> None:
        source = self.file("plan.geojson", PLAN)
        mine = self.file("out.scale.json", MINE)
        status, told = self.ran("import", source, "--output", self.folder / "out.txt")
        assert (status, mine.read_text()) == (2, MINE), told
        assert f"--output: {mine} stands, and is no file of this tool's" in told
        assert not (self.folder / "out.txt").exists()
        mine.unlink()
        for _ in range(2):  # what it has written itself it replaces
            assert self.ran("import", source, "--output", self.folder / "out.txt")[0] == 0
            assert mine.is_file()

    def test_a_scale_that_the_user_has_edited(self) -> None:
        """It is of the tool's form, and belongs to no script where none of the output's name is there."""
        source, output, mine = self.file("plan.wkt", SQUARE), self.folder / "out.txt", self.folder / "out.scale.json"
        words = "import", source, "--output", output
        assert [self.ran(*words)[0] for _ in range(2)] == [0, 0]
        output.unlink()
        assert self.ran(*words)[0] == 0
        output.unlink()
        edited = mine.read_text().replace('"factor"', '"title": "Mine", "factor"')
        mine.write_text(edited)
        status, told = self.ran(*words)
        assert (status, mine.read_text() == edited, output.exists()) == (2, True, False), told
        self.assertIn(
            f"--output: {mine} stands, would be written otherwise, and belongs to no script, as {output} is not "
            "there as one: it was not named, and is not written over; take another name, or move it away", told)
        output.write_text("PUT plan POLYGON ((0 0, 1 0, 1 1, 0 0))\n")
        assert self.ran(*words)[0] == 0
        assert mine.read_text() != edited

    def test_a_scale_that_is_given_may_have_the_name_of_the_output(self) -> None:
        source, given = self.file("plan.wkt", SQUARE), self.file("out.scale.json", '{"title": "out", "factor": 10}')
        words = "import", source, "--output", self.folder / "out.txt"
        assert self.ran(*words)[0] == 2
        status, told = self.ran(*words, "--scale", given)
        assert status == 0, told

    def test_scripts_of_several_stores_that_are_the_users(self) -> None:
        """NAME.1.txt and so on are not named by --output NAME.txt."""
        source = self.file("many.geojson", json.dumps({"type": "FeatureCollection", "features": [
            {"type": "Feature", "properties": {"n": f"n{x}"}, "geometry": {"type": "Polygon", "coordinates": [
                [[9 * x, 0], [9 * x + 5, 0], [9 * x, 5], [9 * x, 0]]]}} for x in range(40)]}))
        words = "import", source, "--name-by", "n", "--factor", 1, "--output", self.folder / "out.txt"
        mine = self.file("out.2.txt", MINE)
        status, told = self.ran(*words)
        assert (status, mine.read_text(), len(list(self.folder.iterdir()))) == (2, MINE, 2), told
        assert f"--output: {mine} stands, and is no file of this tool's" in told
        mine.unlink()
        for _ in range(2):
            assert self.ran(*words)[0] == 0
        assert mine.read_text().startswith("PUT ")

    def test_what_a_kill_leaves_goes_at_the_next_start(self) -> None:
        source = self.file("plan.wkt", SQUARE)
        writer = ("import pathlib, sys, time\nfrom overlayd.files import writing\n"
                  "with writing.whole(pathlib.Path(sys.argv[1])) as file:\n    file.write('half')\n    file.flush()\n"
                  "    print('now', flush=True)\n    time.sleep(60)\n")
        with subprocess.Popen([sys.executable, "-c", writer, self.folder / "out.txt"], env=SOURCES,
                              stdout=subprocess.PIPE) as killed:
            assert killed.stdout
            killed.stdout.readline()
            (left,) = self.folder.glob(".*.new")
            assert self.ran("import", source, "--output", self.folder / "out.txt")[0] == 0
            assert left.exists()
            killed.send_signal(signal.SIGKILL)
        others = self.file(f".out.txt.{'0' * 32}.{killed.pid}.1.new", MINE)  # of another machine
        assert self.ran("import", source, "--output", self.folder / "out.txt")[0] == 0
        assert list(self.folder.glob(".*.new")) == [others]


@pytest.mark.features
class OwnPieces(InFolder):
    """Of `overlay pieces --pieces`: two maps of a square each, of which three pieces come."""

    def setUp(self) -> None:
        super().setUp()
        self.first = self.file("a.wkt", SQUARE)
        self.second = self.file("b.wkt", "POLYGON ((5 5, 15 5, 15 15, 5 15, 5 5))")
        self.inputs = {"a.wkt", "b.wkt"}

    def overlaid(self, part_max: int) -> tuple[int, str]:
        """Where a file takes so many pieces."""
        words = "--factor", 1, "--program", Programs.features, "--jobs", 1, "--pieces", self.folder / "pieces.gpkg"
        write = functools.partial(gdal_writing.write, part_max=part_max)
        with mock.patch.object(gdal_writing, "write", write):
            status, _, told = outcome(pieces, self.first, self.second, *words)
        return status, told

    def names(self) -> set[str]:
        return {one.name for one in self.folder.iterdir()} - self.inputs

    def test_parts_and_an_index_that_are_the_users(self) -> None:
        for name in ("pieces-001.gpkg", "pieces-002.gpkg", "pieces.vrt"):
            mine = self.file(name, MINE)
            status, told = self.overlaid(2)
            assert (status, mine.read_text(), self.names()) == (2, MINE, {name}), told
            assert f"{mine} stands, and was not named" in told
            mine.unlink()

    def test_of_an_earlier_run_its_own_parts_alone_go(self) -> None:
        mine = self.file("pieces-009.gpkg", MINE)
        parts = {mine.name, "pieces-001.gpkg", "pieces-002.gpkg", "pieces.vrt"}
        for part_max, wanted in ((2, parts), (2, parts), (3, {mine.name, "pieces.gpkg"}), (2, parts)):
            status, told = self.overlaid(part_max)
            assert (status, self.names(), mine.read_text()) == (0, wanted, MINE), told

    def test_an_index_of_other_files_and_what_lies_beside_it_stay(self) -> None:
        index = self.file("pieces.vrt", "<OGRVRTDataSource><SrcDataSource>../zones.gpkg</SrcDataSource>")
        mine, before = self.file("pieces-002.gpkg", MINE), index.read_text()
        status, told = self.overlaid(3)
        assert (status, self.names()) == (0, {index.name, mine.name, "pieces.gpkg"}), told
        assert (index.read_text(), mine.read_text()) == (before, MINE)
