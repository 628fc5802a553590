"""Tests of what goes with a script: a store keeps the scale that it was made with."""

import json
import pathlib
from typing import Any

from overlayd.commands import dump as dump_store, export as to_geojson, import_ as to_script, rings as to_rings, which
from .common import SQUARE, InFolder, WithProgram, outcome, path
from .test_layouts import geojson, square

COUNTIES = path("data", "north_carolina.geojson")


def digest_in(file: pathlib.Path) -> Any:
    return json.loads(file.read_text())["layers"]


class StoresThatStand(WithProgram):
    """The 100 counties of North Carolina in a store, and the first 40 of them as another map."""

    def setUp(self) -> None:
        super().setUp()
        self.words = ["--fit", "--split", "--name", "nc", "--output", self.folder / "nc.txt"]
        assert outcome(to_script, COUNTIES, *self.words)[0] == 0
        self.db = self.store("nc.db", (self.folder / "nc.txt").read_bytes())
        value = json.loads(pathlib.Path(COUNTIES).read_text())
        value["features"] = value["features"][:40]
        self.part = self.file("part.geojson", json.dumps(value))

    def files(self) -> dict[str, bytes]:
        return {file.name: file.read_bytes() for file in self.folder.iterdir()}

    def wake(self) -> tuple[int, str, str]:
        return outcome(which, "--store", self.db, "--program", self.program, "--", "-78.64", "35.77")

    def test_another_map_is_not_written_under_the_name_of_a_store(self) -> None:
        assert self.wake() == (0, "nc\n", "")
        before = self.files()
        status, output, errors = outcome(to_script, self.part, *self.words)
        told = (f"--output: {self.db} is a store, and {self.folder / 'nc.scale.json'} says what its numbers mean: it "
                "would say something else; take another name, or move the store away\n")
        assert (status, output, errors) == (2, "", told)
        assert self.files() == before
        assert self.wake() == (0, "nc\n", "")
        (self.folder / "nc.scale.json").unlink()
        assert outcome(to_script, self.part, *self.words)[0] == 2
        other = [*self.words[:-1], self.folder / "part.txt"]
        assert outcome(to_script, self.part, *other)[0] == 0

    def test_the_same_map_again_is_written(self) -> None:
        before = self.files()
        assert outcome(to_script, COUNTIES, *self.words)[0] == 0
        assert self.files() == before

    def test_a_store_of_other_layers_is_told(self) -> None:
        self.db.unlink()
        assert outcome(to_script, self.part, *self.words)[0] == 0
        old = self.store("nc.db", (self.folder / "nc.txt").read_bytes())
        other = self.file("other.geojson", geojson(*((f"f{x}", [[square(x, 0, 2)]]) for x in range(0, 300, 5))))
        older = old.read_bytes()
        old.unlink()
        assert outcome(to_script, other, *self.words)[0] == 0
        old.write_bytes(older)
        told = f"{old}: layers that are changed since (nc), or of another map: " \
               f"{self.folder / 'nc.scale.json'} was written for other ones"
        words = ["--store", old, "--program", self.program]
        assert told in outcome(which, *words, "1", "1")[2]
        for tool in (to_rings, to_geojson):
            assert told in outcome(tool, *words, "--layer", "nc")[2]
        given = self.folder / "nc.scale.json"
        assert told not in outcome(to_rings, *words, "--scale", given)[2]
        foreign = self.store("nc.store", f"PUT A {SQUARE}\n")
        assert f"{foreign}: layers of another map: " in \
            outcome(to_rings, "--store", foreign, "--program", self.program)[2]

    def test_layers_as_listed_are_those_of_the_script(self) -> None:
        self.file("nc.again.txt", outcome(dump_store, self.db, "--program", self.program)[1])
        again = self.store("again.db", (self.folder / "nc.again.txt").read_bytes())
        self.file("again.scale.json", (self.folder / "nc.scale.json").read_bytes())
        assert "changed" not in outcome(to_rings, "--store", again, "--program", self.program)[2]


class Dumps(WithProgram):
    """A store whose layer was changed since its scale was written."""

    def setUp(self) -> None:
        super().setUp()
        plan = self.file("plan.wkt", SQUARE)
        assert outcome(to_script, plan, "--factor", 10, "--output", self.folder / "map.txt")[0] == 0
        self.db = self.store("map.db", f"PUT plan {SQUARE}\n")
        self.words = [self.db, "--program", self.program, "--output", self.folder / "again.txt"]

    def test_the_scale_of_a_dump_is_of_its_layers(self) -> None:
        assert "changed since (plan)" in outcome(to_rings, "--store", self.db, "--program", self.program)[2]
        assert outcome(dump_store, *self.words) == (0, "", "")
        again = self.store("again.db", (self.folder / "again.txt").read_bytes())
        told = outcome(to_rings, "--store", again, "--program", self.program)
        assert (told[1], "changed" in told[2]) == ("POLYGON ((0 0, 1 0, 1 1, 0 1, 0 0))\n", False)
        assert outcome(dump_store, *self.words) == (0, "", "")

    def test_what_a_store_needs_is_not_written_over(self) -> None:
        other = self.store("again.db", f"PUT A {SQUARE}\n")
        told = (f"--output: {other} is a store, and {self.folder / 'again.scale.json'} says what its numbers mean: it "
                "would say something else; take another name, or move the store away\n")
        assert outcome(dump_store, *self.words) == (1, "", told)
        assert sorted(file.name for file in self.folder.glob("again.*")) == ["again.db"]


class SeveralStores(InFolder):
    def test_each_has_its_digests(self) -> None:
        features = [(f"n{place}", [[square(0, 10 * place, 9)]]) for place in range(40)]
        file = self.file("many.geojson", geojson(*features))
        output = self.folder / "many.txt"
        assert outcome(to_script, file, "--name-by", "name", "--output", output)[0] == 0
        assert [len(one) for one in digest_in(self.folder / "many.scale.json")] == [32, 8]
        for script in ("many.1.txt", "many.2.txt"):
            layer = f"n{32 * ('2' in script)}"
            told = outcome(to_rings, "--store", self.folder / script, "--program", self.model(), "--layer", layer)
            assert (told[0], "changed" in told[2]) == (0, False), told
