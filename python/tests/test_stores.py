"""Tests of the subcommands over stores, of the plain model and of the program."""

import contextlib
import fcntl
import io
import json
import pathlib
import unittest
import unittest.mock
import xml.etree.ElementTree
from types import ModuleType

from overlayd import program_files
from overlayd.commands import dump, export, import_, rings, svg, which
from overlayd.ending import Unusable
from .common import SQUARE, InFolder, WithProgram, outcome

# T without what is left of x = 1 is T in two thirds: 4/3 of an area, with corners at 1/3 and 5/3.
TRIANGLE = "PUT T POLYGON ((0 0, 3 1, 0 2, 0 0))\n"
CUT = f"{TRIANGLE}PUT S POLYGON ((1 -1, 9 -1, 9 9, 1 9, 1 -1))\nDEFINE F = T & S\n"
BOW = "PUT W POLYGON ((0 0, 4 4, 4 0, 0 4, 0 0))\n"
FRAME = ("PUT Frame MULTIPOLYGON (((0 0, 30 0, 30 30, 0 30, 0 0), (10 10, 20 10, 20 20, 10 20, 10 10)), "
         "((12 12, 14 12, 14 14, 12 14, 12 12)))\n")
SCALE = '{"title": "Plan", "factor": 10, "origin": [500, -20], "unit": "m", "crs": "EPSG:5514", "digits": 4}'


class OverTheModel(InFolder):
    """The plain model of the lab is the program here, and a script its store."""

    def asked(self, tool: ModuleType, text: str, *words: object) -> tuple[int, str, str]:
        return outcome(tool, "--store", self.file("plan.db", text), "--program", self.model(), *words)

    def test_the_last_layer_is_meant(self) -> None:
        text = f"PUT A {SQUARE}\nDEFINE I = A\n"
        for more, layer in (("", "I"), ("DEFINE J = A\n", "J"), ("DEFINE J = A\nDEFINE I = A\n", "J"),
                            ("DEFINE J = A\nDROP J\nPUT B POLYGON EMPTY\n", "I"), ("DROP I\n", "A")):
            for tool in (rings, svg):
                assert self.asked(tool, text + more) == self.asked(tool, text + more, "--layer", layer)

    def test_a_layer_that_is_not_there(self) -> None:
        for tool in (rings, svg, export):
            assert self.asked(tool, f"PUT A {SQUARE}\n", "--layer", "I") == (1, "", "I: no layer has this name\n")

    def test_a_base_layer_has_the_boundary_of_its_inside(self) -> None:
        status, output, _ = self.asked(rings, BOW, "--layer", "W")
        assert (status, output) == (0, "MULTIPOLYGON (((0 0, 2 2, 0 4, 0 0)), ((2 2, 4 0, 4 4, 2 2)))\n")
        assert self.asked(rings, TRIANGLE)[1] == "POLYGON ((0 0, 3 1, 0 2, 0 0))\n"
        assert self.asked(svg, BOW + CUT, "--layer", "W")[0] == 0

    def test_areas_of_rings(self) -> None:
        status, output, _ = self.asked(rings, CUT, "--areas")
        assert (status, output) == (0, "polygon 1 outer area 1.333333 4/3\narea 1.333333 4/3\n")
        output = self.asked(rings, FRAME, "--areas")[1]
        assert output == \
            "polygon 1 outer area 900 900\npolygon 1 hole area 100 100\npolygon 2 outer area 4 4\n" "area 804 804\n"
        output = self.asked(rings, CUT, "--areas", "--factor", 10, "--factor-y", 5, "--digits", 3)[1]
        assert output.splitlines()[1] == "area 0.027 2/75"

    def test_a_scale_beside_the_store(self) -> None:
        scale = self.file("plan.scale.json", SCALE)
        status, output, errors = self.asked(rings, CUT)
        text = "POLYGON ((500.1 -19.9667, 500.3 -19.9, 500.1 -19.8333, 500.1 -19.9667))\n"
        assert (status, output) == (0, text)
        assert f"coordinates of the world by {scale}" in errors
        assert "area 0.0133 1/75" in self.asked(rings, CUT, "--areas")[1]
        assert self.asked(rings, CUT, "--factor", 1, "--digits", 2)[1] == "POLYGON ((1 0.33, 3 1, 1 1.67, 1 0.33))\n"
        assert " m; lower left " in self.asked(svg, CUT)[1]
        scale.write_text("[]")
        assert self.asked(rings, CUT)[:2] == (1, "")

    def test_geojson(self) -> None:
        self.file("plan.scale.json", SCALE)
        status, output, _ = self.asked(export, BOW + CUT, "--layer", "F", "--layer", "W")
        value = json.loads(output)
        assert (status, value["name"], value["crs"]["properties"]["name"]) == (0, "Plan", "urn:ogc:def:crs:EPSG::5514")
        first, second = value["features"]
        self.assertEqual(first["properties"], {"layer": "F", "expression": "T & S", "version": 4, "area": 1 / 75,
                                               "area_exact": "1/75"} | {"area": 0.013333333333})
        self.assertEqual(first["geometry"], {"type": "MultiPolygon", "coordinates": [
            [[[500.1, -19.9667], [500.3, -19.9], [500.1, -19.8333], [500.1, -19.9667]]]]})
        assert second["properties"] == \
            {"layer": "W", "expression": None, "version": 4, "area": 0.08, "area_exact": "2/25"}
        assert second["geometry"]["coordinates"] == [[[[500, -20], [500.2, -19.8], [500, -19.6], [500, -20]]],
                                                     [[[500.2, -19.8], [500.4, -20], [500.4, -19.6], [500.2, -19.8]]]]
        value = json.loads(self.asked(export, BOW + CUT, "--layer", "W", "--parts")[1])
        assert [(one["geometry"]["type"], one["properties"]["area_exact"]) for one in value["features"]] == \
            [("Polygon", "1/25"), ("Polygon", "1/25")]
        layers = [one["properties"]["layer"] for one in json.loads(self.asked(export, BOW + CUT)[1])["features"]]
        assert layers == ["W", "T", "S", "F"]
        layers = [one["properties"]["layer"]
                  for one in json.loads(self.asked(export, BOW + CUT, "--top")[1])["features"]]
        assert layers == ["W", "F"]

    def test_holes_and_what_is_empty(self) -> None:
        value = json.loads(self.asked(export, FRAME + "DEFINE N = Frame - Frame\n")[1])
        whole, none = (one["geometry"]["coordinates"] for one in value["features"])
        assert [len(polygon) for polygon in whole] == [2, 1]
        assert (none, value["features"][1]["properties"]["area_exact"]) == ([], "0")
        assert value["crs"]["properties"]["name"][:6] == "ENGCRS"

    def test_words_that_go_not_together(self) -> None:
        for words in (["a.txt"], ["--digits", "101"], ["--factor", "0"], ["--factor", "2", "--scale", "x"],
                      ["--factor", "1e400000000"], ["--factor-y", "1e-400000000"], ["--origin", "0", "1e400000000"]):
            for tool in (rings, svg, export):
                assert outcome(tool, "--store", "a.db", *words)[:2] == (2, "")

    def test_a_file_that_is_not_there(self) -> None:
        store, absent = self.file("a.db", TRIANGLE), self.folder / "absent"
        assert outcome(rings, "--store", absent, "--program", self.model()) == (1, "", f"{absent}: no such file\n")
        told = f"{absent}: No such file or directory\n"
        assert outcome(rings, "--store", store, "--program", absent) == (1, "", told)
        assert outcome(import_, absent) == (2, "", told.replace(": No", ": not read: No"))

    def test_a_store_without_a_layer(self) -> None:
        for tool in (rings, svg, export):
            assert self.asked(tool, "") == (1, "", f"{self.folder}/plan.db: it has no layer\n")

    def test_a_program_that_fails(self) -> None:
        store = self.file("a.db", TRIANGLE)
        program = self.file("program", "#!/bin/sh\necho 'error 99 odd' >&2\nexit 1\n", 0o700)
        for tool in (rings, svg):
            assert outcome(tool, "--store", store, "--program", program) == (1, "", f"{store}: error 99 odd\n")


class OverStores(WithProgram):
    def asked(self, tool: ModuleType, store: pathlib.Path, *words: object) -> tuple[int, str, str]:
        """The outcome of a tool over a store, which stays as it is."""
        before = store.read_bytes()
        found = outcome(tool, "--store", store, "--program", self.program, *words)
        assert store.read_bytes() == before
        return found

    def test_the_tools_draw_what_is_in_a_store(self) -> None:
        store = self.store("plan.db", BOW + CUT)
        assert self.asked(rings, store)[:2] == (0, "POLYGON ((1 0.333333, 3 1, 1 1.666667, 1 0.333333))\n")
        assert self.asked(rings, store, "--layer", "W", "--areas")[1].splitlines()[-1] == "area 8 8"
        status, output, _ = self.asked(svg, store, "--points", 20)
        assert (status, output.count("<circle") > 99) == (0, True)
        xml.etree.ElementTree.fromstring(output)
        status, output, _ = self.asked(export, store)
        told = [(one["properties"]["layer"], one["properties"]["version"], one["properties"]["area_exact"])
                for one in json.loads(output)["features"]]
        assert (status, told) == (0, [("W", 4, "8"), ("T", 4, "3"), ("S", 4, "80"), ("F", 4, "4/3")])
        assert self.asked(rings, store, "--layer", "Q") == (1, "", "Q: no layer has this name\n")

    def test_the_same_as_of_the_model(self) -> None:
        store, script = self.store("plan.db", FRAME + CUT), self.file("plan.txt", FRAME + CUT)
        for layer in ("F", "Frame"):
            for tool in (rings, svg, export):
                wanted = outcome(tool, "--store", script, "--program", self.model(), "--layer", layer)
                assert self.asked(tool, store, "--layer", layer) == wanted

    def test_a_store_comes_back_from_its_script(self) -> None:
        script = FRAME + CUT + "DEFINE G = (F - T) ^ S\nPUT Last MULTIPOLYGON EMPTY\nDROP W\n"
        store = self.store("plan.db", BOW + script)
        status, output, errors = outcome(dump, store, "--program", self.program)
        assert (status, errors) == (0, "")
        assert [line.split()[:2] for line in output.splitlines()] == \
            [["PUT", "Frame"], ["PUT", "T"], ["PUT", "S"], ["DEFINE", "F"], ["DEFINE", "G"], ["PUT", "Last"]]
        again = self.store("again.db", output)
        assert outcome(dump, again, "--program", self.program)[1] == output
        first, second = (json.loads(self.asked(export, one)[1])["features"] for one in (store, again))
        assert [one["geometry"] for one in first] == [one["geometry"] for one in second]
        assert {one["properties"]["version"] for one in second} == {6}

    def test_a_store_that_another_program_holds(self) -> None:
        store = self.store("plan.db", CUT)
        with store.open("rb+") as file:
            fcntl.flock(file, fcntl.LOCK_EX)
            for tool, words in ((rings, "--store"), (dump, ""), (which, "1 1 --store")):
                assert outcome(tool, *words.split(), store, "--program", self.program) == \
                    (1, "", f"{store}: another program holds it, and may write\n")
        assert self.asked(rings, store)[0] == 0

    def test_files_that_are_no_store(self) -> None:
        none = self.file("none.db", "no store")
        assert outcome(rings, "--store", none, "--program", self.program) == (1, "", f"{none}: error 32 not a store\n")
        assert outcome(dump, self.folder / "absent", "--program", self.program)[0] == 1
        assert outcome(dump, self.folder, "--program", self.program) == \
            (1, "", f"{self.folder}: a folder, and no store\n")
        unready = self.store("unready.db", "")
        told = (f"{unready}: it has no version yet, or its last commit was cut off; this opens it to write: "
                f"overlay_live --store {unready} </dev/null\n")
        assert self.asked(rings, unready) == (1, "", told)
        empty = self.store("empty.db", f"PUT A {SQUARE}\nDROP A\n")
        assert self.asked(rings, empty) == (1, "", f"{empty}: it has no layer\n")
        assert outcome(dump, empty, "--program", self.program) == (0, "", "")

    def test_a_store_in_the_place_of_a_map(self) -> None:
        store = self.store("map.db", CUT)
        self.assertEqual(outcome(import_, store),
                         (2, "", f"{store}: a store, and no map; its layers as a script: overlay dump {store}, as "
                                 f"GeoJSON: overlay export --store {store}\n"))

    def test_no_program(self) -> None:
        nowhere = unittest.mock.patch.object(program_files, "TOP", pathlib.Path("/nowhere"))
        with nowhere, unittest.mock.patch.dict("os.environ", PATH=""):
            status, output, errors = outcome(rings, "--store", self.file("plan.db", CUT))
        assert (status, output) == (1, "")
        assert "no program: overlay_live is neither built in /nowhere nor on the path; say --program" in errors

    def test_points_in_layers(self) -> None:
        store = self.store("plan.db", BOW + CUT)
        self.file("plan.scale.json", SCALE)
        points = self.file("points.txt", "500.2 -19.9\n500.01,-19.85\r\n500.1 -19.9\n\n507;-10\n500.100001 -19.9\n")
        status, output, errors = self.asked(which, store, "--points", points)
        # In whole numbers 2 1, 0.1 1.5, 1 1, 70 100, and nearest to 1.00001 1 the point 1 1 again.
        assert (status, output) == (0, "F\nW\nedge\tW\tF\n\nedge\tW\tF\n")
        assert errors == "asked at 500.1 -19.9, which is nearest to 500.100001 -19.9\n"
        assert self.asked(which, store, "--", "-1", "2")[:2] == (0, "\n")

    def test_a_point_that_is_none_takes_no_answer_along(self) -> None:
        store = self.store("plan.db", BOW + CUT)
        self.file("plan.scale.json", SCALE)
        beyond = "point out of range: x is -104357.6 to 105357.6, y -104877.6 to 104837.6"
        assert self.asked(which, store, "999999", "2") == (1, f"error\t999999 2: {beyond}\n", "")
        none = "no number, or one that is too long"
        assert self.asked(which, store, "1", "x") == (1, f"error\t1 x: {none}: x\n", "")
        assert self.asked(which, store, "500,2", "19,9") == \
            (1, "error\t500,2 19,9: two numbers are a point; 1,5 are two of them, 1.5 is one\n", "")
        points = self.file("points.txt", "\ufeff# x y\n500.2 -19.9\n\n  # far out:\n 1e99; -19.9\n500.01,-19.85\r\n"
                                         f"7\n1 2 3\n{'9' * 100} 1\n507;-10\n")
        status, output, errors = self.asked(which, store, "--points", points)
        assert (status, errors) == (1, "")
        assert output.splitlines() == [
            "F", f"error\t1e99; -19.9: {beyond}", "W", "error\t7: two numbers are a point",
            "error\t1 2 3: two numbers are a point", f"error\t{'9' * 80} ..: {none}: {'9' * 40}", ""]
        for text in ("", "#\n\n"):
            assert self.asked(which, store, "--points", self.file("none.txt", text)) == (0, "", "")
        edge = self.file("edge.txt", "105357.6 0\n105357.7 0\n")  # 2^20 / 10 + 500 is the last that is in range
        assert self.asked(which, store, "--points", edge)[:2] == (1, f"\nerror\t105357.7 0: {beyond}\n")


class ProgramsThatAreFound(InFolder):
    def test_where_programs_are_looked_for(self) -> None:
        top, path = self.folder / "top", self.folder / "path"
        places = [folder / program_files.LIVE for folder in (top / "crates/overlay_live/out", top, path)]
        for place in places:
            place.parent.mkdir(parents=True, exist_ok=True)
            place.write_text("#!/bin/sh\n")
            place.chmod(0o700)
        at_top = unittest.mock.patch.object(program_files, "TOP", top)
        with at_top, unittest.mock.patch.dict("os.environ", PATH=str(path)):
            for place in places:
                assert program_files.found_program() == str(place)
                place.unlink()
            with self.assertRaisesRegex(Unusable,
                                        "overlay_live is neither built in .* nor on the path; say --program PATH"):
                program_files.found_program()
            builder = top / program_files.BUILDER
            builder.parent.mkdir(parents=True)
            builder.touch()
            with self.assertRaisesRegex(Unusable,
                                        "overlay_live is neither built in .* nor on the path; say --program PATH"):
                program_files.found_program()
            kit = path / "rt"
            kit.touch(0o700)
            builder.write_text("import pathlib, sys\npathlib.Path(sys.argv[-1]).write_text(' '.join(sys.argv[1:3]))\n")
            told = self.enterContext(contextlib.redirect_stderr(io.StringIO()))
            built = program_files.found_program()
            assert (built, pathlib.Path(built).read_text()) == \
                (str(top / "overlay_live"), f"--unchecked {top}/crates/overlay_live/src")
            assert told.getvalue().startswith("overlay_live is not built yet: it is now, unproved, ")
            pathlib.Path(built).unlink()
            builder.write_text("import sys\nsys.exit('line\\nno room')\n")
            with self.assertRaisesRegex(Unusable, "^overlay_live cannot be built: no room$"):
                program_files.found_program()
            assert [one.name for one in top.glob(".built-*")] == []
