"""Tests of overlay import's ways for large maps: fitting, splitting, union, coding, several stores."""

import collections
import hashlib
import json
import random
from typing import Any

from overlayd.commands import import_ as to_script
from overlayd.grid import limits
from overlayd.store import layering
from .common import SQUARE, InFolder, on_file, outcome
from .plain import segments_of

Ring = list[tuple[int, int]]


def zigzag(steps: int, left: int = 0, low: int = 0) -> Ring:
    """A ring of so many steps: teeth above a base line."""
    points = [(left + i, low + 5 + i * 7919 % 1000) for i in range(steps - 2)]
    return [(left, low), *points[1:], (left + steps, low), (left + steps // 2, low - 9), (left, low)]


def geojson(*features: tuple[str, list[list[Ring]]], crs: str | None = None) -> str:
    """A collection of features with names and polygons."""
    value: dict[str, Any] = {"type": "FeatureCollection", "features": [
        {"type": "Feature", "properties": {"name": name}, "geometry": {"type": "MultiPolygon", "coordinates": polygons}}
        for name, polygons in features]}
    if crs:
        value["crs"] = {"type": "name", "properties": {"name": crs}}
    return json.dumps(value)


def odd_segments(rings: list[Ring]) -> set[Any]:
    """The segments that occur an odd number of times."""
    counts = collections.Counter(segments_of(rings))
    return {segment for segment, count in counts.items() if count % 2}


def square(left: int, low: int, side: int) -> Ring:
    return [(left, low), (left + side, low), (left + side, low + side), (left, low + side), (left, low)]


class Fitting(InFolder):
    degrees = "POLYGON ((-81.4728 36.2344, -81.5408 36.2725, -75.7731 33.8899, -81.4728 36.2344))"

    def test_degrees_at_factor_1_are_an_error_with_words_that_work(self) -> None:
        status, output, errors = on_file(to_script, self.degrees)
        assert (status, output) == (2, "")
        # Half of 5.7677 degrees goes 363,600 times into 2^20; 4 digits are after the points.
        self.assertEqual(errors, "at factor 1, origin 0 0: coordinates move by up to 0.473, more than a 1000th of the "
                                 "extent, 5.77; to be fitted: --factor 10000 --origin -78.66 35.08, or --fit\n")
        words = errors.split("fitted: ")[1].split(", or")[0].split()
        status, output, errors = on_file(to_script, self.degrees, *words)
        assert status == 0
        assert "0 of 8 coordinates rounded" in errors
        assert on_file(to_script, self.degrees, "--fit")[:2] == (0, output)

    def test_rings_that_collapse_at_factor_1_are_an_error(self) -> None:
        status, output, errors = on_file(to_script, f"{SQUARE} POLYGON ((1000 0, 1000.4 0, 1000 0.4, 1000 0))")
        assert (status, output) == (2, "")
        assert "at factor 1, origin 0 0: 1 rings collapse;" in errors

    def test_the_greatest_factor_of_1_2_and_5(self) -> None:
        for half, factor in (("180.123456789", 5000), ("77104.123456789", 10), ("4.12345678901", 200000),
                             ("1030000.123456", 1), ("2000000.55555", "0.5"), ("5e9", "0.0002")):
            text = f"POLYGON ((-{half} 0, {half} 0, 0 {half}, -{half} 0))"
            status, output, errors = on_file(to_script, text, "--fit")
            assert status == 0, half
            assert errors.startswith(f"--factor {factor} --origin 0 "), errors

    def test_what_is_small_for_the_scale_is_told(self) -> None:
        tiny = "POLYGON ((0 0, 0.00001 0, 0 0.00001, 0 0))"
        wide = "POLYGON ((-180.123456 0, 180.123456 0, 0 9.123456, -180.123456 0))"
        status, output, errors = on_file(to_script, f"MULTIPOLYGON ({wide[8:]}, {tiny[8:]})", "--fit")
        assert status == 0
        assert "left out: FILE, text 1: a polygon, for its outer ring: a ring that collapsed" in errors
        status, output, errors = on_file(to_script, wide + tiny, "--fit")
        assert status == 1
        assert "refused: FILE, text 2: all of it is too small for this scale" in errors

    def test_a_byte_order_mark_and_line_ends_of_windows(self) -> None:
        plain = geojson(("a", [[square(0, 0, 9)]])).replace(", ", ",\n")
        for text in (plain, "POLYGON ((0 0,\n 9 0, 9 9,\n0 0))\n"):
            same = on_file(to_script, text)
            assert same[0] == 0
            assert on_file(to_script, b"\xef\xbb\xbf" + text.replace("\n", "\r\n").encode()) == same

    def sidecar(self, text: str, *words: object) -> Any:
        file = self.file("plan.geojson", text)
        status, output, errors = outcome(to_script, file, "--output", self.folder / "out.txt", *words)
        assert (status, output) == (0, ""), errors
        assert f"factor and origin in {self.folder / 'out.scale.json'}" in errors
        return json.loads((self.folder / "out.scale.json").read_text())

    def test_the_file_of_the_scale(self) -> None:
        text = geojson(("a", [[square(5000, 7000, 9)]]), crs="urn:ogc:def:crs:EPSG::2263")
        told = self.sidecar(text, "--factor", "0.5", "--factor-y", 2, "--origin", "5000.5", 7000, "--unit", "ft",
                            "--title", "Plan")
        self.assertEqual(told, {"title": "Plan", "factor": 0.5, "factor_y": 2, "origin": [5000.5, 7000], "unit": "ft",
                                "crs": "EPSG:2263", "digits": 4, "layers": [{"plan": "694928869914538f"}]})
        rings = "0 0,4 0,4 18,0 18,0 0"
        assert hashlib.sha256(rings.encode()).hexdigest()[:16] == "694928869914538f"
        assert (self.folder / "out.txt").read_text() == "PUT plan POLYGON ((0 0, 4 0, 4 18, 0 18, 0 0))\n"

    def test_names_of_coordinates(self) -> None:
        lonlat = geojson(("a", [[square(5, 7, 9)]])).replace("14", "14.5")
        for text, crs, unit in (
            (geojson(("a", [[square(5, 7, 9)]])), None, "1"), (lonlat, "OGC:CRS84", "degree"),
            (geojson(("a", [[square(5, 7, 9)]]), crs="urn:ogc:def:crs:OGC:1.3:CRS84"), "OGC:CRS84", "degree"),
            (geojson(("a", [[square(5, 7, 9)]]), crs="EPSG:3857"), "EPSG:3857", "metre"),
        ):
            told = self.sidecar(text, "--factor", 100)
            assert (told["crs"], told["unit"]) == (crs, unit)
        for word, crs in (("EPSG:4258", "EPSG:4258"), ("epsg:4258", "EPSG:4258"),
                          ("urn:ogc:def:crs:EPSG::4258", "EPSG:4258"), ("ESRI:102003", "ESRI:102003"),
                          ("IGNF:LAMB93", "IGNF:LAMB93")):
            assert self.sidecar(lonlat, "--factor", 100, "--crs", word)["crs"] == crs

    def test_coordinates_that_are_none_or_others_are_refused(self) -> None:
        metres = self.file("metres.geojson", geojson(("b", [[square(500000, 5800000, 9)]]), crs="EPSG:25832"))
        for word, told in (("nonsense", "as EPSG:25832\n"), ("25832", "as EPSG:25832; EPSG:25832?\n"),
                           ("EPSG:", "as EPSG:25832\n")):
            status, _, errors = outcome(to_script, metres, "--crs", word)
            assert (status, errors.endswith(told)) == (2, True), errors
        none = (
            "is longitude and latitude, and 500009 5800009 is none: are x and y exchanged? Else say by --crs what it "
            "is, as EPSG:25832")
        assert outcome(to_script, metres, "--fit", "--crs", "EPSG:4326") == (2, "", f"EPSG:4326 {none}\n")
        called = self.file("called.geojson",
                           geojson(("b", [[square(500000, 5800000, 9)]]), crs="urn:ogc:def:crs:OGC:1.3:CRS84"))
        assert outcome(to_script, called, "--fit") == (2, "", f"OGC:CRS84 {none}\n")
        beyond = self.file("beyond.geojson", geojson(("b", [[square(179, 7, 9)]]), crs="EPSG:4326"))
        assert outcome(to_script, beyond, "--fit")[0] == 0

    def test_a_second_map_by_the_scale_of_the_first(self) -> None:
        self.sidecar(geojson(("a", [[square(5000, 7000, 9)]]), crs="EPSG:2263"), "--fit")
        scale = self.folder / "out.scale.json"
        second = self.file("second.geojson", geojson(("b", [[square(5001, 7001, 3)]]), crs="EPSG:2263"))
        status, output, _ = outcome(to_script, second, "--scale", scale)
        origin = [int(number) for number in json.loads(scale.read_text())["origin"]]
        corner = f"{5001 - origin[0]} {7001 - origin[1]}"
        assert (status, output.split("((")[1].split(",")[0]) == (0, corner)
        other = self.file("other.geojson", geojson(("b", [[square(5001, 7001, 3)]]), crs="EPSG:3857"))
        assert outcome(to_script, other, "--scale", scale)[0] == 2
        assert outcome(to_script, other, second)[0] == 2
        assert outcome(to_script, second, "--scale", self.folder / "absent")[0] == 2

    def test_degrees_beside_coordinates_of_another_name_are_refused(self) -> None:
        lonlat = geojson(("a", [[square(5, 7, 9)]])).replace("[5, 7]", "[5.25, 7]")
        metres = self.file("metres.geojson", geojson(("b", [[square(500000, 5800000, 9)]]), crs="EPSG:25832"))
        for text, words, status in ((lonlat, [], 2), (lonlat, ["--crs", "EPSG:25832"], 0),
                                    (geojson(("a", [[square(5, 7, 9)]])), [], 0),
                                    (geojson(("a", [[square(500001, 5800000, 9)]])), [], 0)):
            found = outcome(to_script, metres, self.file("a.geojson", text), "--fit", *words)
            assert (found[0], "different coordinates: EPSG:25832, OGC:CRS84; bring" in found[2]) == \
                (status, status == 2), found
        near = self.file("near.geojson",
                         geojson(("b", [[square(1, 2, 9)]]), crs="EPSG:4326").replace("[1, 2]", "[1.5, 2]"))
        assert outcome(to_script, near, self.file("a.geojson", lonlat), "--fit")[0] == 0

    def test_a_store_is_not_written_over(self) -> None:
        file = self.file("plan.wkt", self.degrees)
        for slot in (0, 4096):  # of either slot the magic stands 16 bytes after its beginning
            store = bytes(slot + 16) + b"OVLSTORE" + bytes(8192 - slot - 24)
            for name in ("map.db", "map.scale.json"):
                kept = self.file(name, store)
                told = outcome(to_script, file, "--fit", "--output", self.folder / "map.db")
                assert told == (2, "", f"--output: {kept} is a store, which a script is not written over\n")
                assert kept.read_bytes() == store
                kept.unlink()
                assert [path.name for path in self.folder.iterdir()] == ["plan.wkt"]
        for other in (b"", b"OVLSTORE" * 2, bytes(8192)):
            kept = self.file("map.db", other)
            assert outcome(to_script, file, "--fit", "--output", kept)[0] == 0

    def test_a_file_that_cannot_be_written(self) -> None:
        target = self.folder / "absent" / "plan.txt"
        assert outcome(to_script, self.file("plan.wkt", SQUARE), "--output", target) == \
            (2, "", f"{target}: No such file or directory\n")

    def test_an_input_is_not_written_over(self) -> None:
        file = self.file("plan.geojson", geojson(("a", [[square(0, 0, 9)]])))
        other = self.file("other.wkt", SQUARE)
        (self.folder / "link.txt").symlink_to(file)
        (self.folder / "hard.txt").hardlink_to(file)
        (self.folder / "within").mkdir()
        text = file.read_bytes()
        for target in (file, "link.txt", "hard.txt", "within/../plan.geojson"):
            target = self.folder / target
            told = outcome(to_script, other, file, "--fit", "--output", target)
            assert told == (2, "", f"--output: {target} is the input {file}, which is not written over\n")
        given = self.file("in.scale.json", text)
        told = outcome(to_script, given, "--output", self.folder / "in.txt")
        assert told == (2, "", f"--output: {given} is the input {given}, which is not written over\n")
        assert (given.read_bytes(), (self.folder / "in.txt").exists()) == (text, False)
        assert (file.read_bytes(), (self.folder / "plan.scale.json").exists()) == (text, False)

    def test_the_scale_of_another_map_is_not_written_over_by_a_script(self) -> None:
        file = self.file("plan.wkt", SQUARE)
        scale = self.file("plan.scale.json", '{"factor": 2}')
        told = outcome(to_script, file, "--scale", scale, "--output", scale)
        assert told == (2, "", f"--output: {scale} is the input {scale}, which is not written over\n")
        titled = ["--title", "Other", "--output", self.folder / "plan.txt"]
        told = outcome(to_script, file, "--scale", scale, *titled)
        assert told == (2, "", f"--output: {scale} is the input {scale}, which is not written over\n")
        for words in ([], ["--title", ""]):
            told = outcome(to_script, file, "--scale", scale, *words, "--output", self.folder / "plan.txt")
            assert told[0] == 0, told

    def test_no_file_is_left_where_there_is_no_layer(self) -> None:
        for text in (geojson(), geojson(("a", [])), "POINT (1 2)", "POLYGON ((0 0, 1 0, 2 0, 0 0))"):
            file = self.file("plan.geojson", text)
            named = ["--name-by", "name"] if text.startswith("{") else []
            for words in (["--fit"], ["--factor", 1, *named]):
                status, output, errors = outcome(to_script, file, *words, "--output", self.folder / "out.txt")
                assert (status, output) == (1, ""), (text, words, errors)
                assert errors.splitlines()[-1] == "no layer: nothing is written"
                assert [path.name for path in self.folder.iterdir()] == ["plan.geojson"]

    def test_the_store_that_is_told_is_another_file_than_the_script(self) -> None:
        file = self.file("plan.wkt", self.degrees)
        for name, made in (("map.txt", "map.db"), ("map.db", "map.store"), ("map", "map.db")):
            script = self.folder / name
            errors = outcome(to_script, file, "--fit", "--output", script)[2]
            assert f"overlayd --store {self.folder / made} --create {script}\n" in errors

    def test_a_scale_that_a_file_cannot_say(self) -> None:
        file = self.file("plan.wkt", SQUARE)
        status, _, errors = outcome(to_script, file, "--factor", "1/3", "--output", self.folder / "out.txt")
        assert status == 2
        assert "1/3 has no end after the point" in errors


class Splitting(InFolder):
    def test_runs_are_the_ring_by_even_odd(self) -> None:
        source = random.Random(5)
        for most in (4, 5, 7, 2048):
            for steps in [*range(3, 40), 2047, 2048, 2049, 2050, 4094, 4095, 4096, 9000]:
                ring = [(source.randrange(9), source.randrange(9)) for _ in range(steps)]
                ring.append(ring[0])
                runs = layering.runs_of(ring, most)
                assert odd_segments(runs) == odd_segments([ring])
                assert all(run[0] == run[-1] and 3 <= len(run) - 1 <= most for run in runs)
                # Each run but the last is as long as it may be: the first has one chord, the others have two.
                wanted = 1 if steps <= most else 2 + max(0, -((steps - 2 * (most - 1)) // -(most - 2)))
                assert len(runs) == wanted

    def check(self, words: list[object], features: list[tuple[str, list[list[Ring]]]]) -> dict[str, Any]:
        """The layers of a script over a file: that none is too long, and the segments of each."""
        text = geojson(*features)
        status, output, errors = on_file(to_script, text, "--factor", 1, "--name-by", "name", *words)
        assert status == 0, errors
        layers: dict[str, Any] = {}
        for line in output.splitlines():
            word, name, rest = line.split(" ", 2)
            if word == "DEFINE":
                layers[name] = rest[2:]
                continue
            points = [ring.split(", ") for ring in rest.split(" ", 1)[1].replace("((", "(").strip("()").split("), (")]
            rings = [[(int(x), int(y)) for x, y in (point.strip("()").split() for point in ring)] for ring in points]
            assert sum(len(ring) - 1 for ring in rings) <= limits.STEPS_MAX
            assert len(line) <= limits.LINE_MAX
            layers[name] = rings
        return layers

    def test_a_long_ring_in_layers_joined_by_even_odd(self) -> None:
        ring = zigzag(5000)
        layers = self.check(["--split"], [("Long", [[ring]])])
        assert layers["Long"] == "Long_1 ^ Long_2 ^ Long_3"
        runs = [one for name in ("Long_1", "Long_2", "Long_3") for one in layers[name]]
        assert odd_segments(runs) == odd_segments([ring])
        errors = on_file(to_script, geojson(("Long", [[ring]])), "--split")[2]
        assert "steps 5000 in 3 layers; LOCATE says edge on 2 chords" in errors

    def test_short_rings_fill_the_room_that_long_ones_leave(self) -> None:
        polygons = [[zigzag(3000)], [zigzag(1000, 20000), square(20500, 1, 2)], [zigzag(1800, 40000)]]
        layers = self.check(["--split"], [("Many", polygons)])
        assert layers["Many"] == "Many_1 ^ Many_2 ^ Many_3"
        rings = [ring for name, value in layers.items() if name != "Many" for ring in value]
        assert odd_segments(rings) == odd_segments([ring for polygon in polygons for ring in polygon])

    def test_without_the_word_it_is_refused(self) -> None:
        text = geojson(("Long", [[zigzag(2049)]]), ("Short", [[square(0, 0, 9)]]))
        status, output, errors = on_file(to_script, text, "--name-by", "name")
        assert (status, output) == (1, "PUT Short POLYGON ((0 0, 9 0, 9 9, 0 9, 0 0))\n")
        assert "refused: layer Long: too many steps: 2049 of at most 2048; --split writes them exactly" in errors
        several = geojson(("Many", [[zigzag(1000, left)] for left in (0, 2000, 4000)]))
        assert "layer Many: too many steps: 3000 of at most 2048" in on_file(to_script, several, "--name-by", "name")[2]
        status, output, errors = on_file(to_script, text, "--name-by", "name", "--union")
        assert (status, output) == (1, "PUT Short POLYGON ((0 0, 9 0, 9 9, 0 9, 0 0))\n")

    def test_names_of_parts_are_no_others(self) -> None:
        features = [("Long", [[zigzag(3000)]]), ("Long 1", [[square(0, 0, 9)]]), ("x" * 32, [[zigzag(3000)]])]
        layers = self.check(["--split"], features)
        assert list(layers) == ["Long_1_2", "Long_2", "Long", "Long_1", "x" * 30 + "_1", "x" * 30 + "_2", "x" * 32]

    def test_more_than_a_store_holds(self) -> None:
        text = geojson(("Huge", [[zigzag(70000)]]))
        status, output, errors = on_file(to_script, text, "--split")
        assert (status, output) == (1, "")
        assert "70000 steps need 36 layers, more than a store has" in errors

    def test_polygons_that_overlap_are_united(self) -> None:
        # 0 and 1 overlap, 2 lies over 1, 3 lies apart: two layers do.
        polygons = [[square(0, 0, 10)], [square(5, 5, 10)], [square(14, 0, 6)], [square(40, 0, 6)]]
        layers = self.check(["--union"], [("All", polygons)])
        assert layers["All"] == "All_1 | All_2"
        assert layers["All_1"] == [polygons[0][0], polygons[2][0], polygons[3][0]]
        assert layers["All_2"] == [polygons[1][0]]

    def test_long_ones_are_split_and_united(self) -> None:
        polygons = [[zigzag(3000)], [zigzag(1000, 500)], [square(400, -90, 200)]]
        layers = self.check(["--union", "--split"], [("All", polygons)])
        assert layers["All"] == "(All_1 ^ All_2) | All_3 | All_4"

    def test_many_layers_go_into_several_stores(self) -> None:
        features = [(f"n{i}", [[square(20 * i, 0, 9)]]) for i in range(40)]
        file = self.file("plan.geojson", geojson(*features))
        status, output, errors = outcome(to_script, file, "--name-by", "name", "--output", self.folder / "out.txt")
        assert (status, output) == (0, "")
        parts = [(self.folder / f"out.{place}.txt").read_text().splitlines() for place in (1, 2)]
        assert [line.split()[1] for part in parts for line in part] == [f"n{i}" for i in range(40)]
        assert [len(part) for part in parts] == [32, 8]
        for place, count in ((1, 32), (2, 8)):
            made = self.folder / f"out.{place}"
            assert f"{made}.txt: {count} layers; overlayd --store {made}.db --create {made}.txt" in errors
        assert not (self.folder / "out.txt").exists()


class Wrong(InFolder):
    def test_words_that_go_not_together(self) -> None:
        file = self.file("plan.wkt", SQUARE)
        for words in (["--scale", "x", "--fit"], ["--factor", "0"]):
            status, _, errors = outcome(to_script, file, *words)
            assert (status, words[0].strip("-") in errors.split("Error: ")[1]) == (2, True), errors
