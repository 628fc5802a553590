"""Tests of overlay check, as a user runs it, over maps of which a box says little: a feature with many points, and many
features over one place."""

import csv
import math
import random
import re
import time
from typing import Any

from shapely.geometry import Polygon
from shapely.ops import unary_union

from .common import OVERLAY, Programs, ran
from .test_map_words import WithMaps, square

ENDS = 300  # seconds, on a busy machine too: before it was mended the first of these took hours


def coast(points: int, reach: int) -> list[list[float]]:
    """A ring with nine bays."""
    turns = [2 * math.pi * at / points for at in range(points)]
    far = [reach * (1 + 0.3 * math.cos(9 * turn)) for turn in turns]
    ring: list[list[float]] = [[round(out * math.cos(turn)), round(out * math.sin(turn))]
                               for out, turn in zip(far, turns)]
    return [*ring, ring[0]]


class Checks(WithMaps):
    def checked(self, *words: object) -> tuple[int, list[list[str]], str]:
        """The status, the rows of the table and what is reported, by the command; it ends in time."""
        begin = time.monotonic()
        done = ran(*OVERLAY, "check", *words, "--a-id", "nr", "--program", Programs.features, timeout=4 * ENDS)
        assert time.monotonic() - begin < ENDS
        return done.returncode, list(csv.reader(done.stdout.splitlines()))[1:], done.stderr

    def test_a_feature_of_more_points_than_a_cell_may_have(self) -> None:
        small = {f"p{at}": square(3000 * (at % 20), 3000 * (at // 20), 2500) for at in range(200)}
        whole = self.map("a", {"coast": coast(1500, 40_000), **small})
        status, rows, errors = self.checked(whole, "--factor", 1)
        assert status == 0, errors
        assert " and what is open are the whole frame, and areas less overlaps" in errors
        found = {(row[0], row[1], float(row[3])) for row in rows}
        assert {("coast", "p0", 6250000.0), ("coast", "p21", 6250000.0)} <= found

    def test_two_coasts_that_overlap(self) -> None:
        moved: list[Any] = [[x + 9000, y + 5000] for x, y in coast(900, 40_000)]
        status, rows, errors = self.checked(self.map("a", {"A": coast(900, 40_000), "B": moved}), "--factor", 1)
        assert (status, len(rows)) == (0, 1), errors
        assert " and what is open are the whole frame, and areas less overlaps" in errors

    def test_sixty_quadrilaterals_on_each_other(self) -> None:
        source = random.Random(1)
        corners = ((0, 0), (60, 0), (60, 60), (0, 60))
        rings = [[[x + source.randint(0, 40), y + source.randint(0, 40)] for x, y in corners] for _ in range(60)]
        pile = {f"q{at}": [*ring, ring[0]] for at, ring in enumerate(rings)}
        beside = {"left": square(200, 0, 10), "right": square(209, 0, 10)}
        status, rows, errors = self.checked(self.map("a", {**pile, **beside}), "--factor", 1)
        assert (status, len(rows)) == (0, 60 * 59 // 2 + 1), errors
        assert ["left", "right", "10.0"] in [[*row[:2], row[3]] for row in rows]
        covered = re.search(r"what is covered \(([0-9.]+)\) and what is open are the whole frame", errors)
        assert covered, errors
        union = unary_union([Polygon(ring) for ring in (*pile.values(), *beside.values())])
        self.assertAlmostEqual(float(covered[1]), union.area, delta=1e-6)
