"""Features in whole numbers, the pairs of their boxes, and blocks of them."""

import re
from pathlib import Path
from unittest import mock

import numpy as np
import pytest
from hypothesis import given, settings
from hypothesis import strategies as drawn

from overlayd.kernel import box_pairs
from overlayd.kernel.blocks import Asked, Kind, Wants, block, cells_job, locate_job, pair_blocks, within_blocks
from overlayd.kernel.box_pairs import pairs, pairs_within
from overlayd.kernel.features import Features, of_rings

Place = tuple[int, int]
Way = list[Place]
Box = tuple[int, int, int, int]

small = drawn.integers(-9, 9)
large = small | drawn.integers(-2**41, 2**41) | drawn.integers(-300, 300)


def as_box(ends: tuple[int, int, int, int]) -> Box:
    a, b, c, d = ends
    return min(a, c), min(b, d), max(a, c), max(b, d)


boxes = drawn.lists(drawn.tuples(large, large, large, large).map(as_box) | drawn.just((1, 1, 0, 0)), max_size=20)
maps = drawn.lists(drawn.lists(drawn.lists(drawn.tuples(small, small), max_size=5), max_size=3), max_size=6)


def map_of(given_map: list[list[Way]]) -> Features:
    rings = [ring for feature in given_map for ring in feature]
    corners = np.array([corner for ring in rings for corner in ring], np.int64).reshape(-1, 2)
    return of_rings(corners[:, 0], corners[:, 1], np.array([len(ring) for ring in rings], np.int64),
                    np.array([len(feature) for feature in given_map], np.int64))


def as_lists(features: Features) -> list[list[Way]]:
    corners = list(zip(features.x.tolist(), features.y.tolist()))
    at, own = features.ring_at.tolist(), features.feature_at.tolist()
    rings = [corners[begin:end] for begin, end in zip(at, at[1:])]
    return [rings[begin:end] for begin, end in zip(own, own[1:])]


@settings(deadline=None)
@given(boxes, boxes, drawn.booleans(), drawn.sampled_from((-1, box_pairs.FEW)))
def test_pairs_are_those_with_a_common_part(a: list[Box], b: list[Box], touching: bool, few: int) -> None:
    def is_pair(one: Box, other: Box) -> bool:
        west, south = max(one[0], other[0]), max(one[1], other[1])
        east, north = min(one[2], other[2]), min(one[3], other[3])
        return west <= east and south <= north if touching else west < east and south < north

    first, second = (np.array(own, np.int64).reshape(-1, 4) for own in (a, b))
    full = [[own for own in enumerate(one) if own[1] != (1, 1, 0, 0)] for one in (a, b)]
    with mock.patch.object(box_pairs, "FEW", few):  # by grids, and all together
        found, within = (own.tolist() for own in (pairs(first, second, touching), pairs_within(first, touching)))
    assert found == [[i, j] for i, one in full[0] for j, other in full[1] if is_pair(one, other)]
    assert within == [[i, j] for i, one in full[0] for j, other in full[0] if i < j and is_pair(one, other)]


@settings(deadline=None)
@given(maps, drawn.data())
def test_a_part_of_a_map_has_its_features_and_boxes(given_map: list[list[Way]], data: drawn.DataObject) -> None:
    features = map_of(given_map)
    live = [[ring for ring in feature if ring] for feature in given_map]
    assert as_lists(features) == live and features.points().tolist() == [sum(map(len, own)) for own in live]
    some = data.draw(drawn.lists(drawn.integers(0, len(live) - 1)) if live else drawn.just([]))
    assert as_lists(features.part(np.array(some, np.int64))) == [live[number] for number in some]
    xs, ys = ([[corner[axis] for ring in own for corner in ring] for own in live] for axis in (0, 1))
    assert features.boxes().tolist() == [
        [min(x), min(y), max(x), max(y)] if x else [1, 1, 0, 0] for x, y in zip(xs, ys)]


FIRST, SECOND = [[(0, 0), (4, 0), (0, 4)]], [[(1, 1), (5, 1), (1, 5)]]
FAR = [[(-(2**41), -(2**41)), (2**41, -(2**41)), (2**41, 2**41)]]


def vectors() -> list[bytes]:
    """The blocks that the page on formats has in hexadecimal, in its order."""
    page = Path(__file__).parents[2].joinpath("docs", "FORMAT.md").read_text(encoding="utf-8")
    found = re.findall(r"(?:^    [0-9a-f]+$\n)+", page.split("## Blocks of features")[1], re.MULTILINE)
    blocks = [bytes.fromhex("".join(one.split())) for one in found]
    return [one for one in blocks if one[8:12] == b"OVFB"]


@pytest.mark.parametrize("number, features, asked, wants", [
    (0, [FIRST, SECOND], Asked(Kind.PAIR, np.array([0, 1]), 1), Wants.OUTLINES),
    (1, [FIRST], Asked(Kind.CELLS, cells_job((0, 4, 0, 4), np.array([0]), np.array([0])), 1, b"Laa", 1), Wants.NOTHING),
    (2, [FIRST], Asked(Kind.LOCATE, locate_job(0, *(np.array([one]) for one in (1, 1, 2))), 1), Wants.NOTHING),
    (3, [FAR], Asked(Kind.PAIR, np.array([0, 0]), 1), Wants.NOTHING)])
def test_blocks_are_those_of_the_page(number: int, features: list[list[Way]], asked: Asked, wants: Wants) -> None:
    assert block(map_of(features), asked, wants).hex() == vectors()[number].hex()


@settings(deadline=None)
@given(maps, maps, drawn.data(), drawn.integers(1, 4))
def test_blocks_of_pairs_hold_what_their_pairs_need(a: list[list[Way]], b: list[list[Way]], data: drawn.DataObject,
                                                    size: int) -> None:
    both = [(i, j) for i in range(len(a)) for j in range(len(b))]
    asked = np.array(data.draw(drawn.lists(drawn.sampled_from(both))
                     if both else drawn.just([])), np.int64).reshape(-1, 2)
    jobs = [job for one in pair_blocks(map_of(a), map_of(b), asked, size=size) for job in jobs_of(one)]
    live = [[[ring for ring in feature if ring] for feature in own] for own in (a, b)]
    assert jobs == [(live[0][i], live[1][j]) for i, j in asked.tolist()]
    within = asked[(asked < len(a)).all(axis=1)]
    jobs = [job for one in within_blocks(map_of(a), within, size=size) for job in jobs_of(one)]
    assert jobs == [(live[0][i], live[0][j]) for i, j in within.tolist()]


def jobs_of(given_block: bytes) -> list[tuple[list[Way], list[Way]]]:
    """The pairs of a block, read as the page says."""
    assert int.from_bytes(given_block[:8], "little") == len(given_block)
    features, rings, points, jobs, numbers = np.frombuffer(given_block[28:48], "<u4").tolist()
    words = np.frombuffer(given_block[56:-4], "<u4")
    counts, sizes, left = words[:features], words[features : features + rings], words[features + rings :]
    corners = np.frombuffer(left[: 4 * points].tobytes(), "<i8").reshape(-1, 2)
    closed = as_lists(of_rings(corners[:, 0], corners[:, 1], sizes.astype(np.int64), counts.astype(np.int64)))
    assert all(ring[0] == ring[-1] for feature in closed for ring in feature)
    own = [[ring[:-1] for ring in feature] for feature in closed]
    found = left[4 * points :].reshape(-1, 2).tolist()
    assert len(found) == jobs and 2 * jobs == numbers
    assert sorted({number for job in found for number in job}) == list(range(features))
    return [(own[i], own[j]) for i, j in found]
