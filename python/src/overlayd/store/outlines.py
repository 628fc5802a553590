"""The polygons of a store's layers: overlay_features is asked what a layer is in terms of base layers.

Each base layer is one feature, even-odd over its rings. A layer of the expression is even-odd over its features, so
base layers joined by ^ alone, as those that a long one is split into, are one layer of it."""

import functools
import math
import operator
import re

import numpy as np

from ..ending import Unusable
from ..geometry.areas import Ring
from ..geometry.plane import compare, turn
from ..kernel.blocks import Asked, Kind, Wants, block, cells_job
from ..kernel.exact import rings_of
from ..kernel.features import of_rings
from ..kernel.layered import frame_of, need_answers
from ..kernel.rows import NONE, Rows
from ..kernel.running import GoesOn, always, run
from ..kernel.spelling import LAYERS, name_of
from ..program import Point
from .layers import NAME, Layers, names_in

PLACE = functools.cmp_to_key(compare)  # the order of corners, by x and then by y
TOKENS = 64  # of an expression
Parts = list[frozenset[str]]  # of each layer of an expression the base layers of which it is where an odd number are
TOO_LONG = (f"it has no polygons, as in terms of base layers its definition has more than {TOKENS} names and signs, or "
            f"more than {LAYERS} layers")


def expression(layers: Layers, name: str) -> tuple[str, Parts]:
    """A layer in terms of base layers."""
    odd, texts, parts = dict[str, frozenset[str]](), dict[str, str](), Parts()

    def spelled(name: str) -> str:
        if name in texts:
            return texts[name]
        if odd[name] not in parts:
            parts.append(odd[name])
        return name_of(parts.index(odd[name]))

    reached = layers.reach(name)
    for one in (own for own in layers.order if own in reached):
        definition = layers.definitions.get(one, "")
        names, signs = names_in(definition), set(re.sub(NAME, "", definition)) - {" "}
        if not names:
            odd[one] = frozenset([one])
        elif signs <= {"^"} and odd.keys() >= set(names):
            odd[one] = functools.reduce(operator.xor, (odd[named] for named in names))
        else:
            text = re.sub(NAME, lambda found: spelled(found[0]), definition)
            texts[one] = f"({text})" if signs & set("|-^") and one != name else text
            if len(re.findall(r"\w+|[^\w ]", text)) > TOKENS or len(parts) > LAYERS:
                raise Unusable(f"{name}: {TOO_LONG}")
    return spelled(name), parts


def row_of(layers: Layers, name: str, program: str, goes_on: GoesOn = always) -> Rows:
    """What the program replies of a layer: one row with its rings."""
    text, parts = expression(layers, name)
    bases = sorted(frozenset[str]().union(*parts))
    rings = [ring[:-1] for base in bases for ring in layers.base[base]]
    points = np.array([point for ring in rings for point in ring], np.int64).reshape(-1, 2)
    features = of_rings(points[:, 0], points[:, 1], np.array([len(ring) for ring in rings], np.int64),
                        np.array([len(layers.base[base]) for base in bases]))
    members = [(bases.index(base), number) for number, part in enumerate(parts) for base in part]
    job = cells_job(frame_of([features]), *np.array(members, np.int64).reshape(-1, 2).T)
    asked = Asked(Kind.CELLS, job, 1, text.encode(), len(parts))
    (found,) = run(program, [block(features, asked, Wants.OUTLINES | Wants.FRACTIONS)], goes_on)
    need_answers(found)
    return found


def reduced(corner: Point) -> Point:
    """A corner by the smallest whole numbers."""
    by = math.gcd(*corner)
    return corner[0] // by, corner[1] // by, corner[2] // by


def ring_of(given: list[Point], outer: bool) -> Ring:
    """The ring through corners, the least of which is the first; those on a straight line are dropped."""
    corners = [reduced(corner) for corner in given]
    after = corners[1:] + corners[:1]
    kept = [corner for i, corner in enumerate(corners) if turn(corners[i - 1], corner, after[i])]
    first = min(range(len(kept)), key=lambda place: PLACE(kept[place]))
    return Ring(kept[first:] + kept[:first], outer)


def polygons_of(row: Rows) -> list[list[Ring]]:
    """The polygons of a row: each an outer ring and its holes, in the order of their least corners."""
    outers, found = row.rings["outer"].tolist(), dict[int, list[Ring]]()
    rings = [(number if outer == NONE else outer, ring_of(corners, outer == NONE))
             for number, (corners, outer) in enumerate(zip(rings_of(row), outers))]
    rings.sort(key=lambda one: (not one[1].outer, *map(PLACE, one[1].corners[:2])))
    for home, ring in rings:
        found.setdefault(home, []).append(ring)
    return list(found.values())


def polygons(layers: Layers, name: str, program: str, goes_on: GoesOn = always) -> list[list[Ring]]:
    """The polygons of a layer, likewise."""
    return polygons_of(row_of(layers, name, program, goes_on))
