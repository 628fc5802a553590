"""What people complain of in overlays of polygons: each with an input that shows it, and what each system answers.

    OVERLAY_FEATURES=PROGRAM python3 -m overlayd_lab.complaints docs/guide/complaints.md

The page is written anew. A column is what the system answers here; of one that is not installed (PostGIS, QGIS) what
the page has stays. The complaints are the usual ones of forums and trackers; the inputs are made here.
"""

from __future__ import annotations

import contextlib
import functools
import json
import os
import pathlib
import random
import subprocess
import sys
import warnings
from collections.abc import Callable, Iterator, Sequence
from fractions import Fraction
from typing import Any

import geopandas
from shapely import affinity, wkt
from shapely.geometry import MultiPolygon, Point, Polygon, box

import overlayd
from overlayd_lab import TOP
from overlayd_lab.complaint_systems import FAR, GLOBE, NEAR, PLANE, PostGis, Python, Qgis, Says, System, frame
from overlayd_lab.measures.map_peers import POSTGRES, postgres

SQUARE, BOW = box(0, 0, 10, 10), Polygon([(1, 1), (9, 9), (9, 1), (1, 9)])
STAR = Polygon([(0, 0), (40, 100), (80, 0), (-10, 60), (90, 60)])
TWICE = MultiPolygon([box(0, 0, 10, 10), box(5, 0, 15, 10)])
AROUND = box(-100, -100, 200, 200)
LEFT = wkt.loads("POLYGON ((0 0, 3 1, 3 2, 0 2, 0 0))")
RIGHT = wkt.loads("POLYGON ((0 0, 1.1 0.36666666666666664, 3 1, 3 0, 0 0))")
RING = [box(0, 0, 3, 1), box(0, 1, 1, 2), box(2, 1, 3, 2), box(0, 2, 3, 3)]
DEEP = [box(0, 0, 4, 4), box(1, 1, 5, 5), box(2, 2, 6, 6)]
SIDES = box(0, 0, 1, 1), box(1, 0, 2, 1)
THIN = Polygon([(0, 0), (1000, 0.0004), (1000, 0.0008)])
CLOSE = box(0, 0, 1, 1), box(1 - 1e-5, 0, 2, 1)
CROSSED = Polygon([(0, 0), (1.001, 0.333), (0.002, 1.001)]), Polygon([(0, 0.5), (1.001, 0.5), (0.002, 2.001)])
AWAY = [[affinity.translate(one, shift, shift) for one in CROSSED] for shift in (0, 5_000_000)]
HEAD = """# What people complain of, and what each system answers

`python3 -m overlayd_lab.complaints` (python/lab) makes this page, and a test compares it. Each answer is what a system
gave when it was asked: shapely and geopandas, PostGIS and QGIS, which all stand on GEOS, and `overlayd`. Where the
answer of `overlayd` may surprise, or is no better, the last column says why.

"""
END = """
Not answered at all: lines and points, buffers and distances, areas on the globe (square degrees are what is given, and
said), heights, and maps across the antimeridian. Take PostGIS or GEOS for these.
"""
PEERS = "Python", "PostGIS", "QGIS"
Complaint = tuple[str, Callable[[System], object], Callable[[], object]]


def said(work: Callable[[], Any]) -> str:
    """What it gives, or what it raises: its name, where it does not say what a user reads."""
    try:
        return str(work())
    except Exception as fault:
        return str(fault) if isinstance(fault, Says) else type(fault).__name__


def exact(a: Any, b: Any, **more: Any) -> str:
    """The areas of what two shapes have in common, as fractions."""
    return ", ".join(map(str, overlayd.overlay(frame(a), frame(b), exact="exact", **more).exact)) or "nothing"


def area(expression: str, **layers: Any) -> Fraction:
    """The area of an expression over frames, on a grid of 1."""
    found: Fraction = overlayd.derive(expression, layers, grid_size=1).attrs["overlayd"]["area"]
    return found


@functools.cache
def triangles() -> list[Polygon]:
    """400 of them."""
    source, found = random.Random(1), list[Polygon]()
    while len(found) < 400:
        one = Polygon([(source.randrange(1000), source.randrange(1000)) for _ in range(3)])
        found += [one] if one.area > 100 else []
    return found


def pairs() -> list[tuple[Polygon, Polygon]]:
    """Pairs of triangles that overlap."""
    return [(a, b) for a, b in zip(triangles()[::2], triangles()[1::2]) if a.intersection(b).area > 0]


def triples() -> list[tuple[Polygon, Polygon, Polygon]]:
    """Triples of triangles that overlap."""
    some = triangles()
    return [(a, b, c) for a, b, c in zip(some[::3], some[1::3], some[2::3]) if a.intersection(b).intersection(c).area]


def apart(sets: Sequence[Sequence[Polygon]]) -> dict[str, Any]:
    """A frame of the first shapes of all sets, one of the second, and so on, each set away from all others."""
    moved = [[affinity.translate(one, 2000 * place, 0) for one in shapes] for place, shapes in enumerate(sets)]
    return dict(zip("abc", (frame(*shapes) for shapes in zip(*moved))))


def of_validity() -> Iterator[Complaint]:
    yield ("An outline that crosses itself stops the run (a bow tie in a square)",
           lambda ask: f"{ask('intersection', SQUARE, BOW).area:g}", lambda: exact(SQUARE, BOW))
    yield ("A map with one invalid feature is refused", lambda ask: len(ask.pieces([SQUARE], [BOW], "intersection")),
           lambda: f"{exact(SQUARE, BOW)}; no repair is needed. `make_valid=False` still refuses, as it promises")
    yield ("buffer(0) loses half of the bow tie", lambda ask: f"{ask('area', ask('buffer', BOW)):g} of 32",
           lambda: f"{exact(SQUARE, BOW)}; there is no buffer")
    yield ("Repairs disagree (a five-pointed star)",
           lambda ask: ", ".join(f"{told} {ask('area', ask(does, STAR)):.2f}" for told, does in (
               ("make valid", "repaired"), ("buffer(0)", "buffer"))),
           lambda: f"{float(Fraction(exact(AROUND, STAR))):.2f}, always: by even-odd the middle, enclosed twice, is "
           "outside")
    yield ("Parts of a multipolygon lie on each other (two squares, half on each other)",
           lambda ask: f"{ask('area', TWICE):g} by area, {ask('area', ask('repaired', TWICE)):g} repaired",
           lambda: f"{exact(AROUND, TWICE)}, which surprises: all outlines of a feature count by even-odd, so that "
           f"holes need no order. `derive` of the parts, exploded, gives the union: {area('a', a=frame(*TWICE.geoms))}")


def counties() -> list[Any]:
    """Those of North Carolina, and the same moved."""
    own = geopandas.read_file(TOP / "tools/data/north_carolina.geojson")[["name", "geometry"]]
    return [own, own.set_geometry(own.translate(0.1, 0.05))]


def slivers(shapes: Sequence[Any]) -> str:
    return f"{len(shapes)} pieces, {sum(one.area < 1e-12 for one in shapes)} below 1e-12"


def rows_and_areas(shapes: Sequence[Any]) -> str:
    return f"{len(shapes)} rows, whose areas sum to {sum(one.area for one in shapes):g}"


def invalid(shapes: Sequence[Any]) -> str:
    return f"{sum(not one.is_valid for one in shapes)} invalid"


def sums() -> str:
    """How many features are not the sum of their pieces."""
    layers = apart(pairs())
    parts = overlayd.overlay(layers["a"], layers["b"], "identity", exact="exact", grid_size=1)
    own = overlayd.pairs(layers["a"], layers["a"], predicate="equals", exact="exact", grid_size=1)
    told = parts.groupby("k_1").exact.sum()
    errors = sum(abs(told[k] - own.exact[k]) > Fraction(1, 10**6) for k in own.index)
    return f"{errors} are off by more than the bound of their areas"


def beside(ask: System) -> str:
    """How far corners lie from the borders that cross there."""
    far = max(min(Point(corner).distance(side.boundary) for side in shapes)
              for shapes in pairs() for corner in ask("intersection", *shapes).exterior.coords)
    return f"up to {far:.1e} from the nearer one"


def differ(ask: System) -> str:
    """How many triples depend on the order."""
    def both(a: Any, b: Any, c: Any) -> Any:
        return ask("intersection", ask("intersection", a, b), c)

    return f"(A & B) & C is not (C & B) & A for {sum(not ask('equals', both(*t), both(*t[::-1])) for t in triples())}"


def of_arithmetic() -> Iterator[Complaint]:
    of, of_three = f"({len(pairs())} pairs of triangles)", f"({len(triples())} triples)"
    yield ("A union has slivers (100 counties and the same moved)",
           lambda ask: slivers(ask.union_of([one.geometry for one in counties()])),
           lambda: slivers(overlayd.overlay(*counties(), "union").geometry))
    yield (f"A does not cover what it has in common with B {of}",
           lambda ask: f"denied for {sum(not ask('covers', a, ask('intersection', a, b)) for a, b in pairs())}",
           lambda: f"(A & B) - A has an area of {area('(a & b) - a', **apart(pairs()))}")
    yield (f"A - B still overlaps B {of}",
           lambda ask: f"{sum(ask('intersection', ask('difference', a, b), b).area > 0 for a, b in pairs())} do",
           lambda: f"(A - B) & B has an area of {area('(a - b) & b', **apart(pairs()))}")
    yield (f"The pieces of a feature do not sum to it {of}",
           lambda ask: str(sum(ask("area", a) != ask("area", ask("intersection", a, b)) + ask(
               "area", ask("difference", a, b)) for a, b in pairs())) + " by doubles do not", sums)
    yield (f"The result depends on the order {of_three}", differ,
           lambda: "their symmetric difference has an area of "
           f"{area('((a & b) & c) ^ ((c & b) & a)', **apart(triples()))}")
    yield (f"A computed corner lies beside both borders {of}", beside,
           lambda: "within, corners are fractions on both. What is given are the doubles next to them, as a file holds "
           "no fractions: no better then")


def kinds(ask: System) -> str:
    found = ask("intersection", *SIDES)
    return f"{found.geom_type} of two shapes; {len(ask.pieces(SIDES[:1], SIDES[1:], 'intersection'))} polygons of maps"


def told_of_sides() -> str:
    found = ", ".join(overlayd.pairs(*map(frame, SIDES)).relation)
    return f"no piece, as pieces are polygons; `pairs` says {found}, and `keep_geom_type=False` gives GEOS's lines"


def close_ones() -> str:
    found = [overlayd.pairs(*map(frame, CLOSE), grid_size=size).relation[0] for size in ("1e-3", "1e-5")]
    return f"{found[0]} on a grid of 0.001, {found[1]} on one of 0.00001: which is right the grid says that you name"


def of_borders() -> Iterator[Complaint]:
    yield "Lines and points come out of polygons that touch", kinds, told_of_sides
    yield ("Neighbours whose common border one has with a corner more (at a third)",
           lambda ask: f"overlap {ask('intersection', LEFT, RIGHT).area:.1e}, gap "
           f"{ask('difference', box(0, 0, 3, 2), ask('union', LEFT, RIGHT)).area:.1e}",
           lambda: "{} overlaps, {} gaps: the corner stays on the border".format(
               *map(len, overlayd.check(frame(LEFT, RIGHT))[:2])))
    yield ("A dissolve leaves a hole that nobody sees (four boxes round a fifth)",
           lambda ask: f"{len(ask('union', *RING).interiors)} hole, found by who looks for rings inside",
           lambda: f"`check` lists it: {overlayd.check(frame(*RING)).gaps.gap_area.tolist()}")
    yield ("A layer with itself: what lies three deep counts often (three squares)",
           lambda ask: rows_and_areas(ask.pieces(DEEP, DEEP, "intersection")),
           lambda: f"`check` {overlayd.check(frame(*DEEP)).overlaps.shared_area.tolist()}, "
           f"`derive` {area('a', a=frame(*DEEP))}")
    yield ("Do they overlap, or only touch (by 0.00001)?",
           lambda ask: f"overlap, by {ask('intersection', *CLOSE).area:.1e}", close_ones)


def other_systems() -> str:
    far, near = (frame(box(*corners), crs=crs) for corners, crs in ((FAR, PLANE), (NEAR, GLOBE)))
    return (f"`overlay` {len(overlayd.overlay(far, near))} rows and the warning, which is wrong: it takes the place of "
            f"geopandas's. `derive` {said(lambda: overlayd.derive('a & b', {'a': far, 'b': near}))}, and so the "
            "command; the plugin brings the other map over, as QGIS")


def thin() -> str:
    found = overlayd.overlay(frame(THIN), frame(box(-1, -1, 2000, 1)), grid_size="0.01")
    return (f"{len(found)} rows: it is thinner than the grid that was named, and is said to be gone: "
            f"{found.attrs['overlayd']['collapsed']}")


@functools.cache
def stars() -> list[list[Any]]:
    """Twice 40 stars of whole corners, which cross each other many times."""
    source, shapes = random.Random(5), list[Polygon]()
    for place in range(80):
        hull = [(round(1000 * (place % 40) + source.randint(10, 300) * x), round(source.randint(10, 300) * y))
                for x, y in ((1, 0), (.7, .7), (0, 1), (-.7, .7), (-1, 0), (-.7, -.7), (0, -1), (.7, -.7))]
        shapes.append(Polygon(hull).buffer(0))
    return [shapes[:40], shapes[40:]]


def degrees() -> str:
    own = frame(box(*NEAR), crs=GLOBE)
    refused = said(lambda: overlayd.pairs(own, own, square_metres=True))
    return (f"{overlayd.pairs(own, own).shared_area[0]:g} square degrees, which the command and the plugin say, as the "
            f"globe is no plane; `square_metres=True` {refused}, with the way to go: to_crs(6933). PostGIS and QGIS "
            "measure on the globe")


def of_numbers() -> Iterator[Complaint]:
    yield ("Systems of coordinates differ (100 metres by 100 within a degree by one)",
           lambda ask: ask.systems_differ(), other_systems)
    yield ("A thin feature is gone after rounding (0.4 mm on a grid of 1 cm)", lambda ask: ask.rounded(THIN), thin)
    yield ("Results are invalid for the next step (unions of 40 stars)",
           lambda ask: invalid(ask.union_of(stars())),
           lambda: invalid(overlayd.overlay(*(frame(*own) for own in stars()), "union").geometry))
    yield ("Far from the origin areas lose digits (the same triangles at 0 and at 5,000,000)",
           lambda ask: " and ".join(repr(ask("area", ask("intersection", *both))) for both in AWAY),
           lambda: " and ".join(repr(overlayd.pairs(*map(frame, both), grid_size="0.001").shared_area[0])
                                for both in AWAY))
    yield "Areas of a map in degrees mean nothing", lambda ask: ask.degree(), degrees


def complaints() -> list[Complaint]:
    return [*of_validity(), *of_arithmetic(), *of_borders(), *of_numbers()]


@contextlib.contextmanager
def system(peer: str) -> Iterator[System]:
    """A system that is installed."""
    if peer != "PostGIS":
        yield Qgis() if peer == "QGIS" else Python()
        return
    with postgres() as place, contextlib.closing(PostGis(place)) as own:
        yield own


def answers(peer: str) -> list[str]:
    """The column of a system, its name first."""
    with warnings.catch_warnings(), system(peer) as own:
        warnings.simplefilter("ignore")
        return [own.name, *(said(lambda: theirs(own)) for _, theirs, _ in complaints())]


def column(peer: str) -> list[str] | None:
    """The same, of a process of its own: QGIS keeps what it has loaded. None where the system is not installed."""
    words = [sys.executable, "-m", "overlayd_lab.complaints", "--column", peer]
    environment = {**os.environ, "PYTHONPATH": os.pathsep.join(sys.path)}
    done = subprocess.run(words, env=environment, capture_output=True, text=True, check=False)
    if done.returncode == 0:
        return [str(one) for one in json.loads(done.stdout.splitlines()[-1])]
    if any(one in done.stderr for one in ("ModuleNotFoundError", "getpwnam", str(POSTGRES))):
        return None
    raise RuntimeError(done.stderr)


def page(old: str) -> str:
    """The page, with the columns of the old one for systems that are not installed."""
    kept = [line[2:-2].split(" | ") for line in old.splitlines() if line.startswith("| ")]
    with warnings.catch_warnings():
        warnings.simplefilter("ignore")
        ours = ["overlayd, and why", *(str(own()) for _, _, own in complaints())]
    columns = [["", *map(str, range(1, len(ours)))],
               ["Complaint, and what shows it", *(one[0] for one in complaints())],
               *(column(peer) or [row[place] for row in kept] for place, peer in enumerate(PEERS, 2)), ours]
    lines = [f"| {' | '.join(cell.replace('|', '&#124;') for cell in row)} |\n" for row in zip(*columns, strict=True)]
    return "".join([HEAD, lines[0], f"|{'---|' * len(columns)}\n", *lines[1:], END])


def main() -> None:
    if sys.argv[1] == "--column":
        print(json.dumps(answers(sys.argv[2])))
        return
    path = pathlib.Path(sys.argv[1])
    path.write_text(page(path.read_text()))


if __name__ == "__main__":
    main()
