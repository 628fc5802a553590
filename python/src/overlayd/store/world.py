"""A store in the coordinates of the world, beside the client (overlayd.program): rings of layers, and geometries.

    from overlayd.program import Server
    from overlayd.store.world import World, rings

    with Server("map.db", sessions=2) as server, server.session() as session:
        rings(session, "rest")                                  # polygons with exact corners, in the store's numbers
        world = World(server)                                   # by map.scale.json beside map.db
        session.put("plot", world.text_of(polygon))             # anything with __geo_interface__, as of shapely
        shapely.geometry.shape(world.shape_of(rings(session, "rest")))"""

import json
from collections.abc import Callable, Mapping
from fractions import Fraction
from typing import Any, NamedTuple

from ..grid import scale as scales
from ..program import UNKNOWN_LAYER, Refused, Server, Session
from ..program_files import FEATURES, found_program
from . import outlines
from .layers import Layers

Ring = list[tuple[Fraction, Fraction]]
"""The corners of a ring, the first of them not repeated, with the inside on its left."""


def rings(session: Session, name: str, program: str | None = None) -> list[list[Ring]]:
    """The polygons of a layer: each an outer ring, counter-clockwise, and its holes. program: overlay_features."""
    layers = Layers.of(session.layers())
    if name not in layers.order:
        raise Refused(UNKNOWN_LAYER, "unknown layer")
    return [[[(Fraction(x, w), Fraction(y, w)) for x, y, w in ring.corners] for ring in polygon]
            for polygon in outlines.polygons(layers, name, program or found_program(FEATURES))]


class Text(NamedTuple):
    """The Well-Known Text of a layer, and how far a corner was moved by rounding at most, in the world's unit."""

    wkt: str
    moved: float


class Rounding:
    """Writes GeoJSON's positions as a store's whole numbers, and notes how far a corner was moved at most."""

    def __init__(self, scale: scales.Scale) -> None:
        self.scale, self.moved = scale, Fraction(0)

    def position(self, given: object) -> str:
        if not isinstance(given, list) or len(given) < 2:
            raise ValueError("a position is a list of two numbers")
        x, y = exact(given[0]), exact(given[1])
        near = self.scale.nearest(x, y)
        there = self.scale.world((*near, 1))
        self.moved = max(self.moved, abs(there[0] - x), abs(there[1] - y))
        return f"{near[0]} {near[1]}"

    def ring(self, given: object) -> str:
        return bracketed(given, self.position)

    def polygon(self, given: object) -> str:
        return bracketed(given, self.ring)


def exact(given: object) -> Fraction:
    """The number that is given, as decimals, as a fraction or as a number of JSON."""
    if not isinstance(given, (str, int, float)):  # a list may be nested so deep that it has no text
        raise ValueError("a number is wanted")
    try:
        return scales.number(given) if isinstance(given, str) and "/" in given else scales.exact(given)
    except scales.ScaleFault as fault:
        raise ValueError(str(fault)) from fault


def bracketed(given: object, spell: Callable[[object], str]) -> str:
    if not isinstance(given, list) or not given:
        raise ValueError("coordinates are lists of rings, and these of positions")
    return "(" + ", ".join(spell(one) for one in given) + ")"


def text_of(geometry: object, scale: scales.Scale) -> Text:
    """The text of a GeoJSON Polygon or MultiPolygon, each corner at the nearest whole place of the store."""
    kind = geometry.get("type") if isinstance(geometry, dict) else None
    given = geometry.get("coordinates") if isinstance(geometry, dict) else None
    if kind not in ("Polygon", "MultiPolygon") or not isinstance(given, list):
        raise ValueError("a Polygon or a MultiPolygon with coordinates is wanted")
    rounding = Rounding(scale)
    polygons = [given] if kind == "Polygon" and given else given
    text = bracketed(polygons, rounding.polygon) if polygons else "EMPTY"
    return Text(f"MULTIPOLYGON {text}", float(rounding.moved))


class Shape:
    """A geometry of GeoJSON, in numbers of the world. It is taken as __geo_interface__."""

    def __init__(self, geometry: Mapping[str, Any]) -> None:
        self.geometry = geometry

    @property
    def __geo_interface__(self) -> Mapping[str, Any]:
        return self.geometry


def geojson_of(given: object) -> dict[str, Any]:
    """The geometry of what has __geo_interface__, or of GeoJSON, its numbers as they are written."""
    value: Any = getattr(given, "__geo_interface__", given)
    if isinstance(value, Mapping) and value.get("type") == "Feature":
        value = value.get("geometry")
    if not isinstance(value, Mapping):
        raise ValueError("what has __geo_interface__, or a geometry of GeoJSON, is wanted")
    found: dict[str, Any] = json.loads(json.dumps(dict(value)), parse_float=str)
    return found


class World:
    """What the whole numbers of a server's store mean: by NAME.scale.json beside it, else themselves."""

    def __init__(self, server: Server) -> None:
        path = scales.beside(server.store) if server.store else None
        self.scale = scales.read(path) if path and path.is_file() else scales.Scale()

    def text_of(self, geometry: object) -> str:
        """The Well-Known Text of a geometry of the world: anything with __geo_interface__, or of GeoJSON.

        Each corner is at the nearest whole place. Of what is no polygon a ValueError says so; a ring that cannot be
        kept, as one that is too small, the program refuses where the text is put."""
        return text_of(geojson_of(geometry), self.scale).wkt

    def shape_of(self, polygons: list[list[Ring]]) -> Shape:
        """Polygons as `rings` gives them, as a MultiPolygon of the world."""
        def position(corner: tuple[Fraction, Fraction]) -> list[float]:
            x, y = corner
            world = self.scale.world((x.numerator * y.denominator, y.numerator * x.denominator,
                                      x.denominator * y.denominator))
            return [float(round(number, self.scale.digits)) for number in world]

        closed = [[[position(corner) for corner in ring + ring[:1]] for ring in polygon] for polygon in polygons]
        return Shape({"type": "MultiPolygon", "coordinates": closed})
