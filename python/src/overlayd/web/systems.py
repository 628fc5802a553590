"""The coordinate systems that the front answers in: longitude and latitude, and the one that a store is in.

A store in a projected system is served as CRS84 where pyproj knows how, and in its own by `crs` and `bbox-crs` (OGC API
- Features, part 2), its axes in the order that the system itself has. One that has no name of EPSG is not transformed.
"""

import math
from collections.abc import Callable, Sequence
from decimal import Decimal
from fractions import Fraction
from typing import Any, NamedTuple, Protocol

from ..geometry import plane
from ..geometry.plane import Box, homogeneous
from ..program import Point
from .map_scale import CRS84, MapScale

DEGREE_DIGITS = 10
"""After the point of a degree: a hundredth of a millimetre."""
WGS84 = "EPSG:4326"
"""CRS84 but for the order of its axes. By this name PROJ goes the same way as for GDAL and QGIS: by that of CRS84 it
may choose another transformation of the datum, a metre off."""
DENSE = 21
"""Along each side of a box so many places are transformed, to find the box round it."""
REFINED = 2
WIDE = 10
"""Degrees: a box up to so wide is looked at in the store's own system first."""
Places = Sequence[float]
Transform = Callable[[Places, Places], tuple[Places, Places]]


class Projection(NamedTuple):
    """From a store's system to longitude and latitude, and back; and whether that system names y before x."""

    forward: Transform
    inverse: Transform
    y_first: bool


class Unprojected(Exception):
    """Why a system is not transformed."""


class Unplaced(ValueError):
    """A place that has none in another system."""


def by_pyproj(crs: str) -> Projection:
    """The projection of a system by pyproj."""
    import pyproj

    try:
        transformer = pyproj.Transformer.from_crs(crs, WGS84, always_xy=True)
        axes = [axis.direction for axis in pyproj.CRS(crs).axis_info]
    except pyproj.exceptions.CRSError as fault:
        raise Unprojected(f"{crs}: {fault}; --as-stored sends coordinates as they are") from fault
    back = pyproj.enums.TransformDirection.INVERSE

    def transform(xs: Places, ys: Places, **words: Any) -> tuple[Places, Places]:
        there, up = transformer.transform([*xs], [*ys], **words)
        if not all(map(math.isfinite, (*there, *up))):
            raise Unplaced("a place lies out of what the projection covers")
        return there, up

    def inverse(xs: Places, ys: Places) -> tuple[Places, Places]:
        """Some ways back lead a few millimetres off. So a place is moved until the way there leads
        where it came from."""
        first = transform(xs, ys, direction=back)
        found = first
        for _ in range(REFINED):
            again = transform(*transform(*found), direction=back)
            xs, ys = ([place + (wanted - got) for place, wanted, got in zip(*axis)]
                      for axis in zip(found, first, again))
            found = xs, ys
        return found

    return Projection(transform, inverse, axes[:1] in (["north"], ["south"]))


class Item(Protocol):
    """What a page lists: something that lies in a box or not, and is written as GeoJSON."""

    def meets(self, box: Box) -> bool: ...
    def geojson(self) -> dict[str, Any]: ...


class Systems:
    """The systems of a store's scale, the usual one first."""

    def __init__(self, scale: MapScale, projection: Projection | None = None) -> None:
        self.scale, self.projection = scale, projection
        self.storage = scale.uri()
        own = [self.storage] if self.storage else []
        self.uris = [CRS84, *own] if projection else own

    def is_conforming(self) -> bool:
        """Whether answers are in longitude and latitude where nothing else is asked for."""
        return self.uris[:1] == [CRS84]

    def usual(self) -> str | None:
        return self.uris[0] if self.uris else None

    def is_stored(self, uri: str | None) -> bool:
        """Whether numbers of a system are those of the store, x first."""
        return uri == self.storage and not (self.projection and self.projection.y_first)

    def geometry(self, given: dict[str, Any], uri: str | None) -> dict[str, Any]:
        """A geometry of GeoJSON in the store's system, in another one."""
        if self.is_stored(uri):
            return given
        return {**given, "coordinates": self._mapped(given["coordinates"], lambda xs, ys: self._there(xs, ys, uri))}

    def _there(self, xs: Places, ys: Places, uri: str | None) -> tuple[Places, Places]:
        """Places of the store's system in another one."""
        if uri == self.storage or not self.projection:
            return ys, xs
        lon, lat = self.projection.forward(xs, ys)
        return [round(x, DEGREE_DIGITS) for x in lon], [round(y, DEGREE_DIGITS) for y in lat]

    def back(self, given: dict[str, Any], uri: str | None) -> dict[str, Any]:
        """A geometry in a system, in the store's; what is no list of positions is left as it is."""
        if self.is_stored(uri):
            return given
        return {**given, "coordinates": self._mapped(given.get("coordinates"), lambda xs, ys: self._here(xs, ys, uri))}

    def _here(self, xs: Places, ys: Places, uri: str | None) -> tuple[Places, Places]:
        if uri == self.storage or not self.projection:
            return ys, xs
        return self.projection.inverse([float(x) for x in xs], [float(y) for y in ys])

    def _mapped(self, given: Any, transform: Callable[[Places, Places], tuple[Places, Places]]) -> Any:
        """Nested lists of positions with each position transformed, all in one go."""
        found = list(positions_of(given))
        if not found:
            return given
        xs, ys = transform([x for x, _ in found], [y for _, y in found])
        moved = iter(zip(xs, ys))

        def rebuilt(value: Any) -> Any:
            if is_position(value):
                return list(next(moved))
            return [rebuilt(one) for one in value] if isinstance(value, list) else value

        return rebuilt(given)

    def bounds(self, box: Box) -> list[int | float]:
        """The box round a box of the store, in the usual system: least x and y, greatest x and y."""
        least, most = homogeneous(box.left, box.low), homogeneous(box.right, box.high)
        if not self.projection:
            return self.scale.position(least) + self.scale.position(most)
        (left, low), (right, high) = self.scale.position(least), self.scale.position(most)
        xs, ys = self.projection.forward(*outline_of(left, low, right, high))
        return [round(one, DEGREE_DIGITS) for one in (min(xs), min(ys), max(xs), max(ys))]

    def around(self, box: Box) -> Box | None:
        """A box of the store that has all that lies in a box of degrees; None for one that is too wide to have one."""
        if not self.projection or max(box.right - box.left, box.high - box.low) > WIDE:
            return None
        try:
            xs, ys = self.projection.inverse(*outline_of(*map(float, box)))
        except Unplaced:
            return None
        rim = max(max(xs) - min(xs), max(ys) - min(ys)) / 10 + 1 / float(self.scale.scale.factor)
        sides = [Fraction(one) for one in (min(xs) - rim, min(ys) - rim, max(xs) + rim, max(ys) + rim)]
        return Box(*self.scale.scale.stored(*sides[:2]), *self.scale.scale.stored(*sides[2:]))


def outline_of(left: float, low: float, right: float, high: float) -> tuple[list[float], list[float]]:
    """Places all over a box, its sides among them."""
    steps = [step / (DENSE - 1) for step in range(DENSE)]
    places = [(left + (right - left) * x, low + (high - low) * y) for x in steps for y in steps]
    return [x for x, _ in places], [y for _, y in places]


def is_position(value: Any) -> bool:
    return isinstance(value, list) and len(value) >= 2 and all(
        isinstance(one, (int, float, Decimal)) and not isinstance(one, bool) for one in value)


def positions_of(given: Any) -> Sequence[tuple[Any, Any]]:
    """All positions of nested lists, in their order."""
    if is_position(given):
        return [(given[0], given[1])]
    return [place for one in given for place in positions_of(one)] if isinstance(given, list) else []


class Placed:
    """An item in another system than the store's: so it is written, and so it is looked at where a box is given."""

    def __init__(self, item: Item, systems: Systems, uri: str | None) -> None:
        self._item, self._systems, self._uri = item, systems, uri

    def geojson(self) -> dict[str, Any]:
        made = self._item.geojson()
        return {**made, "geometry": self._systems.geometry(made["geometry"], self._uri)}

    def meets_written(self, box: Box) -> bool:
        """Whether a point of the polygons as they are written lies in a box of this system."""
        near = self._systems.around(box)
        if near and not self._item.meets(near):
            return False
        given = self.geojson()["geometry"]
        polygons = [given["coordinates"]] if given["type"] == "Polygon" else given["coordinates"]
        return any(plane.meets([list(map(corner_of, ring)) for ring in rings], box) for rings in polygons)


def corner_of(place: Sequence[float]) -> Point:
    """A position as it is written, exactly."""
    return homogeneous(*(Fraction(str(number)) for number in place))
