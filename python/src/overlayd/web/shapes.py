"""From the polygons of a layer to features of the web.

What is asked of a feature is worked out on its exact corners; only what is written is rounded, by the scale."""

from ..geometry import plane
from ..geometry.plane import Box
from ..program import Point
from .map_scale import MapScale, rounded

AREA_BITS = 96
"""An area is summed in whole multiples of 2^-96, each term cut off; so it is right before it is written with 15
digits."""


class Feature:
    """A polygon of a layer: an outer ring and its holes, as exact corners and as positions in the world."""

    def __init__(self, number: int, rings: list[list[Point]], scale: MapScale) -> None:
        self.number, self.rings = number, rings
        self.positions = [[scale.position(corner) for corner in ring] for ring in rings]
        self.area = area_of(rings, scale)
        self.box = Box.of(rings[0])

    def meets(self, box: Box) -> bool:
        """Whether a point of the polygon or of its boundary lies in the box."""
        return self.box.meets(box) and plane.meets(self.rings, box)

    def geojson(self) -> dict[str, object]:
        properties = {"corners": sum(map(len, self.rings)), "holes": len(self.rings) - 1, "area": self.area}
        return {"type": "Feature", "id": self.number, "properties": properties,
                "geometry": {"type": "Polygon", "coordinates": [ring + ring[:1] for ring in self.positions]}}


def area_of(rings: list[list[Point]], scale: MapScale) -> int | float:
    """The area of a polygon in the square of the world's unit, by its exact corners."""
    twice = sum((numerator << AREA_BITS) // denominator for numerator, denominator in plane.terms(rings))
    by = scale.scale.factor * scale.scale.factor_y
    return rounded(twice * by.denominator, by.numerator << (AREA_BITS + 1), scale.digits)
