"""How places of a store are written on the web, and how numbers of the web are asked, over a scale of tools/scale.py.

A number of the web is a decimal, or a fraction as 5/3. Only what is written is rounded, by the scale's digits."""

import re
from fractions import Fraction

from ..files import coordinate_systems
from ..grid import limits, scale as scales
from ..program import Point

CRS84 = "http://www.opengis.net/def/crs/OGC/1.3/CRS84"
EPSG = "http://www.opengis.net/def/crs/EPSG/0/"


def rounded(over: int, under: int, digits: int) -> int | float:
    """over / under with so many digits after the point, halves to even; a whole number where there are none."""
    power = int(10**digits)
    near, rest = divmod(over * power, under)
    near += 2 * rest > under or (2 * rest == under and near % 2 == 1)
    return near // power if near % power == 0 else near / power


class MapScale:
    """A scale as the web needs it: places as GeoJSON has them, and the names of coordinate systems
    as OGC API has them."""

    def __init__(self, scale: scales.Scale) -> None:
        if scale.crs is not None and not scales.CRS_NAME.fullmatch(scale.crs) and not coordinate_systems.is_text(
                scale.crs):
            raise scales.ScaleFault("crs is an authority and its code, as EPSG:25832, or Well-Known Text, and not "
                                    f"{scale.crs[:40]}")
        # Coordinates of another authority, or of none, have no name here: they are served as they are.
        is_named = scale.crs is not None and re.fullmatch(r"OGC:CRS84|EPSG:[0-9]{1,9}", scale.crs)
        self.scale, self.crs, self.digits = scale, scale.crs if is_named else None, scale.digits
        self.title, self.unit = scale.title or "Layers", "" if scale.unit == "1" else scale.unit
        # world = (n * a + w * b) / (w * c) in whole numbers, of x and of y.
        self._whole = [
            (
                factor.denominator * begin.denominator, begin.numerator * factor.numerator,
                factor.numerator * begin.denominator,
            )
            for factor, begin in zip((scale.factor, scale.factor_y), scale.origin)
        ]

    def is_geographic(self) -> bool:
        """Whether x and y are longitude and latitude."""
        return self.crs == scales.CRS84

    def uri(self) -> str | None:
        """The name of the coordinate system; None for a plane that is nowhere on the earth."""
        if self.crs is None:
            return None
        return CRS84 if self.is_geographic() else EPSG + self.crs.partition(":")[2]

    def number(self, value: Fraction) -> int | float:
        """A number of the world as JSON has it."""
        return rounded(value.numerator, value.denominator, self.digits)

    def position(self, corner: Point) -> list[int | float]:
        """A stored point in the world as GeoJSON has it."""
        *places, w = corner
        return [rounded(n * a + w * b, w * c, self.digits) for n, (a, b, c) in zip(places, self._whole)]

    def limits(self) -> list[int | float]:
        """The box of the world that a store has room for: least x and y, greatest x and y."""
        edge = limits.COORDINATE_MAX
        return self.position((-edge, -edge, 1)) + self.position((edge, edge, 1))

    def columns(self) -> list[int | float]:
        """Where in x each column begins."""
        return [self.position((limits.column_begin(column), 0, 1))[0] for column in range(limits.COLUMNS)]
