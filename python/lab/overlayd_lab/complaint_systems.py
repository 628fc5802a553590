"""The systems that complaints.py asks: shapely with geopandas, PostGIS, and QGIS. Each is called with what it is to do
with shapes, gives pieces of two maps, and answers what each does in a way of its own."""

from __future__ import annotations

import abc
import importlib
import os
import re
import sys
from collections.abc import Callable, Sequence
from typing import Any

import geopandas
from shapely import geos, wkb, wkt
from shapely import __version__ as SHAPELY
from shapely.ops import unary_union
from shapely.validation import make_valid

FAR, NEAR = (480000, 5400000, 480100, 5400100), (8, 48, 9, 49)  # the first lies in the second, as systems have them
PLANE, GLOBE = 25832, 4326
SENTENCE = 80  # characters of what a system says that are kept
Shape = Any  # of shapely
Shapes = Sequence[Any]
OF_SHAPELY: dict[str, Callable[..., Any]] = {
    "buffer": lambda one: one.buffer(0), "repaired": make_valid, "union": lambda *all: unary_union(all),
    "area": lambda one: one.area, "is_valid": lambda one: one.is_valid}
OF_POSTGIS = {"buffer": "ST_Buffer({}, 0)", "repaired": "ST_MakeValid({})", "union": "ST_Union(ARRAY[{}])",
              "area": "ST_Area({})", "is_valid": "ST_IsValid({})", "intersection": "ST_Intersection({})",
              "difference": "ST_Difference({})", "covers": "ST_Covers({})", "equals": "ST_Equals({})"}
OF_QGIS: dict[str, Callable[..., Any]] = {
    "buffer": lambda one: one.buffer(0, 8), "repaired": lambda one: one.makeValid(),
    "union": lambda first, *rest: first.unaryUnion([first, *rest]), "is_valid": lambda one: one.isGeosValid(),
    "covers": lambda one, other: one.contains(other), "equals": lambda one, other: one.isGeosEqual(other)}
COMMON = "SELECT ST_Intersection(a.geom, b.geom) FROM a JOIN b ON ST_Intersects(a.geom, b.geom)"
ALONE = ("SELECT ST_Difference({0}.geom, coalesce((SELECT ST_Union(geom) FROM {1} WHERE ST_Intersects(geom, {0}.geom)),"
         " 'POLYGON EMPTY')) FROM {0}")


class Says(Exception):
    """What a system says in place of an answer."""

    def __init__(self, text: str) -> None:
        sentence = re.split(r"[.\n]", re.sub(r"^\w+: (GEOS Error: )?", "", text.strip()))[0]
        super().__init__(sentence if len(sentence) <= SENTENCE else sentence[:SENTENCE] + "..")


class System(abc.ABC):
    """A system that is asked."""

    name = ""

    @abc.abstractmethod
    def __call__(self, does: str, *shapes: Shape) -> Any:
        """A shape, a number or a truth."""

    @abc.abstractmethod
    def pieces(self, a: Shapes, b: Shapes, how: str) -> list[Shape]:
        """The polygons of an intersection or a union of two maps."""

    def union_of(self, maps: Sequence[Shapes]) -> list[Shape]:
        """The polygons of a union."""
        a, b = maps
        return self.pieces(a, b, "union")

    @abc.abstractmethod
    def systems_differ(self) -> str:
        """What an intersection of a map in metres and one in degrees gives."""

    @abc.abstractmethod
    def rounded(self, shape: Shape) -> str:
        """What is left of a shape on a grid of a hundredth."""

    @abc.abstractmethod
    def degree(self) -> str:
        """The area of a square degree."""


class Python(System):
    """shapely and geopandas."""

    def __init__(self) -> None:
        version = ".".join(map(str, geos.geos_version))
        self.name = f"shapely {SHAPELY}, geopandas {geopandas.__version__} (GEOS {version})"

    def __call__(self, does: str, *shapes: Shape) -> Any:
        return OF_SHAPELY[does](*shapes) if does in OF_SHAPELY else getattr(shapes[0], does)(*shapes[1:])

    def pieces(self, a: Shapes, b: Shapes, how: str) -> list[Shape]:
        return [*geopandas.overlay(frame(*a), frame(*b), how, make_valid=False).geometry]

    def systems_differ(self) -> str:
        far, near = self._frames()
        return f"{len(geopandas.overlay(far, near))} rows, and a warning"

    def rounded(self, shape: Shape) -> str:
        found = wkt.loads(wkt.dumps(shape, rounding_precision=2))
        return f"by `rounding_precision` a shape of area {found.area:g}, {'valid' if found.is_valid else 'invalid'}"

    def degree(self) -> str:
        return f"{self._frames()[1].area[0]:g}, and a warning"

    @staticmethod
    def _frames() -> list[Any]:
        from shapely.geometry import box

        return [frame(box(*corners), crs=crs) for corners, crs in ((FAR, PLANE), (NEAR, GLOBE))]


class PostGis(System):
    """PostGIS, by one connection."""

    def __init__(self, place: str) -> None:
        psycopg2: Any = importlib.import_module("psycopg2")
        self.fault = psycopg2.Error
        self.base = psycopg2.connect(host=place, user="postgres")
        self.base.autocommit = True
        self.cursor = self.base.cursor()
        self.cursor.execute("CREATE EXTENSION postgis")
        self.name = f"PostGIS {self.ask('SELECT postgis_lib_version()')[0]}"

    def close(self) -> None:
        """Ends the connection, for which the server waits."""
        self.base.close()

    def ask(self, text: str, *values: object) -> list[Any]:
        """The first column of what a query gives."""
        try:
            self.cursor.execute(text, values)
            return [row[0] for row in self.cursor.fetchall()] if self.cursor.description else []
        except self.fault as fault:
            raise Says(str(fault)) from None

    def __call__(self, does: str, *shapes: Shape) -> Any:
        marks = ", ".join(["ST_GeomFromWKB(%s)"] * len(shapes))
        (found,) = self.ask("SELECT " + OF_POSTGIS[does].format(marks), *(one.wkb for one in shapes))
        return wkb.loads(found, hex=True) if isinstance(found, str) else found

    def pieces(self, a: Shapes, b: Shapes, how: str) -> list[Shape]:
        for name, shapes in (("a", a), ("b", b)):
            self.ask(f"DROP TABLE IF EXISTS {name}; CREATE TEMP TABLE {name} AS SELECT ST_GeomFromWKB(w) AS geom"
                     " FROM unnest(%s) w", [one.wkb for one in shapes])
        parts = [COMMON] if how == "intersection" else [COMMON, ALONE.format("a", "b"), ALONE.format("b", "a")]
        found = self.ask(f"SELECT ST_CollectionExtract(o.g, 3) FROM ({' UNION ALL '.join(parts)}) o (g)")
        return [shape for shape in (wkb.loads(one, hex=True) for one in found) if not shape.is_empty]

    def systems_differ(self) -> str:
        a, b = (f"ST_MakeEnvelope({', '.join(map(str, corners))}, {system})" for corners, system in (
            (FAR, PLANE), (NEAR, GLOBE)))
        return str(self.ask(f"SELECT ST_AsText(ST_Intersection({a}, {b}))"))

    def rounded(self, shape: Shape) -> str:
        (found,) = self.ask("SELECT ST_AsText(ST_ReducePrecision(ST_GeomFromWKB(%s), 0.01))", shape.wkb)
        return f"by `ST_ReducePrecision` {found}, unsaid"

    def degree(self) -> str:
        one = f"ST_MakeEnvelope({', '.join(map(str, NEAR))}, {GLOBE})"
        plane, globe = self.ask(f"SELECT ST_Area({one})"), self.ask(f"SELECT ST_Area({one}::geography)")
        return f"{plane[0]:g}; by `::geography` {globe[0]:.4g} square metres"


class Qgis(System):
    """QGIS, without a screen."""

    def __init__(self) -> None:
        os.environ.setdefault("QT_QPA_PLATFORM", "offscreen")
        sys.path.append("/usr/share/qgis/python/plugins")
        processing: Any = importlib.import_module("processing.core.Processing")

        self.core: Any = importlib.import_module("qgis.core")
        self.run = processing.processing.run
        self.application = self.core.QgsApplication([], False)
        self.application.initQgis()
        processing.Processing.initialize()
        self.name = f"QGIS {self.core.Qgis.version().split('-')[0]}"

    def _own(self, shape: Shape) -> Any:
        found = self.core.QgsGeometry()
        found.fromWkb(shape.wkb)
        return found

    def __call__(self, does: str, *shapes: Shape) -> Any:
        own = [self._own(one) for one in shapes]
        found = OF_QGIS[does](*own) if does in OF_QGIS else getattr(own[0], does)(*own[1:])
        if not isinstance(found, self.core.QgsGeometry):
            return found
        if found.isNull():
            raise Says(found.lastError() or own[0].lastError())
        return wkb.loads(bytes(found.asWkb()))

    def layer(self, shapes: Shapes, system: int = PLANE) -> Any:
        """A layer in memory."""
        found = self.core.QgsVectorLayer(f"MultiPolygon?crs=EPSG:{system}", "made", "memory")
        for shape in shapes:
            feature = self.core.QgsFeature()
            feature.setGeometry(self._own(shape))
            found.dataProvider().addFeature(feature)
        return found

    def made(self, algorithm: str, **words: Any) -> list[Any]:
        """The geometries that an algorithm makes."""
        try:
            found = self.run(f"native:{algorithm}", {**words, "OUTPUT": "memory:"})["OUTPUT"]
        except self.core.QgsProcessingException as fault:
            raise Says(str(fault)) from None
        return [one.geometry() for one in found.getFeatures()]

    def pieces(self, a: Shapes, b: Shapes, how: str) -> list[Shape]:
        return [wkb.loads(bytes(one.asWkb())) for one in self.made(how, INPUT=self.layer(a), OVERLAY=self.layer(b))]

    def systems_differ(self) -> str:
        from shapely.geometry import box

        far, near = self.layer([box(*FAR)]), self.layer([box(*NEAR)], GLOBE)
        return f"{len(self.made('intersection', INPUT=far, OVERLAY=near))} row: the other map is brought over"

    def rounded(self, shape: Shape) -> str:
        (found,) = self.made("snappointstogrid", INPUT=self.layer([shape]), HSPACING=0.01, VSPACING=0.01)
        return f"by `snappointstogrid` {found.asWkt() or 'no geometry'}, unsaid"

    def degree(self) -> str:
        from shapely.geometry import box

        own, measure = self._own(box(*NEAR)), self.core.QgsDistanceArea()
        measure.setSourceCrs(self.core.QgsCoordinateReferenceSystem(f"EPSG:{GLOBE}"),
                             self.core.QgsCoordinateTransformContext())
        measure.setEllipsoid("EPSG:7030")
        return f"{own.area():g}; by the ellipsoid {measure.measureArea(own):.4g} square metres"


def frame(*shapes: Any, crs: Any = None) -> Any:
    """A GeoDataFrame of numbered shapes."""
    return geopandas.GeoDataFrame({"k": range(len(shapes))}, geometry=[*shapes], crs=crs)
