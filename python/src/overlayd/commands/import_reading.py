"""Reads the maps that overlay import is given: shapes on a scale, and what was refused of them."""

import pathlib
from fractions import Fraction

from .. import ending
from ..files import coordinate_systems, fitting, map_reading, rounding
from ..files.coordinate_systems import DEGREES
from ..files.map_reading import Refused, Shape
from ..geometry import wkt
from ..grid import scale as scales
from ..grid.scale import Scale
from ..store.layering import Group
from ..store.opening import begins_as_store
from ..words import Words

NAMED_MAX = 10  # so many properties are reported, and refusals where nothing is written


class Stopped(Exception):
    """Why nothing is written."""


class Reader:
    """Gathers shapes into groups, and what was refused of them."""

    def __init__(self, scale: Scale, fitted: bool) -> None:
        self.rounding, self.fitted = rounding.Rounding(scale), fitted
        self.groups: dict[str | int, Group] = {}
        self.notes: list[str] = []
        self.refusals = self.collapsed = self.outside = 0

    def refuse(self, label: str, reason: str) -> None:
        """Reports a refusal. That at a fitted scale a ring is too small for it is none, but reported."""
        is_small = reason.endswith(rounding.COLLAPSED)
        self.refusals += not (is_small and self.fitted)
        self.collapsed += is_small
        self.outside += reason.startswith(rounding.OUT_OF_RANGE)
        self.notes.append(f"{'left out' if is_small and self.fitted else 'refused'}: {label}: {reason}")

    def take(self, shape: Shape) -> None:
        """Takes in a shape, for the layer that it asks for, else for that of its file."""
        tally, found, before = rounding.Tally(), [], self.collapsed
        try:
            for polygon in shape.polygons():
                rings, own = self.rounding.polygon(polygon, lambda reason: self.refuse(shape.label, reason))
                found.extend([rings] if rings else [])
                tally.add(own)
        except (Refused, TypeError, RecursionError) as fault:
            self.refuse(shape.label, str(fault) if isinstance(fault, Refused) else "coordinates of another form")
            return
        if not found:
            if self.fitted and self.collapsed > before:
                self.refuse(shape.label, "all of it is too small for this scale")
            self.notes.append(f"nothing to write: {shape.label}")
            return
        key = shape.wish or shape.file
        self.groups.setdefault(key, Group(shape.wish or shape.stem)).add(found, tally)

    def furthest(self) -> Fraction:
        return max((group.tally.furthest for group in self.groups.values()), default=Fraction(0))


def content(name: str, layer: str | None) -> str:
    """The text of a file, or of standard input for -; where it is a store the words to type are reported."""
    data = map_reading.content(name, layer)
    if begins_as_store(data):
        raise Stopped(f"{name}: a store, and no map; its layers as a script: overlay dump {name}, as GeoJSON: "
                      f"overlay export --store {name}")
    return data.decode("utf-8-sig")


def read_shapes(words: Words) -> tuple[list[Shape], set[str | None]]:
    """The shapes of all files, and the names of their coordinates."""
    shapes, systems, properties = list[Shape](), dict[int, str | None](), dict[str, None]()
    for number, name in enumerate(words.files):
        stem = words.name or ("L" if name == "-" else pathlib.Path(name).stem)
        source = map_reading.Source(number, name, stem, words.name_by)
        try:
            own, crs = source.read(content(name, words.source_layer))
        except (OSError, ValueError, ArithmeticError, RecursionError, wkt.WktFault) as fault:
            raise Stopped(ending.fault_text(f"{name}: not read", fault)) from fault
        shapes += own
        systems[number] = crs
        properties |= source.properties
    if shapes and words.name_by is not None and words.name_by not in properties:
        raise Stopped(f"--name-by {words.name_by}: no feature has this property; {listed(list(properties))}")
    return shapes, {*systems.values(), *degrees_beside(shapes, systems)}


def degrees_beside(shapes: list[Shape], systems: dict[int, str | None]) -> set[str | None]:
    """The name of degrees, where a file that names no coordinates may have them, and those of others that do cannot."""
    named = {number for number, crs in systems.items() if crs not in (None, coordinate_systems.UNKNOWN)}
    if not named or named == systems.keys():
        return set()
    boxes = [fitting.box_of(shape for shape in shapes if (shape.file in named) == which) for which in (True, False)]
    are_degrees = [box is not None and box.is_within_degrees() for box in boxes]
    return {scales.CRS84} if boxes[0] and are_degrees == [False, True] else set()


def listed(properties: list[str]) -> str:
    """The properties that there are, the first few."""
    more = f" and {len(properties) - NAMED_MAX} more" if len(properties) > NAMED_MAX else ""
    return f"they have {', '.join(properties[:NAMED_MAX])}{more}" if properties else "they have none"


def crs_for(words: Words, names: set[str | None], box: fitting.Box | None) -> str | None:
    """The name of the coordinates: the one given, else that of the files, else degrees where they may be."""
    given = [words.crs] if words.crs else coordinate_systems.distinct(sorted(name for name in names if name))
    if len(given) > 1:
        systems = ", ".join(map(coordinate_systems.shown, given))
        raise Stopped(f"files of different coordinates: {systems}; bring them to one, as by ogr2ogr -t_srs, "
                      "or say by --crs which one all of them have")
    if not given:
        may_be_degrees = coordinate_systems.UNKNOWN not in names and box and box.is_within_degrees()
        return scales.CRS84 if may_be_degrees else None
    crs = str(given[0])
    if crs in DEGREES and box and not box.is_round_the_earth():
        x, y = (fitting.shown(number) for number in box.greatest)
        raise Stopped(
            f"{crs} is longitude and latitude, and {x} {y} is none: are x and y exchanged? Else say by --crs what it "
            "is, as EPSG:25832")
    return crs


def scale_for(words: Words, box: fitting.Box | None, crs: str | None) -> Scale:
    """The scale that the words ask for."""
    if words.scale:
        try:
            scale = scales.read(words.scale)
        except scales.ScaleFault as fault:
            raise Stopped(str(fault)) from fault
        if len(coordinate_systems.distinct((crs, scale.crs))) > 1:
            files, stands = map(coordinate_systems.shown, (crs, scale.crs))
            raise Stopped(f"the files are in {files}, {words.scale} in {stands}")
        return scale
    factor, origin = words.factor, words.origin
    if words.fit and box:
        wide, middle = fitting.proposed(box)
        factor, origin = factor or wide, origin or middle
    factor = factor or Fraction(1)
    factor_y = words.factor_y or factor
    x, y = origin or (Fraction(0), Fraction(0))
    stem = words.output.stem if words.output else pathlib.Path(words.files[0]).stem
    return Scale(factor, factor_y, (x, y), words.title or stem, words.unit or coordinate_systems.unit_of(crs) or "1",
                 crs, scales.enough_digits(max(factor, factor_y)))


def check_scale(reader: Reader, box: fitting.Box | None, scale: Scale, given: bool) -> list[str]:
    """What to report of a scale that does not fit the map; it stops all where it was not given."""
    wrong = fitting.faults(reader.collapsed, reader.outside, reader.furthest(), box, scale) if box else []
    if not wrong or not box:
        return []
    factor, origin = fitting.proposed(box)
    if (factor, origin) == (scale.factor, scale.origin):
        return []
    used = fitting.words(scale.factor, scale.origin)[2:].replace(" --", ", ")
    note = f"at {used}: {'; '.join(wrong)}; to be fitted: {fitting.words(factor, origin)}, or --fit"
    if not given:
        raise Stopped(note)
    return [note]
