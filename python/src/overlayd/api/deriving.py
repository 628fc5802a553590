"""derive: the region of an expression over frames."""

from collections.abc import Mapping

import geopandas

from ..kernel import Wants
from ..kernel import derive as derive_of_maps
from ..kernel.deriving import NAME, UnknownMap
from .asking import GridSize, asked, refusals_told
from .frames import TOLD, Frame, column_of, faults_told, need_polygons, shapes_of, told, unit_of


def derive(expression: str, layers: Mapping[str, Frame], *, grid_size: GridSize = None,
           square_metres: bool = False, program: str | None = None) -> Frame:
    """The region of an expression over frames by their names, as "(flood | slide) - parks", a polygon a row: `&`
    intersection, which binds tightest, `|` union, `-` difference, `^` symmetric difference.

    A frame is the union of its features. .attrs["overlayd"] has the whole area, as a fraction with its bound; by
    square_metres frames in another unit are refused (NotInMetres)."""
    names = sorted(set(NAME.findall(expression)) & set(layers))
    own = {name: layers[name] for name in names}
    if not NAME.search(expression):
        raise ValueError(f"{expression!r} names no layer")
    need_polygons(**own)
    systems = [frame.crs for frame in own.values() if frame.crs is not None]
    if any(one != systems[0] for one in systems):
        raise ValueError(f"{', '.join(names)} have different systems of coordinates; bring them to one by to_crs")
    ask = asked(program, grid_size, unit_of(*own.values(), square_metres=square_metres), Wants.OUTLINES)
    columns = {name: column_of(frame) for name, frame in own.items()}
    with faults_told(**own), refusals_told(expression):
        try:
            found = derive_of_maps(columns, expression, ask)
        except UnknownMap as fault:
            raise ValueError(f"{expression}: no layer {fault.name}; there are: {', '.join(sorted(layers))}") from None
    assert found.polygons is not None
    crs = systems[0] if systems else None
    result = geopandas.GeoDataFrame({"expression": [expression] * len(found.polygons.areas)},
                                    geometry=shapes_of(found.polygons.outlines, crs), crs=crs)
    result.attrs[TOLD] = told(found.laid, names, [*own.values()]) | {
        "area": found.area.exact(0), "area_bound": found.area.bound(0)}
    return result
