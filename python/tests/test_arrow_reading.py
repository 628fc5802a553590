"""Layers by GDAL's Arrow stream: what GDAL gives one by one."""

from collections.abc import Sequence
from pathlib import Path

import numpy as np
import pytest
from osgeo import gdal, ogr, osr

from overlayd.files.arrow_reading import Layer, ReadingFault
from overlayd.kernel.shapes import shapes

FORMS = [("GPKG", ".gpkg"), ("FlatGeobuf", ".fgb"), ("ESRI Shapefile", ".shp"), ("GeoJSON", ".geojson")]


def made(folder: Path, form: str, ending: str, texts: Sequence[str | None], names: Sequence[object],
         code: int = 25832) -> str:
    """A file with a layer of these shapes."""
    system = osr.SpatialReference()
    system.ImportFromEPSG(code)
    path = str(folder / f"map{ending}")
    file = gdal.GetDriverByName(form).Create(path, 0, 0, 0, gdal.GDT_Unknown)
    table = file.CreateLayer("map", system, ogr.wkbUnknown if ending != ".shp" else ogr.wkbPolygon)
    table.CreateField(ogr.FieldDefn("name", ogr.OFTInteger if isinstance(names[0], int) else ogr.OFTString))
    table.CreateField(ogr.FieldDefn("other", ogr.OFTReal))
    for text, name in zip(texts, names):
        feature = ogr.Feature(table.GetLayerDefn())
        feature.SetGeometry(ogr.CreateGeometryFromWkt(text) if text else None)
        if name is not None:
            feature["name"] = name
        table.CreateFeature(feature)
    del table, file
    return path


def square(west: float, south: float) -> str:
    east, north = west + 1.5, south + 1.5
    return f"POLYGON (({west} {south},{east} {south},{east} {north},{west} {north},{west} {south}))"


PLACES = [(3.0 * column, 2.0 * row) for column in range(7) for row in range(5)]


@pytest.mark.parametrize("form, ending", FORMS)
def test_a_layer_is_read_as_gdal_gives_it(tmp_path: Path, form: str, ending: str) -> None:
    texts: list[str | None] = [*map(square, *zip(*PLACES)), square(1, 1)[:-1] + ",(1.5 1.5,2 1.5,2 2,1.5 1.5))"]
    texts += [] if form == "FlatGeobuf" else [None]  # with an index it keeps no feature without a shape
    names = [f"née {number}" for number in range(len(texts))]
    layer = Layer(made(tmp_path, form, ending, texts, list(names)), name_by="name")
    features = [(feature.GetFID(), feature["name"], feature.GetGeometryRef().ExportToWkb() if feature.GetGeometryRef()
                 else b"") for feature in layer.table]
    (batch,) = layer.batches()
    assert batch.numbers.tolist() == [number for number, _, _ in features]
    assert sorted(batch.names.tolist()) == sorted(names) == sorted(name for _, name, _ in features)
    assert batch.column.to_list() == [bytes(wkb) for _, _, wkb in features]
    (unnamed,) = Layer(layer.path).batches()
    assert unnamed.names.tolist() == [str(number) for number, _, _ in features]


def test_names_may_be_numbers_and_each_feature_has_one(tmp_path: Path) -> None:
    path = made(tmp_path, "GPKG", ".gpkg", [square(0, 0), square(2, 0)], [12, 700], 4326)
    (batch,) = Layer(path, "map", "name").batches()
    assert batch.names.tolist() == ["12", "700"]
    (tmp_path / "more").mkdir()
    path = made(tmp_path / "more", "GPKG", ".gpkg", [square(0, 0), square(2, 0)], ["a", None])
    with pytest.raises(ReadingFault, match="feature 2: no name"):
        list(Layer(path, name_by="name").batches())
    for wrong, said in (({"layer": "other"}, "no layer other"), ({"name_by": "id"}, "property id; say one of: name")):
        with pytest.raises(ReadingFault, match=said):
            Layer(path, **wrong)
    with pytest.raises(ReadingFault, match="nowhere"):
        Layer(str(tmp_path / "nowhere"))


def test_shapes_of_a_stream_are_those_of_each_feature(tmp_path: Path) -> None:
    layer = Layer(made(tmp_path, "GPKG", ".gpkg", [square(*place) for place in PLACES], list(map(str, PLACES))))
    (batch,) = layer.batches()
    found = shapes(batch.column)
    assert list(zip(found.x[::4].tolist(), found.y[::4].tolist())) == PLACES and np.unique(found.sizes).tolist() == [4]
