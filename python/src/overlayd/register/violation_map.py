"""What breaks rules as a layer for QGIS: a view of the violations with their outlines, and of a GeoPackage the style in
which it is opened, overlaps red, gaps orange, and grey what is accepted."""

from typing import NamedTuple

NAME = "overlay_violation_map"
ROWS = ("SELECT v.id, r.a || ' ' || r.must || coalesce(' ' || r.b, '') AS rule, r.must, v.a, v.b, v.a_id, v.b_id,"
        " v.area, v.width, v.who, v.why, v.accepted, {shape} AS geom FROM overlay_violation v"
        " JOIN overlay_rule r ON r.id = v.rule WHERE v.outline IS NOT NULL")
# GDAL takes the types of a view's columns from its first part: this table stays empty.
FIRST = "overlay_outline"
TYPES = ("OGC_FID INTEGER PRIMARY KEY, rule TEXT, must TEXT, a BIGINT, b BIGINT, a_id TEXT, b_id TEXT, area DOUBLE"
         " PRECISION, width DOUBLE PRECISION, who TEXT, why TEXT, accepted TEXT, geom MULTIPOLYGON")
# A geometry of a GeoPackage without a box, as a multipolygon: of bytes that both are written by hexadecimal digits.
BLOB = ("CAST(x'47500001{system}' || CASE substr(v.outline, 2, 1) WHEN x'03' THEN x'{gathered}' ELSE x'' END"
        " || v.outline AS BLOB)")
GEOMETRY = "ST_Multi(ST_GeomFromWKB(v.outline, {system}))::{postgis}.geometry(MultiPolygon, {system})"
STYLES = ("CREATE TABLE IF NOT EXISTS layer_styles (id INTEGER PRIMARY KEY AUTOINCREMENT NOT NULL, f_table_catalog"
          " TEXT(256), f_table_schema TEXT(256), f_table_name TEXT(256), f_geometry_column TEXT(256), styleName"
          " TEXT(30), styleQML TEXT, styleSLD TEXT, useAsDefault BOOLEAN, description TEXT, owner TEXT(30), ui"
          " TEXT(30), update_time DATETIME DEFAULT CURRENT_TIMESTAMP)")
ADD_STYLE = ("INSERT INTO layer_styles (f_table_catalog, f_table_schema, f_table_name, f_geometry_column, styleName,"
             " styleQML, useAsDefault) VALUES ('', '', ?, 'geom', ?, ?, 1)")


class Drawn(NamedTuple):
    """What is drawn in one way: a condition of QGIS, its words, and the colours of the inside and of the border."""

    condition: str
    words: str
    inside: str
    border: str


DRAWN = (Drawn("accepted IS NOT NULL", "accepted", "150,150,150,120", "90,90,90,255"),
         Drawn("accepted IS NULL AND must = 'must not have gaps'", "gaps", "240,160,32,220", "200,110,0,255"),
         Drawn("accepted IS NULL AND must <> 'must not have gaps'", "overlaps, or not covered", "208,48,32,200",
               "208,48,32,255"))


def style() -> str:
    """The style as QGIS has it."""
    rules = "".join(f'<rule key="{place}" symbol="{place}" label="{one.words}" filter="{escaped(one.condition)}"/>'
                    for place, one in enumerate(DRAWN))
    symbols = "".join(
        f'<symbol name="{place}" type="fill" alpha="1"><layer class="SimpleFill" enabled="1"><Option type="Map">'
        f'<Option name="color" type="QString" value="{one.inside}"/>'
        f'<Option name="outline_color" type="QString" value="{one.border}"/>'
        '<Option name="outline_width" type="QString" value="0.6"/></Option></layer></symbol>'
        for place, one in enumerate(DRAWN))
    return (f'<qgis styleCategories="Symbology"><renderer-v2 type="RuleRenderer"><rules key="all">{rules}</rules>'
            f"<symbols>{symbols}</symbols></renderer-v2></qgis>")


def escaped(text: str) -> str:
    """A text within XML."""
    return text.replace("&", "&amp;").replace("<", "&lt;").replace(">", "&gt;")
