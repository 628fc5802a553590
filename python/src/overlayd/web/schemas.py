"""The schemas of what the front answers and takes, as OpenAPI 3.0 has them."""

from collections.abc import Iterable
from typing import Any

from ..grid import limits

Value = dict[str, Any]
NAME = "^[A-Za-z][A-Za-z0-9_]{0,31}$"
ID = "^[A-Za-z0-9_.-]{1,64}$"
STRING: Value = {"type": "string"}
TEXT_OR_NOTHING: Value = {"type": "string", "nullable": True}
WHOLE: Value = {"type": "integer", "minimum": 0}
NUMBER: Value = {"type": "number"}
PLACE: Value = {"type": "string", "enum": ["in", "out", "edge"]}


def ref(name: str) -> Value:
    return {"$ref": f"#/components/schemas/{name}"}


def array(items: Value, least: int | None = None, most: int | None = None) -> Value:
    made: Value = {"type": "array", "items": items}
    if least is not None:
        made["minItems"] = least
    if most is not None:
        made["maxItems"] = most
    return made


def of(required: Iterable[str] = (), **properties: Value) -> Value:
    """An object with members, of which some must be there."""
    made: Value = {"type": "object", "properties": properties}
    return {**made, "required": list(required)} if required else made


def every(**properties: Value) -> Value:
    """An object all of whose members are there."""
    return of(properties, **properties)


def by_name(value: Value) -> Value:
    return {"type": "object", "additionalProperties": value}


def nullable(value: Value) -> Value:
    return {"nullable": True, "allOf": [value]}


def shaped(kind: str, properties: Value) -> Value:
    """A feature of GeoJSON whose properties have a schema."""
    return of(["type", "id", "geometry", "properties"], type={"type": "string", "enum": [kind]},
              id={"oneOf": [WHOLE, STRING]}, geometry=ref("geometry"), properties=properties, revision=STRING,
              links=array(ref("link")))


POSITION = array(NUMBER, 2, 2)
CHANGED: dict[str, Value] = {"version": WHOLE, "durable": {**WHOLE, "nullable": True}}
ASKED: dict[str, Value] = {"asked": array({"type": "integer"}, 3, 3), "point": POSITION, "exact": {"type": "boolean"}}
LISTED = {"numberMatched": WHOLE, "numberReturned": WHOLE, "revision": STRING, "links": array(ref("link"))}
GIVEN_GEOMETRY = of(["type", "coordinates"], type={"type": "string", "enum": ["Polygon", "MultiPolygon"]},
                    coordinates=array({}))
SCHEMAS: dict[str, Value] = {
    "link": of(["href", "rel"], href=STRING, rel=STRING, type=STRING, title=STRING),
    "exception": of(["code", "description"], code=STRING, description=STRING, version=WHOLE,
                    command={**WHOLE, "nullable": True}),
    "landingPage": of(["title", "links"], title=STRING, description=STRING, links=array(ref("link"))),
    "description": of(["openapi", "info", "paths"], openapi=STRING, info=of(), paths=of()),
    "confClasses": every(conformsTo=array(STRING)),
    "extent": every(spatial=every(bbox=array(array(NUMBER, 4, 4), 1), crs=STRING)),
    "collection": of(["id", "links"], id={"type": "string", "pattern": NAME}, title=STRING,
                     description=STRING, itemType=STRING, revision=STRING, definition=TEXT_OR_NOTHING, features=WHOLE,
                     links=array(ref("link")), extent=ref("extent"), box=array(NUMBER, 4, 4), crs=array(STRING),
                     storageCrs=STRING),
    "collections": every(links=array(ref("link")), collections=array(ref("collection"))),
    "polygon": every(type={"type": "string", "enum": ["Polygon"]}, coordinates=array(array(POSITION, 4), 1)),
    "multiPolygon": every(type={"type": "string", "enum": ["MultiPolygon"]},
                          coordinates=array(array(array(POSITION, 4), 1))),
    "geometry": {"oneOf": [ref("polygon"), ref("multiPolygon")]},
    "partProperties": every(corners=WHOLE, holes=WHOLE, area=NUMBER),
    "feature": shaped("Feature", of()),
    "featureCollection": of(["type", "features", *LISTED], type={"type": "string", "enum": ["FeatureCollection"]},
                            features=array(ref("feature")), **LISTED),
    "located": of(ASKED, **ASKED, place=PLACE),
    "locatedAll": of([*ASKED, "places"], **ASKED, places=by_name(PLACE)),
    "tiles": every(revision=STRING, tiles=array(every(
        column={"type": "integer", "minimum": 0, "maximum": limits.COLUMNS - 1},
        lines={**array(array(POSITION, 2, 2)), "nullable": True}))),
    "status": of(["version", "durable", "writable"], title=STRING, version=WHOLE, durable={**WHOLE, "nullable": True},
                 writable={"type": "boolean"}, lost=array(STRING), layers={**WHOLE, "nullable": True},
                 columns=array(NUMBER, limits.COLUMNS, limits.COLUMNS), crs=TEXT_OR_NOTHING, storage=TEXT_OR_NOTHING,
                 y_first={"type": "boolean"}, unit=STRING, geographic={"type": "boolean"}, limits=array(NUMBER, 4, 4)),
    "changed": of(CHANGED, **CHANGED, moved=NUMBER),
    "rowFeature": of(["type"], type={"type": "string", "enum": ["Feature"]}, geometry=nullable(GIVEN_GEOMETRY),
                     properties=of()),
    "rowCollection": of(["type", "features", "numberReturned", "links"],
                        type={"type": "string", "enum": ["FeatureCollection"]}, features=array(ref("rowItem")),
                        numberReturned=WHOLE, links=array(ref("link"))),
    "rowItem": of(["type", "id", "geometry", "properties"], type={"type": "string", "enum": ["Feature"]}, id=WHOLE,
                  geometry=nullable(ref("geometry")), properties=of(), links=array(ref("link"))),
    "registerStatus": of(["version", "pending", "writable"], title=STRING, version=WHOLE, at=TEXT_OR_NOTHING,
                         last=WHOLE, grid=NUMBER, writable={"type": "boolean"}, pending=by_name(WHOLE),
                         crs=TEXT_OR_NOTHING, storage=TEXT_OR_NOTHING, rules=array(every(rule=STRING, least=NUMBER))),
    "history": every(changes=array(every(change=WHOLE, at=STRING, who=TEXT_OR_NOTHING, collection=STRING, id=WHOLE,
                                         what=STRING, row=WHOLE))),
    "registerLocated": every(point=POSITION, features=array(every(id=WHOLE, place=PLACE, properties=of()))),
    "changedRows": every(change=WHOLE, features=array(every(collection=STRING, id=WHOLE, etag=TEXT_OR_NOTHING))),
    "transaction": every(changes=array(of(insert=STRING, update=STRING, delete=STRING, id=WHOLE, etag=STRING,
                                          feature=ref("rowFeature")), 1)),
    "why": every(why=STRING), "accepted": every(accepted=WHOLE),
    "layer": {"oneOf": [GIVEN_GEOMETRY, every(geometry=GIVEN_GEOMETRY), every(definition=STRING)]},
    "batch": every(
        commands=array(of(put=STRING, define=STRING, drop=STRING, geometry=GIVEN_GEOMETRY, definition=STRING),
                       1, limits.BATCH_MAX)),
}
