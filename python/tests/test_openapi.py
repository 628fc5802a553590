"""Tests of the front's description: it is OpenAPI 3.0, and each page answers as its schema says.

The rules of OpenAPI that are looked at are written down here; jsonschema says what is of a schema."""

import json
import re
import unittest
import urllib.parse
from collections.abc import Iterator
from itertools import product
from typing import Any

import jsonschema
import pytest

from overlayd.web import schemas
from overlayd.web.map_scale import CRS84
from .testing import SHIFTED, SQUARE, FrontCase, Told

pytestmark = pytest.mark.live

METHODS = {"get", "put", "post", "delete", "options", "head", "patch", "trace"}
WHERE = {"query", "path", "header", "cookie"}
OF_OPERATION = {"summary", "description", "operationId", "parameters", "requestBody", "responses", "tags", "deprecated"}
OF_PARAMETER = {"name", "in", "description", "required", "schema", "style", "explode", "example"}
OF_SCHEMA = {"type", "properties", "required", "items", "minItems", "maxItems", "enum", "pattern", "minimum", "maximum",
             "nullable", "oneOf", "allOf", "additionalProperties", "description", "format", "default", "example",
             "$ref"}
TYPES = {"object", "array", "string", "boolean", "integer", "number"}


def plain(schema: Any) -> Any:
    """A schema of OpenAPI, or what has some, as one of JSON Schema, which has no `nullable`."""
    if isinstance(schema, list):
        return [plain(one) for one in schema]
    if not isinstance(schema, dict):
        return schema
    made = {name: plain(one) for name, one in schema.items() if name != "nullable"}
    return {"anyOf": [made, {"type": "null"}]} if schema.get("nullable") is True else made


class Document:
    """A description, and what is wrong with it by the rules of OpenAPI 3.0."""

    def __init__(self, value: dict[str, Any]) -> None:
        self.value = value

    def found(self, value: Any) -> Any:
        """What a reference names."""
        while isinstance(value, dict) and "$ref" in value:
            if set(value) != {"$ref"} or not value["$ref"].startswith("#/"):
                raise AssertionError(f"{value}: a reference is alone and names a part of the document")
            target: Any = self.value
            for part in value["$ref"][2:].split("/"):
                target = target[part]
            value = target
        return value

    def faults(self) -> Iterator[str]:
        value = self.value
        if not re.fullmatch(r"3\.0\.\d", value["openapi"]) or not {"title", "version"} <= set(value["info"]):
            yield "openapi and info"
        if set(value) - {"openapi", "info", "servers", "paths", "components"}:
            yield f"{set(value)}"
        names = [one["operationId"] for methods in value["paths"].values() for one in methods.values()]
        if len(set(names)) < len(names):
            yield f"an operationId occurs twice: {names}"
        for path, methods in value["paths"].items():
            for method, one in methods.items():
                yield from (f"{method} {path}: {fault}" for fault in self.of_operation(path, method, one))
        for name, schema in value["components"]["schemas"].items():
            yield from (f"{name}: {fault}" for fault in self.of_schema(schema))

    def of_operation(self, path: str, method: str, one: dict[str, Any]) -> Iterator[str]:
        if method not in METHODS or not path.startswith("/") or set(one) - OF_OPERATION or not one["responses"]:
            yield "a method, a path, or a member that is none"
        parameters = [self.found(parameter) for parameter in one["parameters"]]
        if len({(given["name"], given["in"]) for given in parameters}) < len(parameters):
            yield "a parameter occurs twice"
        of_path = {given["name"] for given in parameters if given["in"] == "path"}
        if of_path != set(re.findall(r"\{(\w+)\}", path)):
            yield f"parameters of the path: {of_path}"
        for given in parameters:
            if given["in"] not in WHERE or set(given) - OF_PARAMETER or given["in"] == "path" and not given["required"]:
                yield f"parameter {given['name']}"
            yield from self.of_schema(given["schema"])
        for status, answer in one["responses"].items():
            if not re.fullmatch(r"[1-5]\d\d|default", status) or not answer["description"]:
                yield f"answer {status}"
            yield from self.of_content(answer.get("content", {}))
        if "requestBody" in one:
            if method in ("get", "delete"):
                yield "a body"
            yield from self.of_content(one["requestBody"]["content"])

    def of_content(self, content: dict[str, Any]) -> Iterator[str]:
        for kind, media in content.items():
            if not re.fullmatch(r"\w+/[\w.+-]+(;.*)?", kind):
                yield kind
            yield from self.of_schema(media["schema"])

    def of_schema(self, schema: dict[str, Any]) -> Iterator[str]:
        if "$ref" in schema:
            self.found(schema)
            return
        if set(schema) - OF_SCHEMA or schema.get("type", "object") not in TYPES:
            yield f"a schema with {sorted(schema)} of type {schema.get('type')}"
        if (schema.get("type") == "array") != ("items" in schema):
            yield "an array has items"
        if "required" in schema and (not schema["required"]
                                     or set(schema["required"]) - set(schema.get("properties", {}))):
            yield f"required: {schema['required']}"
        within = [*schema.get("properties", {}).values(), *schema.get("oneOf", []), *schema.get("allOf", []),
                  *(schema[name] for name in ("items", "additionalProperties") if name in schema)]
        for one in within:
            yield from self.of_schema(one)

    def against(self, value: Any, schema: dict[str, Any]) -> list[str]:
        """Where a value of JSON is not of a schema."""
        names = jsonschema.RefResolver("", plain(self.value))
        return [f"{fault.json_path}: {fault.message}"
                for fault in jsonschema.Draft4Validator(plain(schema), resolver=names).iter_errors(value)]


class Judged(unittest.TestCase):
    """What descriptions and answers have in common."""

    def check_document(self, value: dict[str, Any]) -> Document:
        document = Document(value)
        assert list(document.faults()) == []
        return document

    def check_answer(self, document: Document, told: Told, method: str, path: str) -> None:
        """Whether an answer is one that the description has for its page."""
        answers = document.value["paths"][path][method]["responses"]
        answer = answers.get(str(told.status), answers["default"])
        kind = told.headers["Content-Type"]
        assert kind in answer["content"], f"{method} {path}: {told.status}"
        schema = answer["content"][kind]["schema"]
        assert document.against(told.value, schema) == [], f"{method} {path}"


class OfLayers(FrontCase, Judged):
    lines = (f"PUT A {SQUARE}", f"PUT B {SHIFTED}", "DEFINE both = A & B", "PUT E MULTIPOLYGON EMPTY")
    scale = {"factor": 1, "origin": [-10, 40], "crs": "OGC:CRS84", "digits": 6}

    def test_each_page_answers_as_it_is_described(self) -> None:
        """Without words but those that it needs, and with all that the description lists."""
        self.wait_for("both")
        document = self.check_document(self.client.get("/api"))
        given = {"bbox": "-20,40,20,60", "limit": "2", "offset": "1", "datetime": "2020-01-01/..", "x": "-5/3",
                 "y": "127/3", "crs": CRS84, "bbox-crs": CRS84, "columns": "16,17", "f": "json"}
        for path, methods in document.value["paths"].items():
            if "get" not in methods:
                continue
            words = [document.found(one) for one in methods["get"]["parameters"]]
            listed = [one["name"] for one in words if one["in"] == "query"]
            assert "f" in listed, path
            for layer, names in product(("A", "both", "E"), (listed, {*listed} & {"x", "y", "f"})):
                given["revision"] = self.client.get(f"/collections/{layer}")["revision"]
                query = urllib.parse.urlencode({name: given[name] for name in names})
                told = self.client.ask(f"{path.format(collectionId=layer, featureId=1)}?{query}")
                assert told.status == 200 or layer != "both", (path, query, told)
                self.check_answer(document, told, "get", path)
        assert {path for path, methods in document.value["paths"].items() if set(methods) & {"put", "delete", "post"}
                } == {"/collections/{collectionId}", "/batch"}

    def test_changes_and_refusals_are_described(self) -> None:
        document = self.check_document(self.client.get("/api"))
        layer = "/collections/{collectionId}"
        geometry = {"type": "Polygon", "coordinates": [[[0, 41], [2, 41], [2, 43], [0, 41]]]}
        for one, body in (("/collections/new", geometry), ("/collections/new", {"geometry": geometry}),
                          ("/collections/made", {"definition": "A ^ B"})):
            schema = document.value["paths"][layer]["put"]["requestBody"]["content"]["application/json"]["schema"]
            assert document.against(body, schema) == []
            told = self.client.ask(one, "PUT", body)
            assert told.status == 200
            self.check_answer(document, told, "put", layer)
        self.check_answer(document, self.client.ask(one, "DELETE"), "delete", layer)
        self.check_answer(document, self.client.ask(one, "DELETE"), "delete", layer)
        self.check_answer(document, self.client.ask("/collections/A/items?f=xml"), "get", layer + "/items")
        batch = {"commands": [{"put": "q", "geometry": geometry}, {"define": "r", "definition": "q"}, {"drop": "r"}]}
        self.check_answer(document, self.client.ask("/batch", "POST", batch), "post", "/batch")
        self.check_answer(document, self.client.ask("/batch", "POST", {"commands": [{"drop": "no"}]}), "post", "/batch")


class Judges(unittest.TestCase):
    """The rules find what is against them, so that they are no empty ones."""

    def test_faults_of_a_description_are_found(self) -> None:
        from overlayd.web import openapi
        from overlayd.web.features_api import FeaturesApi
        from overlayd.web.map_api import MapApi

        good = openapi.document("t", "http://127.0.0.1", True, (FeaturesApi, MapApi))
        assert list(Document(good).faults()) == []
        spoilt = (('"operationId": "getApi"', '"operationId": "getStatus"'), ('"in": "path"', '"in": "body"'),
                  ('"required": true', '"required": false'), ('"type": "string"', '"type": "text"'),
                  ('"3.0.3"', '"3.1.0"'), ('"description": "refused"', '"description": ""'), ('"items": ', '"item": '),
                  ('{featureId}', '{id}'), ('"schema": {"$ref"', '"schema": {"type": "array", "$ref"'))
        for old, new in spoilt:
            text = json.dumps(good)
            assert old in text
            with self.subTest(new), self.assertRaises((AssertionError, KeyError)):
                assert list(Document(json.loads(text.replace(old, new))).faults()) == []

    def test_values_that_are_not_of_a_schema_are_found(self) -> None:
        document = Document({"components": {"schemas": schemas.SCHEMAS}})
        geometry = {"type": "Polygon", "coordinates": [[[0, 0], [1, 0], [1, 1], [0, 0]]]}
        good = {"type": "Feature", "id": 1, "geometry": geometry, "properties": {}}
        assert document.against(good, schemas.ref("feature")) == []
        for name, value in (("type", "Point"), ("id", None), ("id", -1), ("geometry", None), ("properties", []),
                            ("geometry", {**geometry, "type": "MultiPolygon"}), ("links", [{"rel": "self"}]),
                            ("geometry", {**geometry, "coordinates": [[[0, 0], [1, 0], [0, 0]]]})):
            assert document.against({**good, name: value}, schemas.ref("feature")), name
