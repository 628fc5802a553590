"""The description of the front by OpenAPI 3.0, which GET /api gives: each page as it is said, with its words, its body
and its answers."""

import re
from collections.abc import Sequence

from .pages import GEOJSON, JSON, Page, Word, said_by
from .schemas import ID, NAME, SCHEMAS, Value, ref

OF_ROUTE: dict[str, Value] = {
    "layer": {"name": "collectionId", "in": "path", "required": True, "description": "the name of a collection",
              "schema": {"type": "string", "pattern": NAME}},
    "collection": {"name": "collectionId", "in": "path", "required": True, "description": "the name of a collection",
                   "schema": {"type": "string"}},
    "number": {"name": "featureId", "in": "path", "required": True, "schema": {"type": "integer", "minimum": 0},
               "description": "the number of a feature, a row, a change or a violation"},
    "item": {"name": "featureId", "in": "path", "required": True, "schema": {"type": "string", "pattern": ID},
             "description": "the id of an item; of a layer its number at one revision"},
}
IF_MATCH = {"name": "If-Match", "in": "header", "required": False, "schema": {"type": "string"},
            "description": "the ETag of what is changed: 412 where it has another one by now"}


def content(schema: Value, *kinds: str) -> Value:
    return {kind: {"schema": schema} for kind in kinds}


def parameter(word: Word) -> Value:
    return {"name": word.name, "in": "query", "description": word.text, "required": word.required,
            "schema": word.schema, **word.style}


def operation(page: Page) -> Value:
    """A page. Each may be refused with a JSON object of code and description."""
    of_route = [OF_ROUTE[kind] for kind in re.findall(r"<(\w+):", page.route)]
    answer = {"description": page.text, "content": content(ref(page.answer), page.kind)}
    refused = {"description": "refused", "content": content(ref("exception"), JSON)}
    made: Value = {"summary": page.text, "operationId": page.name,
                   "parameters": [*of_route, *[IF_MATCH] * page.if_match, *map(parameter, page.words)],
                   "responses": {str(page.status): answer, "default": refused}}
    if page.body:
        made["requestBody"] = {"required": True, "content": content(ref(page.body), JSON, GEOJSON)}
    return made


def path_of(page: Page) -> str:
    """The path of a page as OpenAPI has it."""
    return re.sub(r"<(\w+):\w+>", lambda part: "{%s}" % OF_ROUTE[part[1]]["name"], page.route)


def document(title: str, root: str, writable: bool, kinds: Sequence[type]) -> Value:
    """The description of the pages of some classes: of those that change something where that may be done."""
    paths: dict[str, dict[str, Value]] = {}
    for kind in kinds:
        for page in said_by(kind).values():
            if page.name and (writable or not page.is_change):
                paths.setdefault(path_of(page), {})[page.method.lower()] = operation(page)
    return {"openapi": "3.0.3", "info": {"title": title, "version": "1.0"}, "servers": [{"url": root}], "paths": paths,
            "components": {"schemas": SCHEMAS}}
