"""The pages of OGC API - Features, part 1 (core and GeoJSON), over the layers of a store.

A layer is a collection, and each polygon of it an item: an outer ring and its holes. Items are numbered in the order of
their least corners, so a number holds as long as the layer's revision does."""

import re
import urllib.parse
from typing import Any

from flask import Response, g, request

from .layer_store import LayerStore
from .ogc_pages import CRS, ITEM_WORDS, LAYER, OgcPages
from .pages import GEOJSON, Problem, link, page, sent
from .systems import Placed, Systems
from .views import View


class FeaturesApi(OgcPages):
    def __init__(self, store: LayerStore, systems: Systems | None = None) -> None:
        super().__init__(store.scale, systems)
        self.store, self.writable = store, store.writable

    @page("GET", "/collections", "getCollections", "all collections", "collections", slow=True)
    def collections(self) -> Response:
        with self.store.view() as view:
            found = [self._described(view, name) for name in view.layers]
        return sent({"links": [link(f"{g.root}/collections", "self")], "collections": found})

    @page("GET", LAYER, "describeCollection", "a collection", "collection", slow=True)
    def collection(self, name: str) -> Response:
        with self.store.view() as view:
            return sent(self._described(view, name))

    def _described(self, view: View, name: str) -> dict[str, object]:
        found = view.layer(name)
        definition = found.layer.definition
        at = f"{g.root}/collections/{name}"
        made: dict[str, object] = {"id": name, "title": name, "itemType": "feature", "revision": found.revision,
                                   "definition": definition,
                                   "description": f"{name} = {definition}" if definition else "a base layer",
                                   "links": [link(at, "self"), link(f"{at}/items", "items", GEOJSON)]}
        return {**made, **self._placed(view.extent(name))}

    @page("GET", f"{LAYER}/items", "getFeatures", "items of a collection", "featureCollection", *ITEM_WORDS,
          kind=GEOJSON, slow=True)
    def items(self, name: str, revision: str | None, **words: Any) -> Response:
        """The items that are asked for, as many as a page has, with links to the next page and the one before."""
        asked = self._asked(**words)
        joined = self.store.joined(name, revision)
        revision, limit, offset, given = joined.revision, asked.limit, asked.offset, request.args.to_dict()
        headers = self._headers(revision, asked.system)
        if request.if_none_match.contains_weak(revision):
            return Response(status=304, headers=headers)
        matched = [one for one in joined.features if asked.meets is None or asked.meets(one)]
        chosen = matched[offset : offset + limit]
        at = f"{g.root}/collections/{name}"
        links = [link(f"{at}/items?{urllib.parse.urlencode(given, safe=',')}".rstrip("?"), "self", GEOJSON),
                 link(at, "collection")]
        places = [("next", offset + limit)] * (offset + limit < len(matched)) + [("prev", max(0, offset - limit))] * (
            offset > 0
        )
        for rel, start in places:
            words = {**given, "limit": limit, "offset": start, "revision": revision}
            links.append(link(f"{at}/items?{urllib.parse.urlencode(words, safe=',')}", rel, GEOJSON))
        return sent(
            {
                "type": "FeatureCollection", "numberMatched": len(matched), "numberReturned": len(chosen),
                "revision": revision, "links": links,
                "features": [Placed(one, self.systems, asked.system).geojson() for one in chosen],
            },
            GEOJSON,
            headers=headers,
        )

    @page("GET", f"{LAYER}/items/<item:identity>", "getFeature", "an item", "feature", CRS, kind=GEOJSON, slow=True)
    def item(self, name: str, identity: str, crs: str | None) -> Response:
        joined = self.store.joined(name)
        if not re.fullmatch(r"[0-9]{1,9}", identity) or not 1 <= int(identity) <= len(joined.features):
            raise Problem(404, f"{name} has no item {identity}")
        at, system = f"{g.root}/collections/{name}", self._system("crs", crs)
        made = Placed(joined.features[int(identity) - 1], self.systems, system).geojson()
        made["revision"] = joined.revision
        made["links"] = [link(f"{at}/items/{identity}", "self", GEOJSON), link(at, "collection")]
        return sent(made, GEOJSON, headers=self._headers(joined.revision, system))
