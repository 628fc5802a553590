"""What the pages of OGC API - Features have in common, over a store or a register: the landing page, the systems of
coordinates, and the box of a question."""

import pathlib
import re
from collections.abc import Callable
from fractions import Fraction
from typing import NamedTuple

from flask import Response, g, request, send_from_directory

from ..geometry.plane import Box, homogeneous
from .map_scale import CRS84, MapScale
from .pages import BOX, Problem, Word, link, one_of, page, sent, text, whole
from .systems import Item, Placed, Systems

PAGE = pathlib.Path(__file__).resolve().parent / "page"
ITEMS_USUAL, ITEMS_MOST = 1000, 10000
OFFSET_MOST = 10**9
CRS_CLASS = "http://www.opengis.net/spec/ogcapi-features-2/1.0/conf/crs"
CORE = "http://www.opengis.net/spec/ogcapi-features-1/1.0/conf/"
OPENAPI = "application/vnd.oai.openapi+json;version=3.0"
DATE = r"[0-9]{4}-[0-9]{2}-[0-9]{2}(T[0-9]{2}:[0-9]{2}:[0-9]{2}(\.[0-9]{1,9})?(Z|[+-][0-9]{2}:[0-9]{2}))?"
DATETIME = re.compile(rf"{DATE}|({DATE}|\.\.|)/({DATE}|\.\.|)")
LAYER = "/collections/<layer:name>"


def time_of(given: str) -> str:
    """A time, which says nothing of items: each is of every time."""
    if not DATETIME.fullmatch(given):
        raise ValueError("a time of RFC 3339, or two with / between them")
    return given


PAGE_FORM = one_of("f", "the form of the answer: the landing page, or the page with the map", "json", "html")
CRS = text("crs", "the system of the answer, one of those that the collection has", "uri")
ITEM_WORDS = (
    BOX, whole("limit", "the most items of an answer", ITEMS_USUAL, 1, ITEMS_MOST,
               {"maximum": ITEMS_MOST, "default": ITEMS_USUAL}),
    whole("offset", "how many items are passed over", 0, 0, OFFSET_MOST, {"default": 0}),
    Word("datetime", "every item is of every time", {"type": "string"}, time_of), CRS,
    text("bbox-crs", "the system of bbox, one of those that the collection has", "uri"),
    text("revision", "go on with the items of this revision, 409 where it is gone"),
)


class Asked(NamedTuple):
    """What is asked of items: the system that they are written in, which lie in bbox, and how many from which on."""

    system: str | None
    meets: Callable[[Item], bool] | None
    limit: int
    offset: int


class OgcPages:
    """The pages that all fronts have. about: what the landing page says. map_page: the page with a map.
    kinds: the classes whose pages are described."""

    about = "Layers of polygons and exact overlays of them"
    map_page = "map.html"
    kinds: tuple[type, ...] = ()
    writable = False

    def __init__(self, scale: MapScale, systems: Systems | None = None) -> None:
        self.scale, self.systems = scale, systems or Systems(scale)

    @page("GET", "/", "getLandingPage", "the first page", "landingPage", PAGE_FORM)
    def landing(self) -> Response:
        """For a browser the page with the map, else the landing page of the standard."""
        wanted = request.args.get("f", "html" if "text/html" in request.headers.get("Accept", "") else "json")
        made = send_from_directory(PAGE, self.map_page) if wanted == "html" else self._landing(g.root)
        made.headers["Vary"] = "Accept"
        return made

    def _landing(self, root: str) -> Response:
        return sent(
            {
                "title": self.scale.title,
                "description": self.about,
                "links": [link(f"{root}/?f=json", "self", title="this page"),
                          link(f"{root}/?f=html", "alternate", "text/html", "a map"),
                          link(f"{root}/api", "service-desc", OPENAPI), link(f"{root}/conformance", "conformance"),
                          link(f"{root}/collections", "data", title="the layers")],
            }
        )

    @page("GET", "/api", "getApi", "this description", "description", kind=OPENAPI)
    def api(self) -> Response:
        from . import openapi

        return sent(openapi.document(self.scale.title, g.root, self.writable, self.kinds), OPENAPI)

    @page("GET", "/conformance", "getConformanceDeclaration", "what the server conforms to", "confClasses")
    def conformance(self) -> Response:
        return sent({"conformsTo": self.classes()})

    def classes(self) -> list[str]:
        """The core asks for longitude and latitude, so where these are not answered nothing conforms to it."""
        names = [CORE + name for name in ("core", "geojson", "oas30") if self.systems.is_conforming()]
        return names + [CRS_CLASS] * bool(self.systems.projection)

    def _placed(self, box: Box | None) -> dict[str, object]:
        """Where a collection lies, and the systems that it is answered in. `box` is in the store's own, x first."""
        made: dict[str, object] = {}
        if box:
            spatial = {"bbox": [self.systems.bounds(box)], "crs": self.systems.usual() or CRS84}
            least, most = homogeneous(box.left, box.low), homogeneous(box.right, box.high)
            made = {"extent": {"spatial": spatial}, "box": self.scale.position(least) + self.scale.position(most)}
        return {**made, "crs": self.systems.uris, "storageCrs": self.systems.storage} if self.systems.uris else made

    def _headers(self, revision: str, system: str | None) -> dict[str, str]:
        return {"ETag": f'"{revision}"', **({"Content-Crs": f"<{system}>"} if system else {})}

    def _system(self, word: str, given: str | None) -> str | None:
        """The system that a word names, one of those that the store has; the usual one where it is left out."""
        given = self.systems.usual() if given is None else given
        if given in self.systems.uris or given is None:
            return given
        known = " or ".join(self.systems.uris)
        other = f"it is {known}" if known else "and the layers are in a plane without a name: leave it out"
        raise Problem(
            400, f"{word}: {'no other is known' if self.systems.projection else 'nothing is transformed'}, {other}")

    def _asked(self, bbox: list[Fraction] | None, bbox_crs: str | None, crs: str | None, limit: int, offset: int,
               datetime: str | None) -> Asked:
        return Asked(self._system("crs", crs), self._meets(bbox, self._system("bbox-crs", bbox_crs)), limit, offset)

    def _meets(self, given: list[Fraction] | None, system: str | None) -> Callable[[Item], bool] | None:
        """Whether an item lies in bbox; None where it is left out."""
        if given is None:
            return None
        boxes = self._boxes(given, system)
        if system == self.systems.storage or not self.systems.projection:
            stored = [Box(*self.scale.scale.stored(*box[:2]), *self.scale.scale.stored(*box[2:])) for box in boxes]
            return lambda item: any(map(item.meets, stored))
        return lambda item: any(map(Placed(item, self.systems, system).meets_written, boxes))

    def _boxes(self, given: list[Fraction], system: str | None) -> list[Box]:
        """The boxes that bbox asks for, x first: two where it goes over the 180th meridian."""
        left, low, right, high = given if len(given) == 4 else (*given[:2], *given[3:5])
        if system == self.systems.storage and not self.systems.is_stored(system):
            left, low, right, high = low, left, high, right
        if low > high:
            raise Problem(400, "bbox: the least y is above the greatest")
        if self.systems.projection and system == CRS84 and (max(low, -high) > 90 or max(left, -right) > 360):
            raise Problem(400, f"bbox: it is in degrees where bbox-crs names nothing else, as {self.systems.storage}")
        if left <= right:
            return [Box(left, low, right, high)]
        if system != CRS84:
            raise Problem(400, "bbox: the least x is above the greatest")
        return [Box(left, low, Fraction(180), high), Box(Fraction(-180), low, right, high)]
