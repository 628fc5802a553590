"""The front as an application of Flask: who may ask, which page answers, and how a refusal is reported."""

import functools
import pathlib
import re
import threading
import traceback
import urllib.parse
from collections.abc import Callable, Iterable, Iterator, Mapping, Sequence
from contextlib import contextmanager
from typing import Any

from flask import Flask, Response, g, request, send_from_directory
from werkzeug.exceptions import HTTPException, MethodNotAllowed
from werkzeug.routing import BaseConverter

from ..program import NAME, Ended, Refused
from . import schemas
from .features_api import FeaturesApi
from .layer_store import WAITING_MOST, Changed, LayerStore, NotDurable, TooLarge
from .map_api import MapApi
from .ogc_pages import PAGE, OgcPages
from .opened_registers import Lost
from .pages import FORM, Page, Problem, page, said_by, sent
from .register_api import RegisterApi
from .register_changes import RegisterChanges
from .register_map import RegisterMap
from .rescue import AGAIN, NotWritten
from .systems import Systems, Unplaced
from .usual import LEAFLET, LOOPBACK
from .views import Busy

SLOW_MOST, CHANGES_MOST = WAITING_MOST + 4, 4
"""How many questions that may wait, and how many changes, are answered at once; the front has more threads. Some of
these questions have no polygons to wait for, and keep places of their own."""
WORDS_MOST = 32
DAY = 86400
READING, CHANGING = ("GET", "HEAD", "OPTIONS"), ("POST", "PUT", "PATCH", "DELETE")
KINDS = {".js": "text/javascript", ".css": "text/css", ".png": "image/png"}
HEADERS = {
    "X-Content-Type-Options": "nosniff", "Referrer-Policy": "no-referrer",
    "Cross-Origin-Resource-Policy": "same-origin",
    "Content-Security-Policy": "default-src 'none'; script-src 'self'; style-src 'self'; img-src 'self' data:; "
    "connect-src 'self'; form-action 'none'; base-uri 'none'; frame-ancestors 'none'",
}
# What overlay_live refuses by what was asked for, by what there is, and by what the machine or the store cannot do.
NOT_FOUND, CONFLICT = (10, 23), (11, 12, 13, 14, 15, 16, 21, 22)
UNABLE = (30, 31, 35, 36, 40, 43, 44, 46)


def part(form: str) -> type[BaseConverter]:
    """A part of a route that has a form."""
    return type("Part", (BaseConverter,), {"regex": form.strip("^$")})


PARTS = {"layer": part(schemas.NAME), "item": part(schemas.ID), "script": part(r"[a-z.-]+\.(?:js|css)"),
         "picture": part(r"[a-z0-9-]+\.png"), "collection": part(r"[^/]{1,200}"), "number": part(r"[0-9]{1,18}"),
         "signed": part(r"-?[0-9]{1,12}")}


def status_of(fault: Refused) -> int:
    """The status of the web for a refusal by overlay_live."""
    for numbers, status in ((NOT_FOUND, 404), (CONFLICT, 409), (UNABLE, 503)):
        if fault.number in numbers:
            return status
    return 400


def refusal(status: int, code: object, text: str, headers: Mapping[str, str] | None = None, **more: object) -> Response:
    more.update(code=str(code), description=text)
    return sent(more, status=status, headers=headers)


def refused(fault: Exception) -> Response:
    """What was refused, as a JSON object of code and description."""
    match fault:
        case Problem():
            return refusal(fault.status, fault.status, str(fault), fault.headers, **fault.more)
        case HTTPException():
            status = fault.code or 500
            headers = {name: value for name, value in fault.get_headers() if name != "Content-Type"}
            return refusal(status, status, absent(request.path) if status == 404 else str(fault.description), headers)
        case Refused():
            return refusal(status_of(fault), fault.number, str(fault), command=fault.place)
        case NotDurable():
            return refusal(503, 503, str(fault), version=fault.version)
        case TooLarge():
            return refusal(413, 413, str(fault))
        case Changed() | Unplaced():
            return refusal(409, 409, str(fault))
        case Busy():
            return refusal(503, 503, str(fault), {"Retry-After": "1"})
        case NotWritten():
            return refusal(503, 503, str(fault), {"Retry-After": f"{AGAIN:.0f}"})
        case Lost():
            return refusal(503, 503, f"the register does not answer: {fault}", {"Retry-After": f"{AGAIN:.0f}"})
        case Ended() | OSError() | TimeoutError():
            return refusal(503, 503, f"the store does not answer: {fault}")
    traceback.print_exception(fault)  # a fault of the front's own: it goes on, and the fault is reported where it runs
    return refusal(500, 500, "the front has a fault, which it has reported on its standard error")


def absent(path: str) -> str:
    """What is said of a path that no page has: of a layer's, whether its name may be none."""
    found = re.match(r"/collections/([^/]+)", path)
    if found and not NAME.match(found[1]):
        return "there is no such page: a name is 1 to 32 bytes, an ASCII letter, then letters, digits and _"
    return "there is no such page"


class Files:
    """What a browser loads for the page with the map."""

    def __init__(self, leaflet: pathlib.Path) -> None:
        self.leaflet = leaflet.resolve()  # Flask takes another folder than the present one for a path to begin in

    @page("GET", "/<script:name>")
    def script(self, name: str) -> Response:
        return file(PAGE, name)

    @page("GET", "/leaflet/<script:name>")
    def leaflet_script(self, name: str) -> Response:
        return file(self.leaflet, name, DAY)

    @page("GET", "/leaflet/images/<picture:name>")
    def leaflet_picture(self, name: str) -> Response:
        return file(self.leaflet / "images", name, DAY)


def file(folder: pathlib.Path, name: str, seconds: int | None = None) -> Response:
    """A file, which may be kept for so long."""
    return send_from_directory(folder, name, mimetype=KINDS[pathlib.Path(name).suffix], max_age=seconds)


def of_store(store: LayerStore, hosts: Iterable[str] = LOOPBACK, base: str | None = None,
             leaflet: pathlib.Path = LEAFLET, systems: Systems | None = None) -> "Front":
    """The front over a store. systems: those that it answers in, where not only in the store's."""
    owners = (FeaturesApi(store, systems), MapApi(store, systems), Files(leaflet))
    return Front(owners, store.writable, hosts, base)


def of_register(pages: RegisterApi, hosts: Iterable[str] = LOOPBACK, base: str | None = None,
                leaflet: pathlib.Path = LEAFLET) -> "Front":
    """The front over a register."""
    return Front((pages, RegisterChanges(pages), RegisterMap(pages), Files(leaflet)), pages.writable, hosts, base)


class Front:
    """owners: those whose methods answer. hosts: the names by which it is asked. base: the address under which a server
    before it passes questions on."""

    def __init__(self, owners: Sequence[object], writable: bool, hosts: Iterable[str] = LOOPBACK,
                 base: str | None = None) -> None:
        self.owners, self.writable = tuple(owners), writable
        self.base = base.rstrip("/") if base else None
        parts = urllib.parse.urlsplit(base or "")
        self.base_host = parts.netloc.lower()
        self.hosts = {*hosts, parts.hostname or ""} - {""}
        self._slow, self._changes = threading.BoundedSemaphore(SLOW_MOST), threading.BoundedSemaphore(CHANGES_MOST)
        self.app = Flask(__name__, static_folder=None)
        self.app.url_map.merge_slashes = False
        self.app.url_map.converters.update(PARTS)
        for owner in owners:
            if isinstance(owner, OgcPages):
                owner.kinds = tuple(type(one) for one in owners)
            for method, said in said_by(type(owner)).items():
                self._add(said, getattr(owner, method))
        self.app.before_request(self._look)
        self.app.after_request(dressed)
        self.app.register_error_handler(Exception, refused)

    def __call__(self, environ: dict[str, Any], start: Any) -> Any:
        return self.app(environ, start)

    def _add(self, said: Page, answers: Callable[..., Response]) -> None:
        """Gives a page its route."""
        @functools.wraps(answers)
        def answered(**parts: str) -> Response:
            given = request.args.to_dict()
            for word in given.keys() - {one.name for one in said.words}:
                raise Problem(400, f"unknown word {word[:40]}")
            words = {one.name.replace("-", "_"): one.value(given) for one in said.words}
            del words[FORM.name]
            with self._place(said):
                return answers(**parts, **words)

        self.app.add_url_rule(said.route, f"{said.method} {said.route}", answered, methods=[said.method],
                              provide_automatic_options=False)

    @contextmanager
    def _place(self, said: Page) -> Iterator[None]:
        """A place among those that wait, for a page that may have to."""
        places = self._changes if said.is_change else self._slow
        if said.slow and not places.acquire(blocking=False):
            raise Problem(503, "too many questions that have to wait", **{"Retry-After": "1"})
        try:
            yield
        finally:
            if said.slow:
                places.release()

    def _look(self) -> Response | None:
        """Looks at what was asked before a page answers it."""
        g.root = self._root()
        words = list(request.args.items(multi=True))
        if len(words) > WORDS_MOST:
            raise Problem(400, f"the question: it has more than {WORDS_MOST} words")
        if len(words) > len({name for name, _ in words}):
            raise Problem(400, "a word is given twice")
        method, fault, rule = str(request.environ["REQUEST_METHOD"]), request.routing_exception, request.url_rule
        if isinstance(fault, MethodNotAllowed):
            return self._other_method(method, fault.valid_methods or ())
        if rule and method != request.method:  # as get, which Werkzeug takes for GET
            return self._other_method(method, rule.methods or ())
        if rule:
            self._check(method)
        return None

    def _root(self) -> str:
        """Looks at Host: the address that was asked. A foreign name, which a page may give this address, is refused."""
        host = request.headers.get("Host", "").lower()
        found = re.fullmatch(r"(\[[0-9a-f:.]{2,45}\]|[a-z0-9._-]{1,253})(:[0-9]{1,5})?", host)
        if not found or found[1] not in self.hosts:
            raise Problem(403, "this name is not served")
        return self.base if self.base and host == self.base_host else f"{request.scheme}://{host}"

    def _other_method(self, method: str, known: Iterable[str]) -> Response:
        """The methods of a page: as the answer to OPTIONS, else beside the refusal of another one."""
        may = (*READING, *CHANGING) if self.writable else READING
        allowed = ", ".join(one for one in may if one == "OPTIONS" or one in known)
        if method != "OPTIONS":
            raise Problem(405, f"{method} is not for this page", Allow=allowed)
        self._check(method)
        return Response(headers={"Allow": allowed})

    def _check(self, method: str) -> None:
        """Refuses what another site's page asks, and a change where none may be made."""
        site = request.headers.get("Sec-Fetch-Site", "").strip().lower()
        if method not in READING:
            if not self.writable:
                raise Problem(403, "it was started without --writable")
            origin, parts = request.headers.get("Origin", ""), urllib.parse.urlsplit(g.root)
            if site in ("cross-site", "same-site") or origin not in ("", f"{parts.scheme}://{parts.netloc}"):
                raise Problem(403, "another site's page may change nothing")
        if site == "cross-site" and request.path != "/":  # a link to the page itself may be anywhere
            raise Problem(403, "another site's page may ask nothing")


def dressed(answer: Response) -> Response:
    """An answer with the headers that each has."""
    for name, value in {**HEADERS, "Cache-Control": "no-cache"}.items():
        answer.headers.setdefault(name, value)
    return answer
