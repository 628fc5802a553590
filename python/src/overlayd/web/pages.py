"""Pages that are said once: the route of a page, its words as they are read, and what its description says of it.

A page is a method of an object whose class says it by `page`. It takes the parts of its route by name, and its words,
with _ for -; f, the form of the answer, is a word of each page and handed to none. `Front` gives a page its route,
openapi.py its description."""

import json
import re
from collections.abc import Callable, Mapping
from fractions import Fraction
from typing import Any, NamedTuple, TypeVar

from flask import Response, request

from ..store.world import exact
from .schemas import Value, array

BODY_MOST = 1 << 20
BODY_READ = 4 * BODY_MOST  # read to its end, so that its sender reads the refusal; what is larger is broken off
GEOJSON = "application/geo+json"
JSON = "application/json"
Answers = TypeVar("Answers", bound=Callable[..., Response])


class Problem(Exception):
    """A refusal by the web's own rules: the status, and what is reported; more stands beside it in the answer."""

    def __init__(self, status: int, text: str, **headers: str) -> None:
        super().__init__(text)
        self.status, self.headers, self.more = status, headers, dict[str, Any]()


class Word(NamedTuple):
    """A word of a question: what it is for, its schema, how it is read, what it is where it is left out, and how a list
    is written."""

    name: str
    text: str
    schema: Value
    read: Callable[[str], Any] = str
    usual: Any = None
    required: bool = False
    style: Value = {}

    def value(self, given: Mapping[str, str]) -> Any:
        if self.name not in given and not self.required:
            return self.usual
        try:
            return self.read(given.get(self.name, ""))
        except ValueError as fault:
            raise Problem(400, f"{self.name}: {fault}") from fault


def text(name: str, what: str, form: str | None = None) -> Word:
    """A word that is read where it is needed."""
    return Word(name, what, {"type": "string", **({"format": form} if form else {})})


def whole(name: str, what: str, usual: int, least: int, most: int, schema: Value) -> Word:
    """A whole number of at least least; one above most is taken for most."""

    def read(given: str) -> int:
        if not re.fullmatch(r"[0-9]{1,18}", given) or int(given) < least:
            raise ValueError(f"a whole number from {least} on is wanted")
        return min(int(given), most)

    return Word(name, what, {"type": "integer", "minimum": least, **schema}, read, usual)


def numbers_of(given: str, *counts: int) -> list[Fraction]:
    """Numbers parted by commas, as many as one of counts."""
    try:
        found = [exact(word) for word in given.split(",")]
    except ValueError:
        found = []
    if len(found) not in counts:
        several = f"{' or '.join(map(str, counts))} numbers are wanted"
        raise ValueError("a number is wanted" if counts == (1,) else several)
    return found


def one_of(name: str, what: str, *forms: str) -> Word:
    def read(given: str) -> str:
        if given not in forms:
            raise ValueError(f"{' or '.join(forms)} is wanted")
        return given

    return Word(name, what, {"type": "string", "enum": [*forms]}, read)


FORM = one_of("f", "the form of the answer", "json")
POINT = tuple(
    Word(axis, "a number, or a fraction as 5/3", {"type": "string"}, lambda given: numbers_of(given, 1)[0],
         required=True)
    for axis in "xy"
)
BOX = Word("bbox", "least x and y, greatest x and y; with heights, these are passed over",
           array({"type": "number"}, 4, 6), lambda given: numbers_of(given, 4, 6),
           style={"style": "form", "explode": False})


class Page(NamedTuple):
    """A page: its method and route, and whether it may have to wait. A page whose name is empty is not described. Of
    the others answer is the schema of the answer, body that of the body; changes name by If-Match what they change."""

    method: str
    route: str
    name: str
    text: str
    answer: str
    words: tuple[Word, ...]
    kind: str
    body: str | None
    status: int
    slow: bool
    if_match: bool

    @property
    def is_change(self) -> bool:
        return self.method != "GET"


def page(method: str, route: str, name: str = "", text: str = "", answer: str = "", *words: Word, kind: str = JSON,
         body: str | None = None, status: int = 200, slow: bool = False,
         if_match: bool = False) -> Callable[[Answers], Answers]:
    """Says of a method of a class which page it answers."""
    known = words if any(one.name == FORM.name for one in words) else (*words, FORM)

    def said(answers: Answers) -> Answers:
        made = Page(method, route, name, text, answer, known, kind, body, status, slow, if_match)
        setattr(answers, "page", made)
        return answers

    return said


def said_by(kind: type) -> dict[str, Page]:
    """The pages of a class by the names of its methods; a method that takes the place of another answers its page."""
    found: dict[str, Page] = {}
    for one in reversed(kind.__mro__):
        found |= {name: method.page for name, method in vars(one).items() if hasattr(method, "page")}
    return found


# ---- what comes and what goes


def sent(value: object, kind: str = JSON, status: int = 200, headers: Mapping[str, str] | None = None) -> Response:
    """An answer of JSON."""
    return Response(json.dumps(value), status, headers, content_type=kind)


def link(href: str, rel: str, kind: str = JSON, title: str | None = None) -> dict[str, str]:
    made = {"href": href, "rel": rel, "type": kind}
    return {**made, "title": title} if title else made


def content(*kinds: str) -> bytes:
    """The bytes of the body, said to be JSON or one of kinds; one that is too large is refused (413), unless waitress
    did (BODY_READ). Werkzeug would bound forms alone, and take a length that it cannot read for none."""
    if request.mimetype not in (JSON, GEOJSON, *kinds):
        raise Problem(415, f"{JSON} is wanted")
    length = request.environ.get("CONTENT_LENGTH") or ""
    if not re.fullmatch(r"[0-9]{1,18}", length):
        raise Problem(411, "the length of the body is wanted")
    if int(length) > BODY_MOST:
        raise Problem(413, f"a body has at most {BODY_MOST} bytes")
    return request.stream.read(int(length))


def no_number(word: str) -> float:
    """Refuses what JSON has no number for."""
    raise ValueError(f"{word} is no number")


def body(*kinds: str, number: Callable[[str], Any] | None = None) -> dict[str, Any]:
    """The JSON object of the body, said to be JSON or one of kinds. number: what is made of the text of a number, where
    that is no double."""
    try:
        value = json.loads(content(*kinds), parse_float=number, parse_int=number, parse_constant=number or no_number)
    except RecursionError:
        raise Problem(400, "no JSON that is read: lists and objects are nested too deep") from None
    except ValueError as fault:
        raise Problem(400, f"no JSON: {fault}") from fault
    if not isinstance(value, dict):
        raise Problem(400, "an object is wanted")
    return value
