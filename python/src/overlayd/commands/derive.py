"""Says what an expression over maps is, as shapes and its area."""

import pathlib

import click

from ..files import shape_files
from ..files.arrow_reading import ReadingFault
from ..kernel import Wants, derive
from ..kernel.deriving import NAME, NoMap, UnknownMap
from ..words import FILE, argument, option
from . import map_words
from .map_words import Question


@map_words.question("derive", argument("expression", metavar="EXPRESSION"),
                    argument("names", metavar="NAME=FILE..", nargs=-1, required=True), *map_words.words("a"),
                    option("--out", "its polygons, each with its area: .geojson, .gpkg or .fgb", FILE, metavar="FILE"))
def command(question: Question) -> None:
    """Write what an expression over maps is.

        overlay derive "(flood | slide) - parks" flood=flood.gpkg slide=slide.gpkg parks=parks.geojson --out risk.gpkg

    A map is the union of its features; & is what both have, | what one of them has, - what the first has and not the
    second, ^ what just one has. --a-layer and --where are those of each map. The area of the whole goes to standard
    output, with by how much it may be off."""
    given = question.words
    named = dict(parted(text) for text in given["names"])
    if len(named) < len(given["names"]):
        raise click.UsageError("a name stands for one map alone")
    out: pathlib.Path | None = given["out"]
    map_words.check_outputs({"--out": out}, [*named.values()])
    shape_files.check(out)
    used = sorted(set(NAME.findall(given["expression"])))
    if unknown := [name for name in used if name not in named]:
        raise ReadingFault(f"no map {unknown[0]}; say one of: {', '.join(sorted(named))}")
    if not used:
        raise ReadingFault(str(NoMap(sorted(named))))
    maps = question.read([named[name] for name in used], "a" * len(used))
    ask = question.ask(Wants.NOTHING if out is None else Wants.OUTLINES)
    try:
        found = derive({name: one.column for name, one in zip(used, maps)}, given["expression"], ask)
    except UnknownMap as fault:
        raise ReadingFault(str(fault)) from fault
    question.tell_grid(found.laid)
    if out is not None:
        assert found.polygons is not None
        shape_files.write(out, found.polygons.outlines, {"area": found.polygons.areas.tolist()}, question.system())
        question.say(f"{len(found.polygons.areas)} polygons in {out}")
    print(f"area,bound\n{found.area.doubles()[0]!r},{found.area.bounds()[0]!r}")


def parted(text: str) -> tuple[str, str]:
    """A name and its file."""
    name, between, path = text.partition("=")
    if not between or not NAME.fullmatch(name):
        raise click.UsageError(f"{text}: a map is named as NAME=FILE, the name of letters, digits and _")
    return name, path
