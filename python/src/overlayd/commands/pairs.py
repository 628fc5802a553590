"""Lists which features of two maps overlap or touch, how, and by how much."""

import pathlib
import sys
from collections.abc import Mapping
from typing import Any

import click
import numpy as np

from ..files.row_tables import Named, lines, write_array, write_package, write_text
from ..geometry.flat_arrays import Numbers
from ..kernel import Wants, overlay
from ..kernel.measuring import widths
from ..kernel.overlaying import Overlay
from ..kernel.rows import Relation
from ..words import argument
from . import map_words
from .map_words import Question

ENDS = (".csv", ".npy", ".gpkg")
DIGITS_OF_EXACT = 1000


@map_words.question("pairs", argument("first", metavar="A"), argument("second", metavar="B"), *map_words.words("ab"),
                    *map_words.table_words())
def command(question: Question) -> None:
    """List which features of two maps overlap or touch, and by how much.

        overlay pairs parcels.gpkg zones.gpkg --grid 0.001 --a-id nr --b-id code --out pairs.csv

    Coordinates go onto a grid once, as one line says; all after that is exact. A row has what calls both features,
    the relation of the first to the second (touches, overlaps, within, contains, equals), the area of what both have,
    by how much it may be off, and the areas of both. The largest is first.

    Status 0: all is written; 1: something has no answer, or cannot be written; 2: a map or a word is refused, and
    nothing is written."""
    given = question.words
    out: pathlib.Path | None = given["out"]
    map_words.check_outputs({"--out": out}, (given["first"], given["second"]))
    check_out(out)
    a, b = question.read((given["first"], given["second"]), "ab")
    found = overlay(a.column, b.column, question.ask(wanted(given)))
    question.tell_grid(found.laid)
    rows = largest_first(found)
    write(question, rows, a.names, b.names)
    relations = rows.relations()
    touching = int((relations == Relation.TOUCHES).sum())
    areas = rows.areas()
    question.say(f"{len(rows) - touching} pairs overlap, {touching} touch; areas sum to "
                 f"{float(areas.total()):.12g}, off by at most {float(areas.total_bound()):.1g}")
    question.tell_unanswered([f"{a.label(i)}, and {b.label(j)}: {map_words.why(fault)}" for (i, j), fault in zip(
        found.pairs[found.faults()].tolist(), found.rows["fault"][found.faults()].tolist())])


def wanted(given: Mapping[str, Any]) -> Wants:
    """What rows are to have for the columns that words ask for."""
    exactly = Wants.OUTLINES | Wants.FRACTIONS if given["exact"] else Wants.NOTHING
    return exactly | (Wants.OUTLINES if given["width"] or given["outlines"] else Wants.NOTHING)


def check_out(out: pathlib.Path | None) -> None:
    """Refuses a table of another form."""
    if out is not None and out.suffix not in ENDS and not (out.exists() and not out.is_file()):
        raise click.UsageError(f"--out {out}: tables are written as {', '.join(ENDS)}")


def largest_first(rows: Overlay) -> Overlay:
    """The rows that have an answer, by their areas, the largest first, equal ones by the numbers of their features."""
    both = rows.rows["both"]
    order = np.lexsort((~both["low"], -both["high"]))
    return rows.part(order[rows.rows["fault"][order] == 0])


def write(question: Question, rows: Overlay, a: Numbers, b: Numbers) -> None:
    """Writes the table where the words say."""
    given, more = question.words, dict[str, list[object]]()
    if given["width"]:
        assert rows.outlines is not None
        more["width"] = widths(rows.outlines, rows.areas().doubles()).tolist()
    if given["exact"]:
        more["area_exact"] = exact_texts(rows)
    named = Named(rows, a, b, more)
    out: pathlib.Path | None = given["out"]
    if out is None:
        sys.stdout.writelines(lines(named))
    elif out.suffix == ".npy":
        write_array(out, rows)
    elif out.suffix == ".gpkg":
        write_package(out, named, question.system())
    else:
        write_text(out, named)


def exact_texts(rows: Overlay) -> list[object]:
    """The areas as fractions, where these have no more than DIGITS_OF_EXACT digits."""
    assert rows.exact is not None
    most = 10**DIGITS_OF_EXACT
    wholes = [twice / 2 / rows.laid.factor**2 for twice in rows.exact.tolist()]
    return [str(one) if one.numerator < most and one.denominator < most else f"more than {DIGITS_OF_EXACT} digits"
            for one in wholes]
