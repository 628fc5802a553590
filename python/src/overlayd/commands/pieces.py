"""Writes all pieces of two maps: common ones, and those of one map alone."""

import pathlib
import sys
from collections.abc import Sequence
from dataclasses import dataclass
from typing import Any

import click
import numpy as np

from ..api.cells import Cells
from ..api.pieces import COMMON, HOWS, all_pieces, alone
from ..files import shape_files, writing
from ..files.map_columns import MapColumn
from ..files.row_tables import quoted
from ..geometry.flat_arrays import Numbers
from ..kernel import Ask, Wants
from ..kernel.asking import Areas
from ..kernel.cell_jobs import within
from ..kernel.columns import Column, columns_joined
from ..kernel.measuring import widths
from ..kernel.overlaying import Overlay, overlay_within
from ..kernel.rows import Relation
from ..words import FILE, argument, flag, option
from . import map_words
from .map_words import Question

HEADS = ("a", "b", "area", "bound", "width", "relation")


@dataclass(frozen=True)
class Table:
    """Pieces with their shapes: names of both features, areas and by how much these may be off, relations."""

    a: Numbers
    b: Numbers
    areas: Areas
    relations: Numbers
    shapes: Column

    def columns(self) -> dict[str, list[Any]]:
        """What a table has, by its heads."""
        areas = self.areas.doubles()
        own = self.a, self.b, areas, self.areas.bounds(), widths(self.shapes, areas), self.relations
        return {head: column.tolist() for head, column in zip(HEADS, own)}

    def largest_first(self) -> "Table":
        """Pieces by their areas; of equal ones those that came first."""
        parts = self.areas.parts
        order = np.lexsort((np.arange(len(parts)), ~parts["low"], -parts["high"]))
        return Table(self.a[order], self.b[order], self.areas.part(order), self.relations[order],
                     self.shapes.part(order))


@map_words.question(
    "pieces", argument("first", metavar="A"), argument("second", metavar="B"), *map_words.words("ab"),
    option("--how", "which pieces, as geopandas calls them (default: union)", click.Choice(HOWS), default="union"),
    option("--out", "the table (default: standard output)", FILE, metavar="FILE.csv"),
    option("--pieces", "the pieces as shapes: .geojson, .gpkg or .fgb", FILE, metavar="FILE"),
    flag("--no-audit", "leave the audit out"))
def command(question: Question) -> None:
    """Write all pieces of two maps, common ones and those of one map alone.

        overlay pieces parcels.gpkg zones.gpkg --grid 0.001 --out pieces.csv --pieces pieces.gpkg

    Coordinates go onto a grid once, as one line says; all after that is exact. A piece has what calls both features, or
    the one that has it alone, its area, by how much that may be off, and its width: area by perimeter.

    An audit ends it: each feature is the sum of its pieces, or where others lie on each other within it, what it shares
    with them all and what it has alone.

    Status 0: all is written, and the audit found no difference; 1: it found one, something has no answer, or cannot be
    written; 2: a map or a word is refused, and nothing is written."""
    given = question.words
    out: pathlib.Path | None = given["out"]
    shown: pathlib.Path | None = given["pieces"]
    map_words.check_outputs({"--out": out, "--pieces": shown}, (given["first"], given["second"]))
    if out is not None and out.suffix in shape_files.ENDS:
        raise click.UsageError(f"--out {out}: the table is CSV; say --pieces {out} for the shapes")
    shape_files.check(shown)
    a, b = question.read((given["first"], given["second"]), "ab")
    ask = question.ask(Wants.OUTLINES)
    found = all_pieces(a.column, b.column, given["how"], ask.stage(0, 0.8, Wants.OUTLINES))
    question.tell_grid(found.both.laid)
    common, own = found.both if given["how"] in COMMON else None, (found.first, found.second)
    write(joined(common, own, a, b).largest_first(), out, shown, question)
    tell(question, common, own)
    faults = tell_unanswered(question, found.both, own, a, b)
    for number, read in enumerate((a, b)):
        part = own[number]
        if part is not None and common is not None and not faults and not given["no_audit"]:
            audit(question, number, read, Side(common, part, ask.stage(0.8 + number / 10, 0.9 + number / 10)))


def joined(common: Overlay | None, own: Sequence[Cells | None], a: MapColumn, b: MapColumn) -> Table:
    """All pieces in one table, of which there is at least one kind."""
    tables = [] if common is None else [of_common(common, a, b)]
    tables += [of_alone(side, number, (a, b)[number]) for number, side in enumerate(own) if side is not None]
    areas = [one.areas for one in tables]
    both = Areas(np.concatenate([one.parts for one in areas]), np.concatenate([one.off for one in areas]),
                 areas[0].factor)
    names_a, names_b, relations = (np.concatenate([getattr(one, name) for one in tables])
                                   for name in ("a", "b", "relations"))
    return Table(names_a, names_b, both, relations, columns_joined([one.shapes for one in tables]))


def of_common(common: Overlay, a: MapColumn, b: MapColumn) -> Table:
    """The pieces that two features have in common."""
    rows = common.part(np.flatnonzero(common.relations() >= Relation.OVERLAPS))
    assert rows.outlines is not None
    return Table(a.names[rows.pairs[:, 0]], b.names[rows.pairs[:, 1]], rows.areas(),
                 np.full(len(rows), "overlaps", object), rows.outlines)


def of_alone(side: Cells, number: int, read: MapColumn) -> Table:
    """The pieces that a feature has alone."""
    rows = side.part(np.flatnonzero(side.rows["fault"] == 0))
    assert rows.outlines is not None
    names, nothing = read.names[rows.jobs], np.full(len(rows), "", object)
    return Table(nothing if number else names, names if number else nothing, rows.areas(),
                 np.full(len(rows), "alone", object), rows.outlines)


def write(table: Table, out: pathlib.Path | None, shown: pathlib.Path | None, question: Question) -> None:
    """Writes the table, and shapes where they are wanted."""
    columns = table.columns()
    if shown is not None:
        properties = {name: columns[name] for name in ("a", "b", "area")}
        shape_files.write(shown, table.shapes, properties, question.system())
        question.say(f"{len(table.a)} pieces in {shown}")
    own = [quoted(names).tolist() for names in (table.a, table.b)]
    lines = map("{},{},{!r},{!r},{:.4g},{}\n".format, *own, *(columns[head] for head in HEADS[2:]))
    if out is None:
        sys.stdout.write(",".join(HEADS) + "\n")
        sys.stdout.writelines(lines)
        return
    with writing.whole(out) as file:
        file.write(",".join(HEADS) + "\n")
        file.writelines(lines)


def tell(question: Question, common: Overlay | None, own: Sequence[Cells | None]) -> None:
    """What the pieces of each kind sum to."""
    sums = []
    if common is not None:
        sums.append(("common", common.areas(), int((common.relations() >= Relation.OVERLAPS).sum())))
    sums += [(name, side.areas(), len(side)) for name, side in zip(("a alone", "b alone"), own) if side is not None]
    question.say("; ".join(f"{name} {float(areas.total()):.12g} in {count} pieces" for name, areas, count in sums))


def tell_unanswered(question: Question, common: Overlay, own: Sequence[Cells | None], a: MapColumn,
                    b: MapColumn) -> bool:
    """Of what there is no answer; whether there is any."""
    lines = [f"{a.label(i)}, and {b.label(j)}: {map_words.why(fault)}" for (i, j), fault in zip(
        common.pairs[common.faults()].tolist(), common.rows["fault"][common.faults()].tolist())]
    for side, read in zip(own, (a, b)):
        if side is not None:
            faults = side.part(side.faults())
            lines += [f"{read.label(feature)}: {map_words.why(fault)}; what it has alone is left out"
                      for feature, fault in zip(faults.jobs.tolist(), faults.rows["fault"].tolist())]
    question.tell_unanswered(lines)
    return bool(lines)


@dataclass(frozen=True)
class Side:
    """Of what the audit of a map is made: common pieces, what it has alone, and how is asked."""

    common: Overlay
    alone: Cells
    ask: Ask


def audit(question: Question, number: int, read: MapColumn, side: Side) -> None:
    """Whether each feature of a map is the sum of its pieces."""
    laid, count = side.common.laid, len(read)
    live = np.flatnonzero(laid.maps[number].points() > 0)
    own = laid.alone(number)
    whole = overlay_within(own, np.stack([live, live], axis=1), side.ask.stage(0, 0.3))
    sums = np.zeros(count, object)
    off = np.zeros(count, object)
    for features, parts, bounds, sign in (
            (side.common.pairs[:, number], side.common.rows["both"], side.common.rows["bound"], 1),
            (side.alone.jobs, side.alone.rows["both"], side.alone.rows["bound"], 1),
            (whole.pairs[:, 0], whole.rows["a"], whole.rows["bound"], -1)):
        np.add.at(sums, features, sign * wholes(parts))
        np.add.at(off, features, wholes(bounds))
    apart = np.flatnonzero(np.abs(sums) > off)
    name = "ab"[number]
    if len(apart):
        apart = apart[~shares_close(side, number, apart, (sums, off))]
    question.say(f"audit: {count - len(apart)} of {count} features of {name} are the sum of their pieces")
    if len(apart):
        question.say(f"audit: {len(apart)} features of {name} are NOT the sum of their pieces: "
                     f"{map_words.some(read.names[apart].tolist())}")
        question.status = 1


def shares_close(side: Side, number: int, apart: Numbers, found: tuple[Numbers, Numbers]) -> Numbers:
    """Of features whose pieces are more than they are, as others lie on each other within them: whether what they share
    with the other map as a whole, and what they have alone, are they."""
    shared = alone(side.common, number, side.ask.stage(0.3, 1), within)
    sums, off = found[0].copy(), found[1].copy()
    np.add.at(sums, side.common.pairs[:, number], -wholes(side.common.rows["both"]))
    np.add.at(sums, shared.jobs, wholes(shared.rows["both"]))
    np.add.at(off, shared.jobs, wholes(shared.rows["bound"]))
    closes: Numbers = (np.abs(sums) <= off)[apart] & (found[0] > 0)[apart]
    return closes


def wholes(wide: Numbers) -> Numbers:
    """Numbers of 16 bytes as Python's."""
    found: Numbers = wide["high"].astype(object) * 2**64 + wide["low"].astype(object)
    return found
