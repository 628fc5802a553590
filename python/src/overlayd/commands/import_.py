"""Makes PUT lines for overlayd of GeoJSON or Well-Known Text with fractions, and of what else GDAL reads.

    overlay import map.geojson --fit --name-by name --output map.txt
    overlay import boroughs.geojson --fit --split --name-by BoroName --output ny.txt
    overlay import plan.wkt --factor 100 --origin 500000 4600000 > plan.txt

A coordinate x becomes the whole number nearest to (x - X) * FACTOR, the greater one of two that are as near. Of more
digits than a double has x is the nearest double, as other programs read it, and that is reported. Standard error says
what was rounded, by how much in the given unit, merged and refused, and of which feature or text of a file, counted
from 1 (where nothing is written, of ten at most). Each file is a layer, or with --name-by each value of the property
(features without it make one of the file's name). Names are cut to 32 bytes; letters lose their marks, ß becomes ss,
other characters become `_`, and of names that are then the same the later ones get a number.

Without --factor, --origin, --scale and --fit the factor is 1 where that fits: where rings collapse, or coordinates move
by more than a 1000th of the extent, or are out of range, nothing is written, and the words to type are reported.

--fit     factor and origin from the box of the data: the least factor by which nothing is rounded, else the greatest
          of 1, 2 and 5 times a power of ten that is in range. A ring that is smaller than a whole number there is left
          out, and reported.
--split   what has more than 2,048 steps is spread over several layers NAME_1 .. joined by ^ under its name, exactly: a
          long ring is cut into runs, each closed by a chord through the ring's first point, and the chords cancel.
          Price: LOCATE says `edge` on a chord, too.
--union   where polygons of one layer overlap, what they cover is inside: those that overlap are in layers of their
          own, joined by |. Without it a layer is even-odd.
--output  NAME.txt is the script, NAME.scale.json says what its numbers mean, for the other tools and for web/.
          Where one store of 32 layers does not suffice, NAME.1.txt, NAME.2.txt .. are each the script of a store.

Many features with all that they have are a register's (overlay register): a store has layers alone.

Status 0: all was written; 1: something was refused, the rest was written, no layer came of the files and nothing was
written, or standard output or an open standard error cannot be written; 2: a file could not be read, the factor does
not fit, no feature has the property of --name-by, or what would be written over is a store, an input, a scale that a
store beside it needs, or a file that was not named and belongs to no script of --output, and nothing was written."""

import re
import sys
import unicodedata
from collections.abc import Callable

import click

from .. import progress
from ..files import coordinate_systems, fitting, rounding
from ..grid import limits
from ..store import layering
from ..store.layering import Group, Layout, Store
from ..words import CRS, FILE, NUMBER, Words, argument, flag, option, subcommand
from .import_reading import NAMED_MAX, Reader, Stopped, check_scale, crs_for, read_shapes, scale_for
from .import_writing import lines_of, one_store, write_files


def fitted_name(wish: str) -> str:
    """A layer name that looks like the wish: marks dropped, other bytes made _."""
    apart = unicodedata.normalize("NFKD", wish.replace("ß", "ss").replace("ẞ", "SS"))
    plain = "".join(letter for letter in apart if not unicodedata.combining(letter))
    plain = re.sub(r"[^A-Za-z0-9]+", "_", plain.strip()).strip("_")
    if not plain or not plain[0].isalpha():
        plain = "L" + ("_" + plain if plain else "")
    return plain


class Planner:
    """Makes layers and stores of groups, and says what they became."""

    def __init__(self, words: Words, refuse: Callable[[str, str], None]) -> None:
        self.words, self.refuse = words, refuse
        self.names = layering.Names()
        self.notes: list[str] = []

    def named(self, groups: list[Group]) -> list[Store]:
        """Each group under the name that its wish (`Reader.take`) is fitted to, and each in one store."""
        given = [(self.names.give(fitted_name(group.wish)), group) for group in groups]
        layouts = []
        for name, group in given:
            layout = layering.split(name, group.polygons, self.names, self.words.union)
            reason = self.unfit(layout, group)
            if reason:
                self.refuse(f"layer {name}", reason)
            else:
                layouts.append(layout)
                self.tell(layout, group)
        return layering.in_stores(layouts)

    def unfit(self, layout: Layout, group: Group) -> str | None:
        """Why a layout is not written, or None."""
        longest = max(rounding.steps_of([polygon]) for polygon in group.polygons)
        is_spread = longest > limits.STEPS_MAX or (len(layout.base) > 1 and not self.words.union)
        if is_spread and not self.words.split:
            return (f"too many steps: {group.steps()} of at most {limits.STEPS_MAX}; --split writes them exactly, over "
                    "several layers")
        if not layering.fits(layout):
            return f"{group.steps()} steps need {layout.count()} layers, more than a store has"
        return None

    def tell(self, layout: Layout, group: Group) -> None:
        over = f" in {len(layout.base)} layers" if len(layout.base) > 1 else ""
        chords = f"; LOCATE says edge on {layout.chords} chords" if layout.chords else ""
        self.notes.append(f"layer {layout.name}: polygons {len(group.polygons)}, steps {group.steps()}{over}{chords}; "
                          f"{group.tally.text()}")
        pairs = 0 if self.words.union else group.overlaps()
        if pairs:
            self.notes.append(f"layer {layout.name}: {pairs} pairs of polygons with overlapping boxes; where polygons "
                              "of one layer overlap, the layer is out (even-odd), or in with --union")


def check_words(words: Words) -> None:
    """Refuses words that do not go together."""
    if any(factor is not None and factor <= 0 for factor in (words.factor, words.factor_y)):
        raise click.UsageError("a factor is greater than 0")
    if words.scale and (words.fit or words.factor or words.factor_y or words.origin):
        raise click.UsageError("--scale and --fit, a factor or an origin are two answers")
    if words.output and (not words.output.name or words.output.is_dir()):
        raise click.UsageError(f"--output: {words.output} is a folder, and no file")


def work(words: Words, say: Callable[[str], None]) -> int:
    """Reads, lays out and writes; the status."""
    shapes, names = read_shapes(words)
    box = fitting.box_of(shapes)
    scale = scale_for(words, box, crs_for(words, names, box))
    if scale.crs is None and coordinate_systems.UNKNOWN in names:
        say("the coordinate system is unknown, as the file does not say it: --crs names it, as EPSG:25832")
    reader = Reader(scale, words.fit)
    for shape in progress.bar("rounding features", len(shapes), shapes):
        reader.take(shape)
    given = words.fit or words.scale or words.factor or words.factor_y
    notes = check_scale(reader, box, scale, bool(given))
    planner = Planner(words, reader.refuse)
    stores = planner.named(list(reader.groups.values()))
    written = [] if stores else ["no layer: nothing is written"]
    if words.output and stores:
        written = write_files(words, stores, scale)
    else:
        stores = one_store(stores, reader.refuse)
        for line in (line for store in stores for line in lines_of(store)):
            print(line)
    if words.fit:
        moved = f"moved by at most {rounding.shown(reader.furthest())} {scale.unit}".removesuffix(" 1")
        say(f"{fitting.words(scale.factor, scale.origin)}; {moved if reader.furthest() else 'nothing is rounded'}")
    for text in planner.notes + (reader.notes if stores else shortened(reader.notes)) + notes + written:
        say(text)
    return 1 if reader.refusals or not stores else 0


def shortened(notes: list[str]) -> list[str]:
    """The first few lines of what was refused of a map of which nothing is written, and how many more there are."""
    more = [f"and {len(notes) - NAMED_MAX} more"] if len(notes) > NAMED_MAX else []
    return notes[:NAMED_MAX] + more


@subcommand(
    __doc__, argument("files", metavar="FILE...", nargs=-1, required=True),
    option("--source-layer", "the layer of files that have several, as GeoPackages", metavar="NAME"),
    option("--factor", "default 1", NUMBER),
    option("--factor-y", "another factor for y (default: that of x)", NUMBER),
    option("--origin", "the point that becomes 0 0 (default 0 0)", NUMBER, nargs=2, metavar="X Y"),
    flag("--fit", "factor and origin from the data, where they are not given"),
    option("--scale", "factor and origin of another map, NAME.scale.json", FILE, metavar="FILE"),
    option("--name", "the layer's name (default: the file's)"),
    option("--name-by", "a layer for each value of this property of GeoJSON features, one of which has it",
           metavar="PROPERTY"),
    flag("--split", "spread what is too long for a layer over several"),
    flag("--union", "polygons of one layer may overlap"),
    option("--output", "in the place of standard output", FILE, metavar="NAME.txt"),
    option("--title", "for the scale's file (default: the output's name)"),
    option("--unit", "of the world's numbers (default: that of the coordinate system, else 1)"),
    option("--crs", "the name of the world's coordinates, as EPSG:2263 (default: what the files say)", CRS))
def command(words: Words) -> int:
    check_words(words)
    say: Callable[[str], None] = lambda text: print(text, file=sys.stderr)
    try:
        return work(words, say)
    except Stopped as fault:
        say(str(fault))
        return 2
