"""Lists where the features of one map overlap, and the gaps between them."""

import pathlib

import numpy as np

from ..files import shape_files
from ..kernel import Wants, check
from ..kernel.asking import Areas
from ..kernel.checking import Check, TooDeep
from ..kernel.measuring import widths
from ..kernel.overlaying import Overlay
from ..kernel.polygons import Polygons
from ..words import FILE, argument, flag, option
from . import map_words, pairs
from .map_words import Question


@map_words.question("check", argument("first", metavar="A"), *map_words.words("a"), *map_words.table_words(),
                    option("--gaps", "the gaps as shapes: .geojson, .gpkg or .fgb", FILE, metavar="FILE"),
                    flag("--no-audit", "leave the audit out"))
def command(question: Question) -> None:
    """List where features of one map overlap, and the gaps between them.

        overlay check parcels.gpkg --grid 0.001 --a-id nr --out overlaps.csv --gaps gaps.gpkg

    Coordinates go onto a grid once, as one line says; all after that is exact. The table has the pairs that overlap,
    as that of `overlay pairs`. A gap is a place that features enclose and none covers.

    An audit ends it: each layer of features that do not overlap has the area of these together, what is covered and
    what is open is the whole frame, and no more is covered than areas less overlaps say but where three features lie on
    each other.

    Status 0: all is written, and the audit found no difference; 1: it found one, something has no answer, or cannot be
    written; 2: a map or a word is refused, and nothing is written."""
    given = question.words
    out: pathlib.Path | None = given["out"]
    gaps: pathlib.Path | None = given["gaps"]
    map_words.check_outputs({"--out": out, "--gaps": gaps}, (given["first"],))
    pairs.check_out(out)
    shape_files.check(gaps)
    (read,) = question.read((given["first"],), "a")
    ask = question.ask(Wants.OUTLINES)
    try:
        found = check(read.column, ask, pairs.wanted(given))
    except TooDeep as fault:
        write_overlaps(question, fault.overlaps, fault.unanswered)
        question.tell_unanswered([f"{read.label(fault.feature)}: it overlaps so many others that {fault.most} layers "
                                  "do not hold them; take features out there: gaps are not looked for, the audit is "
                                  "left out"])
        return
    write_overlaps(question, found.overlaps, found.unanswered)
    if found.gaps is not None:
        write_gaps(gaps, found.gaps, question)
    if not given["no_audit"]:
        audit(found, question)


def write_overlaps(question: Question, overlaps: Overlay, unanswered: Overlay) -> None:
    """Writes the table of overlaps, and says what they sum to, and which pairs have no answer."""
    (read,) = question.maps
    question.tell_grid(overlaps.laid)
    pairs.write(question, pairs.largest_first(overlaps), read.names, read.names)
    areas = overlaps.areas()
    question.say(f"{len(areas)} pairs overlap, and sum to {float(areas.total()):.12g}, off by at most "
                 f"{float(areas.total_bound()):.1g}")
    question.tell_unanswered([f"{read.label(i)}, and {read.label(j)}: {map_words.why(fault)}" for (i, j), fault in
                              zip(unanswered.pairs.tolist(), unanswered.rows["fault"].tolist())])


def write_gaps(path: pathlib.Path | None, gaps: Polygons, question: Question) -> None:
    """Writes the gaps with their areas and widths where a file is named, and says what they sum to."""
    areas = gaps.areas
    if path is not None:
        properties = {"area": areas.tolist(), "width": widths(gaps.outlines, areas).tolist()}
        shape_files.write(path, gaps.outlines, properties, question.system())
        question.say(f"{len(areas)} gaps in {path}")
    question.say(f"{len(areas)} gaps, and sum to {float(np.sum(areas)):.12g}; the largest has "
                 f"{float(np.max(areas, initial=0)):.12g}")


def audit(found: Check, question: Question) -> None:
    """Whether areas close."""
    if len(found.unanswered):
        question.say("audit: left out, since not all overlaps are known")
        return
    own = found.audit
    factor = found.overlaps.laid.factor
    one = Areas(found.covered.parts, found.covered.off, factor)
    if own.closes():
        deep = float(own.deeper / 2**41 / factor**2)
        deeper = f", and {deep:.6g} lies in three features or more" if own.deeper > own.off else ""
        question.say(f"audit: what is covered ({float(one.exact(0)):.12g}) and what is open are the whole frame, and "
                     f"areas less overlaps{deeper}")
    else:
        question.say("audit: areas do NOT close: of layers, frame, overlaps they are off by "
                     f"{max([abs(part) for part in [*own.colours, own.frame]])} and {own.deeper} parts of 2^-41")
        question.status = 1
