"""Says which layers have a point.

    overlay which --store map.db 7 7
    overlay which --store city.db -78.64 35.77
    overlay which --store city.db --points points.txt

Each layer that has the point is named, of those that no definition names. --store may be given once for each store of a
map, in their order. Features of a register are found by its front (overlay serve). The point is in coordinates of the
world where a scale is there, x (longitude) first, and its numbers are read as those of a map are: of more digits than a
double has the nearest double. Where it cannot be asked exactly, the nearest one that can is asked, and reported. A
store is read and not changed.

A number is a decimal, or a fraction as 5/3. A file of points has one on each line, two numbers apart by blanks, a comma
or a semicolon; blank lines and those that begin with # are passed over.

Each point has a line: a name, several with tabs between, or nothing where no layer has it. Where it lies on a segment
the line is `edge`, a tab, and the names that it may belong to. Where it cannot be answered the line is `error`, a tab,
the point as it was typed and the reason; all others are answered. Within what was typed a tab or the end of a line is a
blank.

Status 0: all points are answered; 1: one is not, or the output cannot be written."""

import pathlib
import sys
from collections.abc import Callable, Iterator
from dataclasses import dataclass
from fractions import Fraction

import click

from .. import ending
from ..ending import Unusable
from ..grid import limits, scale as scales
from ..grid.scale import Scale
from ..program import Point as Corner
from ..program_files import found_program
from ..store.layers import Layers
from ..store.opening import layers_of, opened
from ..store.world import exact
from ..words import FILE, PROGRAM, Words, argument, option, subcommand
from .store_layers import other_layers, scale_beside

BLANKS = dict.fromkeys(map(ord, "\t\n\v\f\r\x1c\x1d\x1e\x85\u2028\u2029"), " ")  # what ends a line or a column
TYPED_MAX = 80  # so much of a point that was typed is reported
Answer = list[tuple[str, str]]  # layers, and where a point lies of each


@dataclass(frozen=True)
class Point:
    """A point as it was typed, and its two numbers, or why it has none."""

    typed: str
    place: tuple[Fraction, Fraction] | None
    fault: str = ""


def line_of(answer: Answer) -> str:
    """What is said of a point."""
    edge = [name for name, place in answer if place == "edge"]
    return "\t".join([*(["edge", *edge] if edge else []), *(name for name, place in answer if place == "in")])


def answers_of(program: str, store: pathlib.Path, points: list[Corner],
               check: Callable[[pathlib.Path, Layers], None]) -> list[Answer]:
    """The answers of one store for all points; check is given its layers."""
    with opened(program, store) as session:
        layers = layers_of(session)
        check(store, layers)
        names = layers.unnamed()
        lines = [f"LOCATE {name} {x} {y} {w}" for x, y, w in points for name in names]
        replies = [reply.first for reply in session.answers(lines)]
    for line, reply in zip(lines, replies):
        if reply not in ("in", "out", "edge"):
            raise Unusable(f"{store}: {line}: {reply}")
    count = len(names)
    return [[*zip(names, replies[at * count:(at + 1) * count])] for at in range(len(points))]


def point_of(line: str) -> Point:
    """The point that a line spells: two numbers, decimals or fractions, apart by blanks, a comma or a semicolon."""
    numbers = line.replace(",", " ").replace(";", " ").split()
    if len(numbers) != 2:
        return Point(line, None, "two numbers are a point"
                     + ("; 1,5 are two of them, 1.5 is one" if "," in line else ""))
    try:
        x, y = map(exact, numbers)
    except ValueError as fault:
        return Point(line, None, str(fault))
    return Point(line, (x, y))


def read_points(words: Words) -> list[Point]:
    """The points of the words, or of the lines of the file that are not blank and no comments."""
    if words.points is None:
        return [point_of(" ".join(words.numbers))]
    try:
        text = words.points.read_text(encoding="utf-8-sig") if str(words.points) != "-" else sys.stdin.read()
    except (OSError, ValueError) as fault:
        raise Unusable(ending.fault_text(words.points, fault)) from fault
    lines = [line.strip() for line in text.splitlines()]
    return [point_of(line) for line in lines if line and not line.startswith("#")]


def question(x: Fraction, y: Fraction, scale: Scale, say: Callable[[str], None]) -> Corner | None:
    """The numbers of LOCATE for a point, None where it is out of range; what is not asked exactly is reported."""
    corner = scale.question(x, y)
    if max(abs(corner[0]), abs(corner[1])) > limits.COORDINATE_MAX * corner[2]:
        return None
    near = scale.world(corner)
    if near != (x, y):
        shown = " ".join(scales.decimals(number, scale.digits + 4) for number in near)
        typed = " ".join(scales.decimals(number, max(12, scales.decimal_digits(number) or 0)) for number in (x, y))
        say(f"asked at {shown}, which is nearest to {typed}")
    return corner


def shortened(typed: str) -> str:
    text = typed.translate(BLANKS)
    return text if len(text) <= TYPED_MAX else text[:TYPED_MAX] + " .."


def out_of_range(scale: Scale) -> str:
    """What is said of a point beyond the plane: how far that goes, since x and y are easily taken for one another."""
    ends = [scale.world((sign * limits.COORDINATE_MAX, sign * limits.COORDINATE_MAX, 1)) for sign in (-1, 1)]
    x, y = (" to ".join(scales.decimals(number, scale.digits) for number in along) for along in zip(*ends))
    return f"point out of range: x is {x}, y {y}"


def texts(points: list[Point], corners: list[Corner | None], answers: Iterator[Answer], scale: Scale
          ) -> Iterator[tuple[str, bool]]:
    """The line of each point, and whether it is answered; only those that have corners were asked."""
    for point, corner in zip(points, corners, strict=True):
        if corner is None:
            yield f"error\t{shortened(point.typed)}: {point.fault or out_of_range(scale)}", False
        else:
            yield line_of(next(answers)), True


def work(words: Words) -> int:
    """Asks for all points and writes a line for each; the status."""
    points = read_points(words)
    program = words.program or found_program()
    (scale, file), notes = scale_beside(words.store[0], words.scale), list[str]()
    corners = [question(*point.place, scale, notes.append) if point.place else None for point in points]
    asking_for = [corner for corner in corners if corner is not None]

    def check(store: pathlib.Path, layers: Layers) -> None:
        notes.extend(other_layers(store, layers, file, scale) if file and not words.scale else [])

    found = [answers_of(program, store, asking_for, check) for store in words.store]
    for text in notes:
        print(text, file=sys.stderr)
    status = 0
    for text, is_answered in texts(points, corners, (sum(own, []) for own in zip(*found, strict=True)), scale):
        print(text)
        status = status if is_answered else 1
    return status


@subcommand(
    __doc__, argument("numbers", metavar="[X Y]", nargs=-1),
    option("--store", "a store; it is not changed", FILE, metavar="FILE", multiple=True, required=True),
    option("--points", "a point on each line; blank lines and # lines are passed over; - is standard input", FILE,
           metavar="FILE"),
    option("--scale", "what whole numbers mean (default: NAME.scale.json beside the store NAME.*)", FILE,
           metavar="FILE"), PROGRAM)
def command(words: Words) -> int:
    if len(words.numbers) != (2 if words.points is None else 0):
        raise click.UsageError("either a point X Y or --points FILE")
    try:
        return work(words)
    except Unusable as fault:
        print(fault, file=sys.stderr)
        return 1
