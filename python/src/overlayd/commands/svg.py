"""Draws a layer of overlayd: base edges thin, its boundary bold, its inside shaded, the columns of its tiles.

    overlay svg --store map.db --layer I > picture.svg
    overlay svg --store map.db --layer I --points 60 > points.svg

The base layers are those that the layer's definition reaches, filled by even-odd. Above each column is its number
and how many pieces its tile has. With --points N are drawn: full where in, a ring where edge, small where out.
Where a scale is there, a bar of it and the corners of the picture are reported. Coordinates of the picture are rounded
to a hundredth of a unit.

Status 0: the picture is whole; 1: it is not, there is none, or it cannot be written."""

import contextlib
import html
import math
import sys
from typing import Any

import click

from ..geometry.areas import Ring
from ..grid import limits, scale as scales
from ..program import Piece, Point as Corner, Refused, Session
from ..program_files import found_program
from ..store.layers import Columns, Layers, columns_of, pieces_of
from ..store.opening import opened
from ..words import Words, option, subcommand
from . import store_layers
from .store_layers import Map

Grid = tuple[int, int, int, list[str]]  # x, y, step, rows

COLOURS = ("#1f77b4", "#d9730d", "#2a8f4d", "#9c3fb0", "#8a6d3b", "#0f8b8d", "#c2407a", "#5c6470")
INK = "#111111"
HEAD = 40
SIDE = 14
LINE = 18


class View:
    """The part of the plane that is shown, and where it is in the picture."""

    def __init__(self, points: list[Any], width: int) -> None:
        if not points:
            points = [(-limits.COORDINATE_MAX, -limits.COORDINATE_MAX), (limits.COORDINATE_MAX, limits.COORDINATE_MAX)]
        self.left, self.right = min(x for x, _ in points), max(x for x, _ in points)
        self.low, self.high = min(y for _, y in points), max(y for _, y in points)
        margin = max(self.right - self.left, self.high - self.low, 1) / 40
        self.left, self.right = self.left - margin, self.right + margin
        self.low, self.high = self.low - margin, self.high + margin
        self.scale = (width - 2 * SIDE) / (self.right - self.left)
        self.width = width
        self.bottom = HEAD + (self.high - self.low) * self.scale

    def x(self, x: float) -> str:
        return number(SIDE + (x - self.left) * self.scale)

    def y(self, y: float) -> str:
        return number(HEAD + (self.high - y) * self.scale)

    def place(self, point: Corner) -> str:
        """A point (X, Y, W) as two numbers of the picture."""
        return f"{self.x(point[0] / point[2])} {self.y(point[1] / point[2])}"


def number(value: float) -> str:
    """Two digits after the point, zeros at the end dropped."""
    text = f"{value:.2f}".rstrip("0").rstrip(".")
    return "0" if text == "-0" else text


def ring_path(view: View, points: list[Corner]) -> str:
    """A closed path through points (X, Y, W)."""
    return "M" + "L".join(view.place(point) for point in points) + "Z"


def base_layer(view: View, rings: list[list[tuple[int, int]]], colour: str) -> str:
    """The rings of a base layer, thin, and their even-odd inside."""
    path = "".join(ring_path(view, [(x, y, 1) for x, y in ring[:-1]]) for ring in rings)
    return (f'<path d="{path}" fill="{colour}" fill-opacity="0.13" fill-rule="evenodd" '
            f'stroke="{colour}" stroke-width="0.9"/>')


def boundary(view: View, pieces: list[Piece], polygons: list[list[Ring]] | None) -> str:
    """The boundary, bold: as filled rings where they are known, else piece by piece."""
    style = f'stroke="{INK}" stroke-width="2.2" stroke-linejoin="round" stroke-linecap="round"'
    if polygons is None:
        path = "".join(f"M{view.place(a)}L{view.place(b)}" for a, b in pieces)
        return f'<path d="{path}" fill="none" {style}/>'
    path = "".join(ring_path(view, ring.corners) for polygon in polygons for ring in polygon)
    return f'<path d="{path}" fill="{INK}" fill-opacity="0.12" fill-rule="evenodd" {style}/>'


def columns(view: View, counts: list[int | str]) -> list[str]:
    """The borders of the columns in view, and above each column its number and its tile's pieces."""
    found = []
    for column in range(limits.COLUMNS):
        begin = limits.column_begin(column)
        end = begin + limits.COLUMN_WIDTH if column < limits.COLUMNS - 1 else begin
        if view.left <= begin <= view.right:
            x = view.x(begin)
            found.append(f'<path d="M{x} {HEAD - 6}V{number(view.bottom)}" stroke="#999999" stroke-width="0.7" '
                         'stroke-dasharray="4 4"/>')
        if end < view.left or begin > view.right:
            continue
        middle = (max(begin, view.left) + min(end, view.right)) / 2
        across = float(view.x(min(end, view.right))) - float(view.x(max(begin, view.left)))
        text = f"{column}: {counts[column]}" if across >= 30 else ""
        if across >= 110:
            text = f"column {column}: {counts[column]} pieces" if counts[column] != 1 else f"column {column}: 1 piece"
        if text:
            found.append(f'<text x="{view.x(middle)}" y="{HEAD - 12}" text-anchor="middle" fill="#666666">'
                         f'{text}</text>')
    return found


def grid_points(view: View, grid: Grid) -> list[str]:
    """The points of a GRID reply."""
    x, y, step, rows = grid
    found = []
    for j, row in enumerate(rows):
        for i, answer in enumerate(row):
            look = {"#": f'r="2" fill="{INK}"', "+": f'r="2.2" fill="#ffffff" stroke="{INK}"'}
            style = look.get(answer, 'r="0.7" fill="#999999"')
            found.append(f'<circle cx="{view.x(x + i * step)}" cy="{view.y(y + j * step)}" {style}/>')
    return found


def legend(view: View, names: list[str], text: str) -> tuple[list[str], float]:
    """A line for each base layer with its colour, and one for the layer."""
    found, y = [], view.bottom + LINE
    entries = [(name, COLOURS[i % len(COLOURS)], 0.9) for i, name in enumerate(names)] + [(text, INK, 2.2)]
    for name, colour, width in entries:
        found.append(f'<path d="M{SIDE} {number(y - 4)}h26" stroke="{colour}" stroke-width="{width}"/>')
        found.append(f'<text x="{SIDE + 34}" y="{number(y)}" fill="{colour}">{html.escape(name)}</text>')
        y += LINE
    return found, y


def corners(view: View, scale: scales.Scale) -> str:
    """The places of the world in the lower left and the upper right of the picture, to a hundredth of its width."""
    digits = max(0, 2 - math.floor(math.log10((view.right - view.left) / float(scale.factor))))
    places = [scale.world((round(x), round(y), 1)) for x, y in ((view.left, view.low), (view.right, view.high))]
    texts = [" ".join(scales.decimals(part, digits) for part in place) for place in places]
    return f"lower left {texts[0]}, upper right {texts[1]}"


def bar(view: View, scale: scales.Scale, y: float) -> list[str]:
    """A bar, 1, 2 or 5 times a power of ten long in the world's unit, and the picture's corners."""
    length = (view.right - view.left) / float(scale.factor) / 5
    power = 10.0 ** math.floor(math.log10(length))
    length = max(step * power for step in (1, 2, 5) if step * power <= length)
    right = number(SIDE + length * float(scale.factor) * view.scale)
    text = f"{length:.10g} {scale.unit}".removesuffix(" 1")
    return [f'<path d="M{SIDE} {number(y - 8)}v4H{right}v-4" fill="none" stroke="{INK}" stroke-width="1.2"/>',
            f'<text x="{number(float(right) + 8)}" y="{number(y)}" fill="{INK}">'
            f'{html.escape(text)}; {corners(view, scale)}</text>']


def picture(layers: Layers, layer: str, answers: Columns, polygons: list[list[Ring]] | None, width: int,
            scale: scales.Scale | None = None, grid: Grid | None = None) -> str:
    """The whole picture of a layer, as text; without polygons its boundary is not filled."""
    pieces, _ = pieces_of(answers)
    counts: list[int | str] = ["?" if isinstance(answer, str) else len(answer) for answer in answers]
    names = layers.base_in_reach(layer)
    points: list[Any] = [point for name in names for ring in layers.base[name] for point in ring]
    view = View(points + [(x / w, y / w) for piece in pieces for x, y, w in piece], width)
    body = columns(view, counts)
    body += [base_layer(view, layers.base[name], COLOURS[i % len(COLOURS)]) for i, name in enumerate(names)]
    body.append(boundary(view, pieces, polygons))
    body += grid_points(view, grid) if grid else []
    text = f"{layer} = {layers.definitions[layer]}" if layer in layers.definitions else f"boundary of {layer}"
    lines, end = legend(view, names, text)
    if scale:
        lines += bar(view, scale, end)
        end += LINE
    height = number(end)
    head = (f'<svg xmlns="http://www.w3.org/2000/svg" width="{width}" height="{height}" '
            f'viewBox="0 0 {width} {height}" font-family="sans-serif" font-size="12">')
    return "\n".join([head, '<rect width="100%" height="100%" fill="#ffffff"/>'] + body + lines + ["</svg>", ""])


def grid_for(layers: Layers, count: int) -> tuple[int, int, int, int, int] | None:
    """A GRID of about so many points across, over all base layers, as x, y, step, nx, ny."""
    points = [point for rings in layers.base.values() for ring in rings for point in ring]
    if not points:
        return None
    left, low = min(x for x, _ in points), min(y for _, y in points)
    across, up = max(x for x, _ in points) - left, max(y for _, y in points) - low
    step = max(1, -(-max(across, up) // count))
    return (left, low, step, min(limits.GRID_MAX, across // step + 1), min(limits.GRID_MAX, up // step + 1))


@subcommand(
    __doc__, *store_layers.words(),
    option("--points", f"ask for a GRID of about N points across (1 to {limits.GRID_MAX}), and draw it",
           click.IntRange(1, limits.GRID_MAX), metavar="N"),
    option("--width", "of the picture, 100 or more (default 800)", click.IntRange(100), default=800),
    *store_layers.scale_words())
def command(words: Words) -> int:
    answers, grids = Columns(), list[Grid]()

    def ask(session: Session, layers: Layers, names: list[str]) -> None:
        (name,) = names
        answers.extend(columns_in(session, layers, name, words.program or found_program()))
        if words.points and (question := grid_for(layers, words.points)):
            with contextlib.suppress(Refused):
                grids.append((*question[:3], session.grid(name, *question)))

    def write(found: Map, _: Words) -> int:
        (layer,) = found.names
        faults = [f"{layer}: it gave no grid"] * (bool(words.points) and not grids)
        faults += [f"{layer}: column {column} is not drawn: {reason}" for column, reason in pieces_of(answers)[1]]
        polygons = None if any(isinstance(answer, str) for answer in answers) else found.polygons(layer)
        scale = found.scale if found.scaled_by or words.factor or words.origin else None
        sys.stdout.write(picture(found.layers, layer, answers, polygons, words.width, scale, *grids))
        for text in faults:
            print(text, file=sys.stderr)
        return 1 if faults else 0

    return store_layers.run(words, write, more=ask)


def columns_in(session: Session, layers: Layers, name: str, program: str) -> Columns:
    """The columns of a layer. Those of a base layer are asked in memory, of a definition that is its name alone."""
    if name in layers.definitions:
        return columns_of(session, name)
    (text,) = (one.text for one in session.layers() if one.name == name)
    with opened(program) as memory:
        return columns_of(memory, "asked", [f"PUT given {text}", "DEFINE asked = given"])
