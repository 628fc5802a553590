"""Reads a store's file as docs/FORMAT.md says it: beside the program, not of it. Expressions and texts are model.py's.

    python3 -m overlayd_lab.reference.read_store FILE

Prints what the file stands for: `version N`; a line `layer NAME TEXT` or `layer NAME = EXPRESSION` for each
layer in order; a line `tile NAME COLUMN PIECES` or `tile NAME COLUMN oversize` for each finished tile, by layer and
column. Of a file with a fault it prints the first one, `32` or `33 CODE`, and ends with status 1."""

import fractions
import functools
import pathlib
import re
import sys
from collections.abc import Callable
from typing import Any, NamedTuple, Union

from overlayd.grid.limits import COLUMNS, COLUMN_WIDTH, COORDINATE_MAX, LAYERS_MAX, PIECES_MAX, STEPS_MAX
from overlayd_lab import TOP
from overlayd_lab.counting import Words
from overlayd_lab.reference import model

BLOCK = 4096
GATE_OPEN = 0xA7
MAGIC = b"OVLSTORE"
NUMBER_MAX = 2**62
FORMAT, OLD_FORMAT, OLD_COLUMNS = 2, 1, 17
FORMAT_PAGE = TOP / "docs" / "FORMAT.md"

Number = Union[int, fractions.Fraction]
Point = tuple[Number, Number]
Rings = list[list[Point]]
# How many pieces a tile has, or that it is oversize.
Pieces = Union[int, str]


class Extent(NamedTuple):
    """The blocks of a record: the first, and its bytes."""

    block: int
    size: int


class Root(NamedTuple):
    """What names a version: its format, sequence, number and catalog."""

    format: int
    sequence: int
    version: int
    catalog: Extent


class Listed(NamedTuple):
    """A layer of a catalog; of a base layer tiles is None."""

    name: bytes
    record: Extent
    tiles: list[Extent | None] | None


class Segment(NamedTuple):
    """Two points, the left one first."""

    left: Point
    right: Point


class Damage(Exception):
    """The first fault of a file, as it is printed."""


class NotOfTheForm(Exception):
    """Bytes that are no record of their kind."""


class Bytes:
    """The bytes of a record, read from the front."""

    def __init__(self, data: bytes) -> None:
        self.data = data
        self.at = 0

    def take(self, size: int) -> bytes:
        """The next bytes."""
        if len(self.data) - self.at < size:
            raise NotOfTheForm
        self.at += size
        return self.data[self.at - size : self.at]

    def number(self, size: int) -> int:
        """The next bytes as a whole number without a sign."""
        return int.from_bytes(self.take(size), "big")

    def one_of(self, *values: int) -> int:
        """The next byte, which has to be one of these."""
        value = self.number(1)
        if value not in values:
            raise NotOfTheForm
        return value

    def coordinate(self) -> int:
        """The next four bytes as a coordinate in the plane."""
        value = int.from_bytes(self.take(4), "big", signed=True)
        if abs(value) > COORDINATE_MAX:
            raise NotOfTheForm
        return value

    def point(self) -> Point:
        """Two coordinates."""
        return (self.coordinate(), self.coordinate())

    def extent(self) -> Extent:
        """The place of a record."""
        return Extent(self.number(8), self.number(4))

    def segment(self) -> Segment:
        """Two points, the left one first."""
        segment = Segment(self.point(), self.point())
        if not segment.left < segment.right:
            raise NotOfTheForm
        return segment

    def end(self) -> None:
        """Nothing may follow."""
        if self.at != len(self.data):
            raise NotOfTheForm


# ---- points: pairs of exact fractions, which Python compares by x, then by y


def border(column: int) -> int:
    """Where a column begins."""
    return COLUMN_WIDTH * column - COORDINATE_MAX


def direction(segment: Segment) -> Point:
    """From the left end to the right one."""
    return (segment.right[0] - segment.left[0], segment.right[1] - segment.left[1])


def turn(first: Point, second: Point) -> Number:
    """The cross product of two directions."""
    return first[0] * second[1] - first[1] * second[0]


def is_on(segment: Segment, point: Point) -> bool:
    """Whether a point is on a segment, its ends among them."""
    way = (point[0] - segment.left[0], point[1] - segment.left[1])
    return turn(direction(segment), way) == 0 and segment.left <= point <= segment.right


def part_way(segment: Segment, part: fractions.Fraction) -> Point:
    """The point that far from the left end to the right one."""
    along = direction(segment)
    return (segment.left[0] + along[0] * part, segment.left[1] + along[1] * part)


def crossing(first: Segment, second: Segment) -> Point:
    """The point that two segments have in common, which do not run the same way."""
    across = turn(direction(first), direction(second))
    if across == 0:
        raise NotOfTheForm
    gap = (second.left[0] - first.left[0], second.left[1] - first.left[1])
    point = part_way(first, fractions.Fraction(turn(gap, direction(second)), across))
    if not (is_on(first, point) and is_on(second, point)):
        raise NotOfTheForm
    return point


def cut(segment: Segment, column: int) -> Point:
    """Where a segment passes the border of a column."""
    if column >= COLUMNS or not segment.left[0] < border(column) < segment.right[0]:
        raise NotOfTheForm
    return part_way(segment, fractions.Fraction(border(column) - segment.left[0], direction(segment)[0]))


def named_point(data: Bytes) -> Point:
    """The point of a name."""
    tag = data.one_of(0, 1, 2)
    if tag == 0:
        return data.point()
    if tag == 1:
        return crossing(data.segment(), data.segment())
    return cut(data.segment(), data.number(1))


# ---- records


def read_catalog(record: bytes, written: int = FORMAT) -> list[Listed]:
    """The layers that are listed. In format 1 the tiles are those of other columns, and count as pending."""
    data, columns = Bytes(record), COLUMNS if written == FORMAT else OLD_COLUMNS
    listing = []
    for _ in range(data.number(2)):
        name = data.take(data.number(1))
        is_derived = data.one_of(0, 1)
        extent = data.extent()
        tiles = [data.extent() if data.one_of(0, 1) else None for _ in range(columns)] if is_derived else None
        if is_derived and written != FORMAT:
            tiles = [None] * COLUMNS
        listing.append(Listed(name, extent, tiles))
    data.end()
    return listing


def read_name(name: bytes) -> str:
    """The name of a layer."""
    try:
        return model.read_name(name)
    except model.Refused:
        raise NotOfTheForm from None


def read_base(record: bytes) -> Rings:
    """The rings of a base layer's record."""
    data = Bytes(record)
    rings: Rings = [[data.point() for _ in range(data.number(2))] for _ in range(data.number(2))]
    data.end()
    if any(len(ring) < 4 or ring[0] != ring[-1] for ring in rings):
        raise NotOfTheForm
    if sum(len(ring) - 1 for ring in rings) > STEPS_MAX:
        raise NotOfTheForm
    return rings


def read_definition(data: bytes) -> model.Tree:
    """The tree of a definition that is spelled as it would be written."""
    try:
        tree = model.read_expression(data)
    except model.Refused:
        raise NotOfTheForm from None
    if model.spelled(tree).encode() != data:
        raise NotOfTheForm
    return tree


def read_piece(data: Bytes) -> tuple[Point, Point]:
    """The ends of a piece, which lie on its support."""
    support = data.segment()
    ends = (named_point(data), named_point(data))
    if not (is_on(support, ends[0]) and is_on(support, ends[1]) and ends[0] < ends[1]):
        raise NotOfTheForm
    return ends


def read_tile(record: bytes, column: int) -> Pieces:
    """How many pieces a tile has, or `oversize`."""
    data = Bytes(record)
    is_oversize = data.one_of(0, 1)
    if data.number(1) != column:
        raise NotOfTheForm
    if is_oversize:
        data.end()
        return "oversize"
    count = data.number(4)
    if count > PIECES_MAX:
        raise NotOfTheForm
    last = None
    for _ in range(count):
        piece = read_piece(data)
        if not border(column) <= piece[0][0] < border(column + 1) or (last is not None and not last < piece):
            raise NotOfTheForm
        last = piece
    data.end()
    return count


# ---- the file


def is_open(data: bytes, slot: int) -> bool:
    """Whether the gate of a root slot is open."""
    return data[BLOCK * slot] == GATE_OPEN


def slot_root(data: bytes, slot: int) -> Root:
    """The root in an open slot."""
    body = Bytes(data[BLOCK * slot + 16 : BLOCK * slot + 64])
    body.take(len(MAGIC))
    written = body.number(4)
    if written not in (OLD_FORMAT, FORMAT):
        raise Damage("33 1")
    root = Root(written, body.number(8), body.number(8), body.extent())
    if root.sequence > NUMBER_MAX or root.version > NUMBER_MAX or root.sequence % 2 != slot:
        raise Damage("33 2")
    return root


def find_root(data: bytes) -> Root:
    """The root that stands: of the open slots the one with the greater sequence."""
    if len(data) < 2 * BLOCK:
        raise Damage("32")
    open_slots = [slot for slot in (0, 1) if is_open(data, slot)]
    if any(data[BLOCK * slot + 16 : BLOCK * slot + 24] != MAGIC for slot in open_slots):
        raise Damage("32")
    roots = [slot_root(data, slot) for slot in open_slots]
    if not roots:
        raise Damage("32")
    return max(roots, key=lambda root: root.sequence)


def blocks_of(extent: Extent) -> tuple[int, int]:
    """The blocks of an extent, from its first to the one after its last."""
    return (extent.block, extent.block + max(1, -(-extent.size // BLOCK)))


def record_at(data: bytes, extent: Extent, code: int) -> bytes:
    """The bytes of a record, or the damage with this code."""
    first, end = blocks_of(extent)
    if first < 2 or end > len(data) // BLOCK:
        raise Damage(f"33 {code}")
    return data[BLOCK * first : BLOCK * first + extent.size]


def formed(code: int, read: Callable[..., Any], *given: Any) -> Any:
    """What a reader of records gives, or that the record has not its form."""
    try:
        return read(*given)
    except NotOfTheForm:
        raise Damage(f"33 {code}") from None


def check_place_in_list(known: dict[bytes, Any], listed: Listed, content: Any) -> None:
    """Refuses a layer that no command could have put after the known ones."""
    formed(7, read_name, listed.name)
    if listed.name in known or len(known) >= LAYERS_MAX:
        raise Damage("33 7")
    if listed.tiles is not None and any(name.encode() not in known for name in model.leaves(content)):
        raise Damage("33 7")


def check_apart(extents: list[Extent]) -> None:
    """No two records may share a block."""
    runs = sorted(blocks_of(extent) for extent in extents)
    if any(after[0] < before[1] for before, after in zip(runs, runs[1:])):
        raise Damage("33 9")


def read_layers(data: bytes, listing: list[Listed]) -> tuple[dict[bytes, Any], list[tuple[bytes, int, Pieces]]]:
    """The layers by name, in order, and how many pieces each finished tile has, by layer and column."""
    layers: dict[bytes, Any] = {}
    tiles: list[tuple[bytes, int, Pieces]] = []
    for listed in listing:
        read = read_base if listed.tiles is None else read_definition
        content = formed(6, read, record_at(data, listed.record, 5))
        check_place_in_list(layers, listed, content)
        layers[listed.name] = content
        for column, extent in enumerate(listed.tiles or []):
            if extent is not None:
                tiles.append((listed.name, column, formed(8, read_tile, record_at(data, extent, 5), column)))
    return layers, tiles


def layer_line(name: bytes, content: Any) -> str:
    """A layer as LAYERS writes it."""
    text = model.wkt_of(tuple(map(tuple, content))) if isinstance(content, list) else f"= {model.spelled(content)}"
    return f"layer {name.decode()} {text}"


def reading(data: bytes) -> list[str]:
    """The lines that say what a file stands for."""
    root = find_root(data)
    listing = formed(4, read_catalog, record_at(data, root.catalog, 3), root.format)
    layers, tiles = read_layers(data, listing)
    extents = [extent for listed in listing for extent in [listed.record, *(listed.tiles or [])] if extent is not None]
    check_apart([root.catalog, *extents])
    lines = [f"version {root.version}"]
    lines += [layer_line(name, content) for name, content in layers.items()]
    lines += [f"tile {name.decode()} {column} {pieces}" for name, column, pieces in tiles]
    return lines


def summary(data: bytes) -> list[str]:
    """The lines that are printed of a file, faults too."""
    try:
        return reading(data)
    except Damage as fault:
        return [str(fault)]


@functools.lru_cache(maxsize=10000)
def tile_ends(record: bytes, column: int) -> list[tuple[Point, Point]] | None:
    """The ends of the pieces of a tile's record, None where it is oversize."""
    if read_tile(record, column) == "oversize":
        return None
    rest = Bytes(record)
    rest.take(2)
    return [read_piece(rest) for _ in range(rest.number(4))]


def tiles_in(data: bytes) -> dict[tuple[str, int], list[tuple[Point, Point]] | None]:
    """The finished tiles of a store, by layer and column."""
    root = find_root(data)
    tiles: dict[tuple[str, int], list[tuple[Point, Point]] | None] = {}
    for listed in read_catalog(record_at(data, root.catalog, 3), root.format):
        for column, extent in enumerate(listed.tiles or []):
            if extent is not None:
                tiles[listed.name.decode(), column] = tile_ends(record_at(data, extent, 5), column)
    return tiles


# ---- the vectors of docs/FORMAT.md


def table_behind(page: str, head: str) -> list[list[str]]:
    """The rows of the first table after some text, each as its cells."""
    lines = page[page.index(head) + len(head) :].splitlines()
    start = next(i for i, line in enumerate(lines) if line.startswith("|"))
    rows = []
    for line in lines[start:]:
        if not line.startswith("|"):
            break
        rows.append([cell.strip() for cell in line.strip("|").split("|")])
    return rows[2:]


def codes(cell: str) -> list[str]:
    """What a cell has in code."""
    return re.findall(r"`([^`]*)`", cell)


def changed(file: bytes, changes: list[str]) -> bytes:
    """A file with the bytes of some changes, each `place: bytes`, at their places."""
    data = bytearray(file)
    for change in changes:
        place, _, text = change.partition(": ")
        new = bytes.fromhex(text)
        data[int(place) : int(place) + len(new)] = new
    return bytes(data)


def vectors_of(page: str) -> list[bytes]:
    """The bytes that the page gives for a new store, for a layer and for a tile."""
    return [bytes.fromhex(codes(row[-1])[0]) for row in table_behind(page, "## Vectors")]


def six_blocks(vectors: list[bytes]) -> bytes:
    """The file of six blocks that the page describes."""
    first, empty, base, catalog, second, _, tile = vectors
    gate = bytes([GATE_OPEN]) + bytes(15)
    blocks = [gate + first, gate + second, empty, base, catalog, tile]
    return b"".join(block.ljust(BLOCK, b"\0") for block in blocks)


def main() -> int:
    """Reads a file, or the page."""
    parser = Words(__doc__)
    parser.add_argument("file", type=pathlib.Path)
    words = parser.parse_args()
    lines = summary(words.file.read_bytes())
    print("\n".join(lines))
    return 0 if lines[0].startswith("version") else 1


if __name__ == "__main__":
    sys.exit(main())
