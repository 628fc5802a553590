"""Vector tiles (Mapbox Vector Tile 2.1) of polygons: all features of a tile at once by numpy, never one by one.

A tile of zoom z is a square of 512 dots of the screen, of which a unit of the layers has 2^z. Tile (0, 0) lies right of
and below the layers' (0, 0), x grows to the right and y downwards: so an address means the same whatever is added.
"""

import contextlib
from collections.abc import Sequence
from typing import NamedTuple

import numpy as np

from ..geometry.flat_arrays import Numbers, offsets, owners
from ..kernel.columns import of_bytes
from ..kernel.shapes import Shapes
from ..register.taking import read_all

DOTS, EXTENT, COARSE = 512, 4096, 1024  # a tile's side on the screen, and in its own numbers
FAR = 2**20  # of a tile's own numbers: what goes beyond is cut off out of sight
MARGIN = 64  # sides of a tile that are left about it then
MOVE, LINE, CLOSE = 1 << 3 | 1, 2, 1 << 3 | 7  # commands; LINE wants how many
ID, TAGS, KIND, GEOMETRY, POLYGON = 0x08, 0x12, 0x18, 0x22, 3


class Square(NamedTuple):
    """The box of a tile: least x, least y, greatest x, greatest y."""

    left: float
    low: float
    right: float
    high: float


def square(z: int, i: int, j: int) -> Square:
    """The box of a tile by its address."""
    side = DOTS / 2.0**z
    return Square(i * side, -(j + 1) * side, (i + 1) * side, -j * side)


def tile(name: str, fids: Sequence[int], shapes: Sequence[bytes | None], words: Sequence[str | None] | None,
         box: Square, extent: int = EXTENT) -> bytes:
    """A tile with one layer: features by their Well-Known Binary, and where words are given a property `name`. In
    coarse numbers many corners are one, and for neighbours alike."""
    points, sizes, counts = dots(near(shapes, box), box, extent)
    if not len(sizes):
        return b""
    kept = np.flatnonzero(counts)
    own = np.array(fids, np.int64)[kept]
    texts: dict[str, int] = {}
    tags = None if words is None else np.array([texts.setdefault(words[place] or "", len(texts))
                                                for place in kept.tolist()])
    body = features(own, tags, points, sizes, counts[kept])
    keys = field(3, b"name") if texts else b""
    values = b"".join(field(4, field(1, text.encode())) for text in texts)
    tail = np.array([5 << 3, extent, 15 << 3, 2])  # the extent, and the version of the standard
    return field(3, field(1, name.encode()) + body + keys + values + varints(tail, lengths(tail)))


def near(shapes: Sequence[bytes | None], box: Square) -> Shapes:
    """The rings of features; those that go too far from a box for a tile's numbers are cut off out of sight."""
    read, _ = read_all(of_bytes(shapes))
    side = box.right - box.left
    reach = FAR / EXTENT * side
    if not len(read.x) or max(read.x.max() - box.left, box.left - read.x.min(), read.y.max() - box.low,
                              box.low - read.y.min()) <= reach:
        return read
    is_far = (np.abs(read.x - box.left) > reach) | (np.abs(read.y - box.low) > reach)
    far = {*np.unique(owners(read.counts)[owners(read.sizes)[is_far]]).tolist()}
    edges = (box.left - MARGIN * side, box.low - MARGIN * side, box.right + MARGIN * side, box.high + MARGIN * side)
    own = [cut(shape or b"", edges) if place in far else shape for place, shape in enumerate(shapes)]
    return read_all(of_bytes(own))[0]


def cut(shape: bytes, edges: tuple[float, ...]) -> bytes | None:
    """What of a feature lies in a box, for the eye alone; None where GEOS has no answer."""
    from osgeo import ogr

    left, low, right, high = edges
    corners = ((left, low), (right, low), (right, high), (left, high), (left, low))
    frame = ogr.CreateGeometryFromWkt(f"POLYGON(({', '.join(f'{x} {y}' for x, y in corners)}))")
    found = ogr.CreateGeometryFromWkb(shape)
    for is_to_be_valid in (False, True):  # where it crosses itself, its even-odd inside
        with contextlib.suppress(RuntimeError, AttributeError):
            own = found.MakeValid() if is_to_be_valid else found
            return bytes(own.Intersection(frame).ExportToWkb())
    return None


def dots(read: Shapes, box: Square, extent: int) -> tuple[Numbers, Numbers, Numbers]:
    """Rings in the numbers of a tile: their points, of each ring how many, of each feature how many rings. A point that
    is the one after it goes, and so does a ring of less than three. Outer rings turn as the standard has it."""
    own: Numbers = np.stack([read.x - box.left, box.high - read.y])
    own *= extent / (box.right - box.left)
    at = np.rint(own, out=own).astype(np.int32)
    full = np.flatnonzero(read.sizes)  # a ring of one point has none without the closing one
    if not len(full):
        return at, full, np.zeros_like(read.counts)
    whole, feature = read.sizes[full], owners(read.counts)[full]
    after, begins = rolled(at, whole), offsets(whole)[:-1]
    stays = (at != after).any(0)
    sizes = np.add.reduceat(stays, begins, dtype=np.int64)
    good = sizes > 2
    x, y = at.astype(np.int64)
    is_back = (np.add.reduceat(x * after[1] - after[0] * y, begins) < 0) == read.is_outer[full]
    order = np.abs(np.repeat(np.where(is_back, 2 * begins + whole - 1, 0), whole) - np.arange(len(x)))
    stays &= np.repeat(good, whole)
    return at.take(order[stays[order]], axis=1), sizes[good], np.bincount(feature[good], minlength=len(read.counts))


def rolled(points: Numbers, sizes: Numbers) -> Numbers:
    """Of each point the one after it, round its ring."""
    begins, found = offsets(sizes), np.roll(points, -1, axis=1)
    found[:, begins[1:] - 1] = points[:, begins[:-1]]
    return found


def features(fids: Numbers, tags: Numbers | None, points: Numbers, sizes: Numbers, counts: Numbers) -> bytes:
    """The features of a layer. All of it is varints: of each feature a head, and of each ring MOVE, x, y, LINE, x, y ..
    and CLOSE, where x and y are steps from the point before."""
    begins, firsts = offsets(sizes)[:-1], offsets(counts)[:-1]  # of rings among points, of features among rings
    steps = points.copy()
    steps[:, 1:] -= points[:, :-1]
    steps[:, begins[firsts]] = points[:, begins[firsts]]
    zigzag = (steps << 1) ^ (steps >> 31)
    middle = [] if tags is None else [TAGS, 2, 0, tags]
    head = [0x12, 0, ID, fids, *middle, KIND, POLYGON, GEOMETRY, 0]
    spans = 2 * sizes + 3
    at = offsets(spans)[:-1] + len(head) * (owners(counts) + 1)  # where each ring begins
    is_small = int(fids.max()) < 2**31
    values: Numbers = np.empty(len(head) * len(fids) + int(spans.sum()), np.int32 if is_small else np.int64)
    place = np.repeat(at + 2 - 2 * begins, sizes) + 2 * np.arange(points.shape[1])
    place[begins] -= 1
    values[place], values[place + 1] = zigzag
    values[at], values[at + 3], values[at + spans - 1] = MOVE, (sizes - 1) << 3 | LINE, CLOSE
    heads = at[firsts] - len(head)
    for number, one in enumerate(head):
        values[heads + number] = one
    if tags is not None:
        values[heads + 5] = 1 + lengths(tags)
    wide = lengths(values)
    for number, before in ((len(head) - 1, len(head)), (1, 2)):  # bytes of the geometry, then of the feature
        own = np.add.reduceat(wide, heads) - sum(wide[heads + one] for one in range(before))
        values[heads + number], wide[heads + number] = own, lengths(own)
    return varints(values, wide)


def lengths(values: Numbers) -> Numbers:
    """The bytes of numbers as varints."""
    found: Numbers = np.ones(len(values), np.int32)
    for shift in range(7, int(values.max(initial=0)).bit_length(), 7):
        found += values >> shift > 0
    return found


def varints(values: Numbers, wide: Numbers) -> bytes:
    """Numbers as varints of so many bytes: a byte of each, then a second one of those that have it, and so on."""
    at: Numbers = np.cumsum(wide, dtype=np.int64)
    out: Numbers = np.empty(int(at[-1]), np.uint8)
    at -= wide
    part = values
    while len(part):
        out[at] = part
        more = np.flatnonzero(part > 127)
        at, part = at[more], part[more]
        out[at] |= np.uint8(128)
        at, part = at + 1, part >> 7
    made: bytes = out.tobytes()
    return made


def field(number: int, content: bytes) -> bytes:
    """A field of bytes; by plain Python, which is quicker for a short one."""
    head, size = bytearray([number << 3 | 2]), len(content)
    while size > 127:
        head.append(size & 127 | 128)
        size >>= 7
    return bytes(head) + bytes([size]) + content
