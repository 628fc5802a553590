"""What a change writes is put onto the grid together with what is near it: corners that come to lie on borders are
taken into these, those of neighbours among them, and so are corners on which new borders come to lie.

Steps that were there stay as they are, but those on which a new corner lies. So what features have in common stays in
common, and nothing is taken in twice.
"""

from collections.abc import Callable, Collection, Iterable, Mapping
from dataclasses import dataclass
from fractions import Fraction

import numpy as np

from ..geometry.flat_arrays import Numbers
from ..grid_pass.chains import Choice
from ..grid_pass.onto_grid import OnGrid, Placed, Rings, of_rings, snapped, together
from ..grid_pass.pixels import Hits, hot_of
from ..grid_pass.places import whole
from ..grid_pass.steps import Points, Steps
from ..kernel import features
from ..kernel.shapes import Shapes
from . import statements
from .engines import NOTHING, Engine, Found
from .model import Layer
from .snapping import changed, shaped
from .taking import in_range, off_grid, read_all

Corner = tuple[int, int]


@dataclass(frozen=True)
class Part:
    """Features, their rings, these in places, and as rounding alone leaves them."""

    found: Found
    read: Shapes
    placed: Placed
    plain: OnGrid

    def boxes(self) -> Numbers:
        rings = self.plain.rings
        return features.of_rings(rings.x, rings.y, rings.sizes, self.read.counts).boxes()


def part_of(found: Found, factor: Fraction) -> Part:
    """Features on a grid."""
    read, _ = in_range(read_all(found.column())[0], factor)
    placed = of_rings(Rings(read.x, read.y, read.sizes), factor)
    return Part(found, read, placed, snapped(placed, None))


def corners_in(points: Points) -> Iterable[Corner]:
    """Whole points one by one."""
    return zip(points.x.tolist(), points.y.tolist())


def steps_in(steps: Steps) -> list[frozenset[Corner]]:
    """Steps by their whole ends."""
    ends = [corners_in(Points(whole(x), whole(y))) for x, y in ((steps.ax, steps.ay), (steps.bx, steps.by))]
    return [frozenset(both) for both in zip(*ends)]


def only_takes(was: bytes | None, now: bytes | None, factor: Fraction) -> bool:
    """Whether a shape has nothing but corners on its borders that it had not."""
    before, after = ([ring.tolist() for ring in rings_of(part_of(Found([0], [one], [None]), factor))]
                     for one in (was, now))
    return len(before) == len(after) and all(map(is_along, before, after))


def rings_of(part: Part) -> list[Numbers]:
    """The corners of rings."""
    rings = part.plain.rings
    return np.split(np.stack([rings.x, rings.y], axis=1), np.cumsum(rings.sizes)[:-1])


def is_along(was: list[Corner], now: list[Corner]) -> bool:
    """Whether a ring has the corners of another in their order, and all others within a unit of its steps."""
    at = 0
    for x, y in now:
        (ax, ay), (bx, by) = was[at - 1], was[at % len(was)]
        dx, dy = bx - ax, by - ay
        if at < len(was) and (x, y) == (bx, by):
            at += 1
        elif abs(dx * (y - ay) - dy * (x - ax)) > abs(dx) + abs(dy) or not 0 <= dx * (x - ax) + dy * (y - ay) <= \
                dx * dx + dy * dy:
            return False
    return at == len(was)


def choice_of(new: Part, *before: Part) -> Callable[[Part], Choice]:
    """Which corners on a part's steps are taken into them: all that lie on a step that was not there before, or on one
    on which a new corner lies."""
    known = {step for part in before for step in steps_in(part.placed.steps)}
    old = {corner for part in before for corner in corners_in(part.placed.corners())}

    def chosen(part: Part) -> Choice:
        is_new = np.array([step not in known for step in steps_in(part.placed.steps)], bool)

        def of(hits: Hits) -> Numbers:
            live = is_new.copy()
            live[hits.step[np.array([corner in fresh for corner in corners_in(hits.at)], bool)]] = True
            found: Numbers = live[hits.step]
            return found

        return of

    fresh = {*corners_in(new.placed.corners())} - old
    return chosen


def taken_in(engine: Engine, layers: Mapping[str, Layer], factor: Fraction, given: Found,
             own: Mapping[str, Collection[int]]) -> tuple[dict[int, bytes], list[tuple[str, int, bytes]]]:
    """Of shapes that are to be written those that are others on the grid, by their places; and which features near
    them become others, but for those that get other shapes or go anyway: layer, key and shape."""
    new = part_of(given, factor)
    engine.ask(statements.NO_BOXES)
    engine.many(statements.ADD_BOX, ((new.boxes() + [-1, -1, 1, 1]) / float(factor)).tolist())
    near, keys = NOTHING, list[tuple[str, int]]()
    for name, layer in layers.items():
        found = engine.features_near(layer, waits=True)
        near = near.and_then(found)
        keys += [(name, fid) for fid in found.fids]
    is_own = np.array([fid in own.get(name, ()) for name, fid in keys], bool)
    stays, was = part_of(near.part(~is_own), factor), part_of(near.part(is_own), factor)
    chosen = choice_of(new, stays, was)
    hot = hot_of(together([one.placed.corners() for one in (new, stays)]), wide=False)

    def become(part: Part) -> dict[int, bytes]:
        rings = snapped(part.placed, hot, chosen(part)).rings
        return shaped(part.found, part.read, rings, factor, changed(part.read, part.plain.rings, rings))

    rounded = shaped(given, new.read, new.plain.rings, factor, off_grid(new.read, factor))
    others = [key for key, gone in zip(keys, is_own) if not gone]
    return rounded | become(new), [(*others[place], shape) for place, shape in become(stays).items()]
