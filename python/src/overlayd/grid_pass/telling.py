"""The one line that says what the grid does to maps."""

from collections.abc import Sequence
from fractions import Fraction

from .default_grid import Choice
from .onto_grid import OnGrid


def grid_line(done: Sequence[OnGrid], factor: Fraction, unit: str, choice: Choice | None = None) -> str:
    """What grid, how far the farthest coordinate moves, corners taken in, edges bent, rings collapsed."""
    parts = [moved(done, factor, unit)]
    if taken := sum(one.taken for one in done):
        parts.append(f"{taken} corners that lay on a neighbour's border stay on it")
    if bends := sum(one.bends for one in done):
        edges = sum(one.bent for one in done)
        parts.append(f"{edges} long edges bent at {bends} places, by at most half a unit of the grid")
    if gone := sum(len(one.collapsed) for one in done):
        parts.append(f"{gone} rings collapsed")
    if choice is not None and choice.is_coarser():
        parts.append(f"1e-{choice.asked} would bend more edges than there are corners; --grid 1e-{choice.asked} has it")
    return "; ".join(parts)


def moved(done: Sequence[OnGrid], factor: Fraction, unit: str) -> str:
    """What rounding does."""
    farthest = max((one.moved for one in done), default=0.0)
    grid = spelled(1 / factor)
    if farthest == 0:
        return f"nothing is rounded: all coordinates lie on the grid of {grid} {unit}"
    return f"rounded to {grid} {unit}: no border moves by more than {farthest / float(factor):.1g} an axis"


def spelled(grid: Fraction) -> str:
    """A grid's unit as people write it."""
    return f"{float(grid):g}"
