"""Which grid a register gets where none is named: one for all its layers, by their own digits."""

from fractions import Fraction

import numpy as np

from ..grid_pass.default_grid import Given, Unit, choose
from .engines import Engine
from .taking import in_range, read_all

LEAST = Fraction(1)  # by which a coordinate is to be in range at all


def grid_for(engine: Engine, names: list[str]) -> Fraction:
    """How many units one of the layers' is."""
    given = []
    for name in names:
        read, _ = read_all(engine.features(engine.layer(name, None)).column())
        read, _ = in_range(read, LEAST)
        if len(read.x):
            given.append(Given(np.asarray(read.x), np.asarray(read.y), read.sizes, Unit.UNKNOWN))
    return choose(given).factor() if given else Fraction(1000)
