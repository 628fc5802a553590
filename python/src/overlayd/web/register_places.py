"""Which features of a layer have a point: asked of the proved program."""

import math
from fractions import Fraction

import numpy as np

from .. import grid
from ..geometry.plane import EDGE, IN
from ..kernel.blocks import Asked, Kind, block, locate_job
from ..kernel.columns import of_bytes
from ..register.answers import Program
from ..register.registers import Register
from ..register.tables import Item, Table
from ..register.taking import taken

MOST = 1000  # features whose boxes have a point
WEIGHT_MOST = 2**42
PLACES = {1: IN, 2: EDGE}


def place_of(register: Register, name: str, program: Program, x: Fraction, y: Fraction) -> list[tuple[Item, str]]:
    """The features that have a point of the register's system, and whether it is on their edge."""
    table = Table(register.engine, register.layer(name))
    at = (float(x), float(y), float(x), float(y))
    rows = table.page(0, MOST, at)
    features = taken(of_bytes([row.shape for row in rows]), program.factor).features
    live = np.flatnonzero(features.points() > 0)
    point = [np.array([own]) for own in asked_at(x * program.factor, y * program.factor)]
    if not len(live):
        return []
    jobs = np.concatenate([locate_job(place, *point) for place in range(len(live))])
    (found,) = program.ask.rows([block(features.part(live), Asked(Kind.LOCATE, jobs, len(live)))], 1)
    return [(rows[place], PLACES[own]) for place, own in zip(live.tolist(), found.rows["place"].tolist())
            if own in PLACES]


def asked_at(x: Fraction, y: Fraction) -> tuple[int, int, int]:
    """A place in units of the grid as x, y and w of (x / w, y / w), or the nearest that can be asked."""
    both = math.lcm(x.denominator, y.denominator)
    w = both if both <= WEIGHT_MOST // 2 and max(abs(x), abs(y)) * both < 2**62 else 1
    return grid.nearest(x * w), grid.nearest(y * w), w
