"""pairs: as geopandas.sjoin, with exact predicates and the area that both have in common."""

import geopandas
import numpy as np
import pandas as pd
from geopandas.tools.sjoin import _basic_checks, _frame_join

from ..geometry.flat_arrays import Numbers
from ..kernel import Wants
from ..kernel import overlay as pairs_of_maps
from ..kernel.overlaying import Overlay
from ..kernel.rows import Relation
from .asking import GridSize, asked, refusals_told
from .frames import Frame, column_of, faults_told, has_others, need_polygons, unit_of, with_told
from .pieces import answered

AREA, BOUND, RELATION = "shared_area", "shared_area_bound", "relation"
PLACES = "__place_left", "__place_right"  # by which the rows of a join are put in order
PREDICATES = {
    "intersects": [*Relation][1:],
    "shares_area": [*Relation][2:],
    "touches": [Relation.TOUCHES],
    "overlaps": [Relation.OVERLAPS],
    "within": [Relation.WITHIN, Relation.EQUALS],
    "covered_by": [Relation.WITHIN, Relation.EQUALS],
    "contains": [Relation.CONTAINS, Relation.EQUALS],
    "covers": [Relation.CONTAINS, Relation.EQUALS],
    "contains_properly": [Relation.CONTAINS],
    "equals": [Relation.EQUALS],
    "crosses": [],  # no two polygons do, as the standard says it
}


def pairs(left_df: Frame, right_df: Frame, how: str = "inner", predicate: str = "intersects", lsuffix: str = "left",
          rsuffix: str = "right", *, grid_size: GridSize = None, exact: str | None = None, others: str = "raise",
          square_metres: bool = False, program: str | None = None) -> Frame:
    """As geopandas.sjoin, with columns more: shared_area, in square units of the frames; shared_area_bound, by how much
    it may be off; relation. exact names a column for the area as a fraction. By square_metres frames in another unit
    are refused (NotInMetres).

    Beside sjoin's predicates: shares_area (an area in common, however small), equals. For two polygons within is
    covered_by, and contains is covers. Rows are in the order of the left frame, then of the right one; by how="right"
    of the right one first."""
    if predicate not in PREDICATES:
        raise ValueError(f"predicate: {predicate!r} is none of {', '.join(PREDICATES)}")
    _basic_checks(left_df, right_df, how, lsuffix, rsuffix)
    if others == "geopandas" and has_others(left_df, right_df):
        return geopandas.sjoin(left_df, right_df, how, predicate, lsuffix, rsuffix)
    need_polygons(left_df=left_df, right_df=right_df)
    columns = [AREA, BOUND, RELATION, *([] if exact is None else [exact])]
    need_free(columns, left_df=left_df, right_df=right_df)
    wants = Wants.NOTHING if exact is None else Wants.OUTLINES | Wants.FRACTIONS
    ask = asked(program, grid_size, unit_of(left_df, right_df, square_metres=square_metres), wants)
    with faults_told(left_df=left_df, right_df=right_df), refusals_told("pairs"):
        rows = answered(pairs_of_maps(column_of(left_df), column_of(right_df), ask), left_df.index, right_df.index)
    own = rows.part(chosen(rows, predicate))
    left, right = (frame.assign(**{name: range(len(frame))}) for name, frame in zip(PLACES, (left_df, right_df)))
    result = _frame_join(table(own, columns), left, right, how, lsuffix, rsuffix)
    result = result.sort_values([*(reversed(PLACES) if how == "right" else PLACES)], kind="stable")
    return with_told(result.drop(columns=[*PLACES]), rows.laid, left_df=left_df, right_df=right_df)


def need_free(columns: list[str], **frames: Frame) -> None:
    """Refuses frames that have such columns."""
    for name, frame in frames.items():
        taken = [column for column in columns if column in frame.columns]
        if taken:
            raise ValueError(f"'{taken[0]}' cannot be a name in the frames being joined, as {name} has it")


def chosen(rows: Overlay, predicate: str) -> Numbers:
    """The places of rows for which a predicate holds."""
    holds = np.isin(rows.relations(), PREDICATES[predicate])
    if predicate == "contains_properly":
        holds &= rows.rows["is_proper"] > 0
    return np.flatnonzero(holds)


def table(rows: Overlay, columns: list[str]) -> Frame:
    """What a join adds."""
    areas, words = rows.areas(), np.array([one.name.lower() for one in Relation], object)
    found = pd.DataFrame({"_key_left": rows.pairs[:, 0], "_key_right": rows.pairs[:, 1], AREA: areas.doubles(),
                          BOUND: areas.bounds(), RELATION: words[rows.relations()]})
    if rows.exact is not None:
        found[columns[-1]] = [twice / 2 / rows.laid.factor**2 for twice in rows.exact.tolist()]
    return found
