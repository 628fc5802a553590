"""Transactions of registers: what a land office makes in one change, what is refused whole, and what is taken back."""

import random
import sqlite3
from pathlib import Path

import pytest

from overlayd.register.blobs import bounds
from overlayd.register.lasting import lasting
from overlayd.register.model import Must, Refused
from overlayd.register.package import GeoPackage
from overlayd.register.registers import Register
from overlayd.register.ruling import add_rule, drop_rule
from overlayd.register.tables import Table, Unknown
from overlayd.register.transacting import Breaks, Change, Done, Stale, Unfit, What, transact, undo

from . import register_works as works
from . import slabs
from .register_works import Land, features_in, land
from .test_register_rules import ALL_RULES, check_rules, found as listed_of

pytestmark = pytest.mark.features
Corner = tuple[float, float]


def shape(*corners: Corner) -> bytes:
    """A polygon of corners in metres."""
    ring = [(works.EAST + x, works.NORTH + y) for x, y in corners]
    return works.polygon([*ring, ring[0]])


def box(low_x: float, low_y: float, high_x: float, high_y: float) -> bytes:
    """A rectangle of metres."""
    return shape((low_x, low_y), (high_x, low_y), (high_x, high_y), (low_x, high_y))


@pytest.fixture
def own(tmp_path: Path) -> Land:
    """Two rows of parcels over a zone, with rules of each kind."""
    made = land(tmp_path / "land.gpkg", 1, (), parcels=0, zones=0)
    made.register.engine.close()
    made.register = Register(GeoPackage(str(made.path), writes_layers=True))
    made.program = lasting(made.program)
    boxes = [box(x, y, x + 10, y + 10) for y in (0, 10) for x in (0, 10, 20)]
    told(made, *(Change(What.INSERT, "parcels", None, one, {"nr": f"p{place}"}) for place, one in enumerate(boxes, 1)))
    told(made, Change(What.INSERT, "zones", None, box(0, 0, 30, 20)))
    for must, a, b in ((Must.NOT_OVERLAP, "parcels", None), (Must.NOT_HAVE_GAPS, "parcels", None),
                       (Must.BE_COVERED, "zones", "parcels")):
        add_rule(made.register, must, a, b, made.program, reach=100_000)
    return made


def told(own: Land, *changes: Change, who: str | None = "anna") -> Done:
    return transact(own.register, own.program, changes, who)


def put(fid: int, new: bytes) -> Change:
    return Change(What.UPDATE, "parcels", fid, new)


def parcels(own: Land, name: str = "parcels") -> dict[int, tuple[bytes | None, str | None]]:
    """All parcels by their keys, or all zones."""
    table = Table(own.register.engine, own.register.layer(name))
    return {item.fid: (item.shape, item.values["nr"]) for item in table.page(0, 1000)}


WORKS = {
    "a parcel is split": (put(1, box(0, 0, 4, 10)), Change(What.INSERT, "parcels", None, box(4, 0, 10, 10))),
    "two are merged": (Change(What.DELETE, "parcels", 2), put(1, box(0, 0, 20, 10))),
    "a common border is moved": (put(1, box(0, 0, 7, 10)), put(2, box(7, 0, 20, 10))),
    "a corner of four is moved": (
        put(1, shape((0, 0), (10, 0), (9, 8), (0, 10))), put(2, shape((10, 0), (20, 0), (20, 10), (9, 8))),
        put(4, shape((0, 10), (9, 8), (10, 20), (0, 20))), put(5, shape((9, 8), (20, 10), (20, 20), (10, 20)))),
}


@pytest.mark.parametrize("name", WORKS)
def test_a_work_of_an_office_is_one_change(own: Land, name: str) -> None:
    """Each breaks a rule by any of its changes alone, and none in the end; so it is taken, and taken back whole."""
    before, zones, changes = parcels(own), parcels(own, "zones"), WORKS[name]
    for first in changes:
        with pytest.raises(Breaks):
            told(own, first)
    assert parcels(own) == before
    for order in (changes, changes[::-1]):
        done = told(own, *order)
        others = {*before.items()} ^ {*parcels(own).items()}, {*zones.items()} ^ {*parcels(own, "zones").items()}
        rows = own.ask("SELECT who, layer, fid FROM overlay_log WHERE change = ?", done.number)
        assert {*rows} == {("anna", layer, fid) for layer, some in zip(("parcels", "zones"), others) for fid, _ in some}
        assert len(rows) == len(done.features) >= len(changes)
        undo(own.register, own.program, done.number, "bert")
        assert (parcels(own), parcels(own, "zones")) == (before, zones)
    own.refresh()
    assert own.ask("SELECT count(*) FROM overlay_violation") == [(0,)]


def test_a_corner_on_a_slanted_border_is_taken_into_it(own: Land) -> None:
    """A split whose corner no whole point of the grid has exactly: without it in the neighbour's border a sliver is
    left, by fractions. The neighbour is part of the change, its other steps stay as they are, and nothing is left to
    take in."""
    slanted = put(1, shape((0, 0), (10, 0), (7, 10), (0, 10))), put(2, shape((10, 0), (20, 0), (20, 10), (7, 10)))
    told(own, *slanted)
    at = (10 - 3 * 0.3337, 3.337)  # on the border, but for the rounding of doubles
    lower, upper = shape((0, 0), (10, 0), at, (0, 4)), shape((0, 4), at, (7, 10), (0, 10))
    sides = features_in(own.path, "parcels")
    done = told(own, put(1, lower), Change(What.INSERT, "parcels", None, upper, {"nr": "p1b"}))
    new = features_in(own.path, "parcels")
    assert [(name, fid) for name, fid, _ in done.features][2:] == [("parcels", 2), ("zones", 1)]
    corner = (works.whole(works.EAST + at[0]), works.whole(works.NORTH + at[1]))
    assert corner[0] * 10 + (corner[1] - works.NORTH * 1000) * 3 != (works.EAST + 10) * 10_000  # beside the line
    for fid, names in ((2, {corner}), (1, {corner})):
        assert {*new[fid][0]} - {*sides[fid][0]} >= names
    assert slabs.area([[ring for one in new.values() for ring in one]], lambda states: states[0]) == \
        sum(slabs.area([one], lambda states: states[0]) for one in new.values()) == 600 * 1000**2
    other = told(own, Change(What.UPDATE, "parcels", 2, parcels(own)[2][0], {"nr": "again"}))
    assert [(name, fid) for name, fid, _ in other.features] == [("parcels", 2)]
    assert features_in(own.path, "parcels") == new
    for number in (other.number, done.number):
        undo(own.register, own.program, number)
    assert features_in(own.path, "parcels") == sides


def test_what_breaks_a_rule_is_told_with_pairs_areas_and_outlines(own: Land) -> None:
    before = parcels(own)
    with pytest.raises(Breaks) as fault:
        told(own, put(2, box(8, 0, 20, 10)), put(3, box(20, 0, 30, 7)))
    found = {str(one.rule): one for one in fault.value.found}
    assert {*found} == {"parcels must not overlap", "zones must be covered by parcels"}
    overlap, cover = (found[name] for name in sorted(found))
    assert [*overlap.violation][:6] == [1, 2, "p1", "p2", 20, pytest.approx(0, abs=1e-9)]
    assert overlap.new.width == pytest.approx(20 / 24)
    assert overlap.new.box() == pytest.approx((works.EAST + 8, works.NORTH, works.EAST + 10, works.NORTH + 10))
    assert (cover.violation.a, cover.violation.area) == (1, 30)
    assert parcels(own) == before and own.ask("SELECT who, change FROM overlay_who") == [(None, None)]


def test_a_gap_is_refused_where_it_is_made_and_where_it_grows(own: Land) -> None:
    told(own, *(Change(What.INSERT, "parcels", None, one) for one in (box(0, 20, 30, 30),)))
    hole = shape((10, 10), (20, 10), (20, 20), (15, 19), (10, 20))
    with pytest.raises(Breaks, match="must not have gaps"):
        told(own, Change(What.DELETE, "zones", 1), put(5, hole))
    own.register.engine.ask("UPDATE parcels SET geom = ? WHERE fid = 5", works.blob(hole))
    larger = shape((10, 10), (20, 10), (20, 20), (15, 18), (10, 20))
    with pytest.raises(Breaks) as fault:
        told(own, Change(What.DELETE, "zones", 1), put(5, larger))
    (gap,) = fault.value.found
    assert (gap.violation.area, gap.new.area) == pytest.approx((10, 5))
    told(own, put(5, shape((10, 10), (20, 10), (20, 20), (15, 19.5), (10, 20))))
    told(own, put(5, box(10, 10, 20, 20)))


def test_an_old_fault_blocks_no_work_near_it(own: Land) -> None:
    own.register.engine.ask("UPDATE parcels SET geom = ? WHERE fid = 2", works.blob(box(8, 0, 20, 10)))
    told(own, put(2, box(9, 0, 20, 10)))
    told(own, put(2, box(9, 0, 15, 10)), Change(What.INSERT, "parcels", None, box(15, 0, 20, 10)))
    told(own, put(1, box(0, 0, 10, 5)), Change(What.INSERT, "parcels", None, box(0, 5, 10, 10)))  # each has a part
    for x in (8.9, 8):
        with pytest.raises(Breaks):
            told(own, put(2, box(x, 0, 15, 10)))
    with pytest.raises(Breaks):  # a third one over the fault of two others
        told(own, Change(What.INSERT, "parcels", None, box(9, 1, 10, 2)))
    own.refresh()
    assert sorted(one.violation.area or 0 for one in listed_of(own, own.register.rules()[0])) == [5, 5]


def test_less_than_the_least_is_listed_and_not_refused(own: Land) -> None:
    told(own, put(2, box(9.999, 0, 20, 10)))
    own.refresh()
    (one,) = listed_of(own, own.register.rules()[0])
    assert one.violation.area == pytest.approx(0.01) and (one.violation.width or 1) < 0.001


def test_a_feature_that_was_changed_is_not_changed_again_unseen(own: Land) -> None:
    table = Table(own.register.engine, own.register.layer("parcels"))
    seen = table.item(1).etag()
    told(own, Change(What.UPDATE, "parcels", 1, None, {"nr": "other"}, seen))
    assert table.item(1).etag() != seen
    for what in (What.UPDATE, What.DELETE):
        with pytest.raises(Stale, match="has been changed since"):
            told(own, Change(what, "parcels", 1, None, {"nr": "third"} if what is What.UPDATE else {}, seen))
    assert table.item(1).values == {"nr": "other"}


def test_a_change_is_not_undone_over_a_later_one(own: Land) -> None:
    first = told(own, *WORKS["a common border is moved"])
    later = told(own, Change(What.UPDATE, "parcels", 2, None, {"nr": "new"}), who=None)
    with pytest.raises(Stale, match=f"feature 2 has been changed since, by change {later.number}"):
        undo(own.register, own.program, first.number)
    undo(own.register, own.program, later.number)
    undo(own.register, own.program, first.number)  # all is again as it has left it
    with pytest.raises(Unknown, match="no change in the log"):
        undo(own.register, own.program, 999)


def test_corners_that_a_later_change_has_taken_into_a_neighbour_hold_up_no_undo(own: Land) -> None:
    before, split = parcels(own), WORKS["a parcel is split"]
    first = told(own, *split)
    later = told(own, put(6, shape((20, 10), (30, 10), (30, 16), (30, 20), (20, 20))))  # the zone has another corner
    undo(own.register, own.program, first.number)
    assert {fid: one for fid, one in parcels(own).items() if fid != 6} == \
        {fid: one for fid, one in before.items() if fid != 6}
    drop_rule(own.register, 3)
    told(own, Change(What.UPDATE, "zones", 1, box(0, 0, 30, 22)))
    undo(own.register, own.program, later.number)
    assert parcels(own) == before and bounds(parcels(own, "zones")[1][0] or b"") == bounds(box(0, 0, 30, 22))


def test_an_edit_made_elsewhere_is_a_change_of_one_row(own: Land) -> None:
    before = parcels(own)
    own.register.engine.ask("UPDATE parcels SET fid = 99, nr = 'moved' WHERE fid = 3")
    own.register.engine.ask("DELETE FROM parcels WHERE fid = 6")
    rows = own.ask("SELECT id, change FROM overlay_log ORDER BY id DESC LIMIT 2")
    for number, change in rows:
        assert change is None
        undo(own.register, own.program, number)
    assert parcels(own) == before


def test_an_undo_is_judged_by_the_rules_as_any_change(own: Land) -> None:
    done = told(own, *WORKS["a parcel is split"])
    new = max(parcels(own))
    told(own, put(2, box(10, 0, 20, 10)), Change(What.DELETE, "zones", 1))
    other = told(own, Change(What.INSERT, "parcels", None, box(30, 0, 40, 10)))
    own.register.engine.ask("UPDATE parcels SET geom = ? WHERE fid = 3", works.blob(box(20, 0, 30, 8)))
    assert undo(own.register, own.program, other.number).features == [("parcels", new + 1, None)]
    undo(own.register, own.program, done.number)
    gone = told(own, Change(What.DELETE, "parcels", 4))
    told(own, Change(What.INSERT, "parcels", None, box(0, 10, 10, 20)))
    with pytest.raises(Breaks):
        undo(own.register, own.program, gone.number)


@pytest.mark.parametrize("change, kind, told_of", [
    (Change(What.UPDATE, "parcels", 77, box(0, 0, 1, 1)), Unknown, "no feature 77"),
    (Change(What.UPDATE, "fields", 1, box(0, 0, 1, 1)), Refused, "fields: no layer"),
    (Change(What.UPDATE, "parcels", 1, None, {"owner": "x"}), Refused, "has no owner: it has nr"),
    (put(1, works.polygon([])), Unfit, "empty"), (put(1, b"\1\3"), Unfit, "unreadable"),
    (put(1, shape((0, 0), (1e15, 0), (0, 1))), Unfit, "out of range"),
    (put(1, shape((0, 0), (1, 0), (0, 0))), Unfit, "nothing is left|enclose nothing"),
    (Change(What.INSERT, "parcels", 2, box(50, 0, 51, 1)), Refused, "UNIQUE"),
    (Change(What.INSERT, "parcels", None, box(50, 0, 51, 1), {"nr": 2**70}), Refused, "too large"),
])
def test_what_cannot_be_is_refused_by_name(own: Land, change: Change, kind: type[Exception], told_of: str) -> None:
    before, log = parcels(own), own.ask("SELECT count(*) FROM overlay_log")
    with pytest.raises(kind, match=told_of):
        told(own, put(1, box(0, 0, 10, 10)), change)
    assert (parcels(own), own.ask("SELECT count(*) FROM overlay_log")) == (before, log)


def test_a_shape_off_the_grid_is_written_on_it(own: Land) -> None:
    done = told(own, Change(What.INSERT, "parcels", None, box(30.00049, 0, 40.0003, 10.0001)))
    ((_, fid, item),) = done.features
    assert item is not None and works.rings_of(item.shape or b"") == works.rings_of(box(30, 0, 40, 10))
    own.refresh()
    assert own.ask("SELECT * FROM overlay_problem WHERE fid = ?", fid) == []


def test_all_digits_of_a_value_come_back(own: Land) -> None:
    own.register.engine.ask("ALTER TABLE parcels ADD COLUMN part DOUBLE")
    own.refresh()
    told(own, Change(What.UPDATE, "parcels", 1, None, {"part": 0.1 + 0.2}))
    for value in (7, None, 1e300, float("inf")):
        done = told(own, Change(What.UPDATE, "parcels", 1, None, {"part": value}))
        undo(own.register, own.program, done.number)
        assert own.ask("SELECT part FROM parcels WHERE fid = 1") == [(0.1 + 0.2,)]


def test_another_who_writes_waits_for_a_change_and_a_fault_leaves_nothing(own: Land) -> None:
    other = GeoPackage(str(own.path), writes_layers=True, patience=0.1)

    def fails() -> None:
        with pytest.raises(sqlite3.OperationalError, match="locked"):
            other.ask("DELETE FROM parcels WHERE fid = 3")
        raise OSError("no more")

    before = parcels(own)
    with pytest.raises(OSError, match="no more"):
        transact(own.register, own.program, WORKS["two are merged"], "anna", fails)
    assert parcels(own) == before and own.ask("SELECT who, change FROM overlay_who") == [(None, None)]


@pytest.mark.parametrize("seed", range(2))
def test_random_changes_leave_no_rule_broken_that_held(tmp_path: Path, seed: int) -> None:
    """Random moves: those that are taken make no overlap and no gap, by fractions and shapely."""
    own = land(tmp_path / "land.gpkg", seed, (), parcels=0, zones=0)
    own.register = Register(GeoPackage(str(own.path), writes_layers=True))
    own.program = lasting(own.program)
    rules = [add_rule(own.register, must, a, b, own.program, 0.0, 10**6) for must, a, b in ALL_RULES]
    draw, taken, refused = random.Random(seed), 0, 0
    for _ in range(30):
        fids = [*parcels(own)]
        new = Change(What.INSERT, draw.choice(("parcels", "parcels", "zones")), None, works.drawn(draw, 12))
        if fids and draw.random() < 0.4:
            new = put(draw.choice(fids), works.drawn(draw, 12))
        try:
            told(own, new)
            taken += 1
        except Breaks:
            refused += 1
    own.refresh()
    assert taken > 3 and refused > 3
    check_rules(own, rules)
    assert own.ask("SELECT count(*) FROM overlay_violation") == [(0,)]


TO_FORM_2 = (
    "DROP VIEW overlay_violation_map", "DROP TABLE overlay_outline", "DROP INDEX overlay_violation_width",
    "ALTER TABLE overlay_layer DROP COLUMN since", "UPDATE overlay_state SET form = 2",
    *(f"DELETE FROM {name} WHERE table_name = 'overlay_violation_map'" for name in (
        "gpkg_geometry_columns", "gpkg_contents")))


def test_tables_of_the_version_before_get_rules_and_their_triggers(own: Land) -> None:
    engine = own.register.engine
    for rule in own.register.rules():
        drop_rule(own.register, rule.number)
    for text in (*TO_FORM_2, "DROP TABLE overlay_rule", "DROP TABLE overlay_violation", "DROP INDEX overlay_log_change",
                 "DROP INDEX overlay_log_fid", "UPDATE overlay_state SET form = 1",
                 "DROP TRIGGER overlay_parcels_update",
                 "DELETE FROM gpkg_contents WHERE table_name IN ('overlay_rule', 'overlay_violation')"):
        engine.ask(text)
    with pytest.raises(Refused, match="tables of version 1, and not 3"):
        own.register.need()
    assert own.register.upgrade() and not own.register.upgrade()
    assert own.ask("SELECT since FROM overlay_layer") == own.ask("SELECT min(at) FROM overlay_log GROUP BY layer")
    add_rule(own.register, Must.NOT_OVERLAP, "parcels", None, own.program)
    with pytest.raises(Breaks):
        told(own, put(2, box(8, 0, 20, 10)))
    undo(own.register, own.program, told(own, put(2, box(10, 0, 19, 10))).number)


def test_tables_of_the_last_version_get_a_history_and_a_layer_of_violations(own: Land) -> None:
    wanted = own.ask("SELECT type, name FROM sqlite_master ORDER BY 2")
    for text in TO_FORM_2:
        own.ask(text)
    assert own.register.upgrade()
    assert own.ask("SELECT type, name FROM sqlite_master ORDER BY 2") == wanted
    assert own.ask("SELECT count(*) FROM overlay_layer WHERE since IS NULL") == [(0,)]
    told(own, *WORKS["a parcel is split"])
