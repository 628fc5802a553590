"""What comes in a register's way, named one by one: each is told, nothing is lost, and work goes on after it."""

from __future__ import annotations

import contextlib
import json
import os
import random
import resource
import signal
import sqlite3
import subprocess
import time
import urllib.error
import urllib.request
from collections.abc import Callable, Iterator
from pathlib import Path

import pytest

from overlayd.register.auditing import audit
from overlayd.register.model import Refused
from overlayd.register.package import GeoPackage

from . import register_works as works
from .common import OVERLAY, SECONDS, SOURCES, Programs
from .register_works import PAIRS, Land, land
from .test_register_front import OWN, feature
from .test_register_transactions import box

pytestmark = pytest.mark.features
MEGABYTE = 1 << 20


@contextlib.contextmanager
def small_disk(folder: Path, size: int) -> Iterator[Path]:
    """A disk of so many bytes, which the root alone can have."""
    folder.mkdir()
    words = ["mount", "-t", "tmpfs", "-o", f"size={size}", "none", str(folder)]
    if os.geteuid() or subprocess.run(words, capture_output=True, check=False).returncode:
        pytest.skip("a disk of its own is not to be had")
    try:
        yield folder
    finally:
        subprocess.run(["umount", "-l", str(folder)], check=True)


@contextlib.contextmanager
def full(disk: Path) -> Iterator[None]:
    """A disk without a free byte."""
    ballast = disk / "ballast"
    with contextlib.suppress(OSError), ballast.open("wb", buffering=0) as file:
        for size in (MEGABYTE, 1024, 1):
            with contextlib.suppress(OSError):
                while file.write(bytes(size)):
                    pass
    try:
        yield
    finally:
        ballast.unlink()


@contextlib.contextmanager
def no_longer(process: int, size: int) -> Iterator[None]:
    """A process whose files cannot grow: a write beyond so many bytes fails."""
    before = resource.prlimit(process, resource.RLIMIT_FSIZE, (size, resource.RLIM_INFINITY))
    try:
        yield
    finally:
        resource.prlimit(process, resource.RLIMIT_FSIZE, before)


@contextlib.contextmanager
def served(own: Land) -> Iterator[tuple[subprocess.Popen[str], Callable[..., tuple[int, str]]]]:
    """A front by the command, and what it answers to a method, a page and a feature: status and body."""
    words = [*OVERLAY, "serve", str(own.path), "--writable", "--port", "0", "--program", str(Programs.features)]
    run = subprocess.Popen(words, stdout=subprocess.PIPE, text=True, env=SOURCES)
    assert run.stdout is not None
    address = run.stdout.readline().strip()

    def ask(method: str, page: str, body: object = None) -> tuple[int, str]:
        head = {"Content-Type": "application/geo+json", "Content-Crs": OWN["HTTP_CONTENT_CRS"]}
        data = None if body is None else json.dumps(body).encode()
        try:
            asked = urllib.request.Request(address + page, data, head, method=method)
            with urllib.request.urlopen(asked, timeout=SECONDS) as answer:
                return answer.status, answer.read().decode()
        except urllib.error.HTTPError as fault:
            return fault.code, fault.read().decode()

    try:
        yield run, ask
    finally:
        run.terminate()
        assert run.wait(SECONDS) == 0


def settled(own: Land) -> None:
    """Waits until nothing is pending, and compares with fractions."""
    end = time.monotonic() + SECONDS
    while own.ask("SELECT 1 FROM overlay_pending LIMIT 1") and time.monotonic() < end:
        time.sleep(0.1)
    works.check_tables(own, (PAIRS,))
    assert own.ask("PRAGMA integrity_check") == [("ok",)]


def large(corners: int) -> dict[str, object]:
    """A feature of so many corners."""
    top = [(EAST + place * 0.001, NORTH + 1 + place % 2 * 0.5) for place in range(corners)]
    return feature(works.polygon([(EAST, NORTH), *top[::-1], (EAST, NORTH)]), nr="large")


EAST, NORTH = works.EAST + 100, works.NORTH + 100


def test_the_front_answers_on_a_full_disk_at_failing_writes_and_for_large_features(tmp_path: Path) -> None:
    """Each is refused and nothing is changed; afterwards the same is taken, and tables follow."""
    with small_disk(tmp_path / "disk", 4 * MEGABYTE) as disk:
        own = land(disk / "land.gpkg", 3, (PAIRS,))
        new = {"changes": [{"insert": "parcels", "feature": feature(box(x, 0, x + 1, 1), nr="x" * 4000)}
                           for x in range(100, 160)]}
        before = works.features_in(own.path, "parcels")
        (disk / "read-land.gpkg").unlink()
        with served(own) as (run, ask):
            with full(disk):
                status, told = ask("POST", "transaction", new)
                assert status == 503 and "full" in told, told
                assert ask("GET", "collections/parcels/items/1")[0] == 200
            with no_longer(run.pid, 4096):
                status, told = ask("POST", "transaction", new)
                assert status == 503 and "disk I/O error" in told, told
                assert ask("GET", "collections/parcels/items/1")[0] == 200
            assert works.features_in(own.path, "parcels") == before
            (disk / "read-land.gpkg").unlink()
            assert [ask("POST", "collections/parcels/items", large(corners))[0] for corners in (20_000, 90_000)] == [
                201, 413]
            assert ask("POST", "transaction", new)[0] == 200
            settled(own)
            assert len(works.features_in(own.path, "parcels")) == len(before) + 61


def test_a_refresh_on_a_full_disk_leaves_all_as_it_was(tmp_path: Path) -> None:
    with small_disk(tmp_path / "disk", 3 * MEGABYTE) as disk:
        own = land(disk / "land.gpkg", 4)
        works.by_sql(own.path, random.Random(4), 30)
        own.register.engine.settle()
        before, pending = own.table("pz"), own.ask("SELECT * FROM overlay_pending")
        with full(disk), pytest.raises(sqlite3.OperationalError, match="full"):
            own.refresh()
        assert (own.table("pz"), own.ask("SELECT * FROM overlay_pending")) == (before, pending)
        assert own.refresh() == len(pending)
        works.check_tables(own)


def test_the_watch_of_a_front_is_begun_anew_where_it_was_killed(tmp_path: Path) -> None:
    own = land(tmp_path / "land.gpkg", 5, (PAIRS,))
    with served(own) as (run, ask):
        for number in range(2):
            (watch,) = {int(one) for path in Path(f"/proc/{run.pid}/task").glob("*/children")
                        for one in path.read_text().split()
                        if b"watch" in Path(f"/proc/{one}/cmdline").read_bytes().split(b"\0")}
            os.kill(watch, signal.SIGKILL)
            assert ask("POST", "collections/zones/items", feature(box(number, 0, 9, 9)))[0] == 201
            settled(own)


def test_a_column_is_deleted_by_the_command_and_edits_go_on(tmp_path: Path) -> None:
    own, draw = land(tmp_path / "land.gpkg", 6), random.Random(6)
    own.ask("ALTER TABLE parcels ADD COLUMN owner TEXT")
    own.refresh()
    with pytest.raises(sqlite3.OperationalError, match="owner"):
        own.ask("ALTER TABLE parcels DROP COLUMN owner")  # as the triggers name it
    for column in ("nr", "geom", "fid", "other"):  # nr is what users call parcels
        with pytest.raises(Refused, match=f"{column}: no column of parcels that may be deleted; there are owner"):
            own.register.delete_column("parcels", column)
    works.by_sql(own.path, draw, 5)
    own.register.delete_column("parcels", "owner")
    works.by_sql(own.path, draw, 5)
    own.refresh()
    works.check_tables(own)


def test_blobs_that_are_cut_off_anywhere_are_told_and_hold_up_nothing(tmp_path: Path) -> None:
    """Also where what writes looks at no geometry, and where the front shows them."""
    own, whole = land(tmp_path / "land.gpkg", 7), works.blob(box(0, 0, 9, 9))
    writer = sqlite3.connect(own.path, isolation_level=None)
    for name in ("ST_IsEmpty", "ST_MinX", "ST_MinY", "ST_MaxX", "ST_MaxY"):
        writer.create_function(name, 1, lambda _: 1)
    works.by_sql(own.path, random.Random(7), 3)
    writer.executemany("INSERT INTO parcels (fid, geom, nr) VALUES (?, ?, 'cut')",
                       [(1000 + size, whole[:size]) for size in range(len(whole))])
    own.refresh()
    told = own.ask("SELECT fid, what FROM overlay_problem WHERE fid >= 1000 ORDER BY fid")
    assert told == [(1000 + size, "unreadable") for size in range(len(whole))]
    assert all(one.is_right() for one in audit(own.register, own.program))
    with served(own) as (_, ask):
        status, text = ask("GET", "collections/parcels/items?limit=1000")
        found = {one["id"]: one["geometry"] for one in json.loads(text)["features"]}
        assert status == 200 and not any(found[1000 + size] for size in range(len(whole)))
        for page in ("map", "violations", "collections/parcels/shade", "tiles/parcels/-3/7812/-84376.mvt",
                     "collections/parcels/items/1050", "collections/parcels/items/1050/results"):
            assert ask("GET", page)[0] == 200, page
        assert ask("PATCH", "collections/parcels/items/1050", feature(box(0, 0, 9, 9)))[0] == 200
        assert ask("DELETE", "collections/parcels/items/1051")[0] == 200
    engine = GeoPackage(str(own.path), writes_layers=True)
    engine.ask("DELETE FROM parcels WHERE fid > 1050")
    engine.close()
    own.refresh()
