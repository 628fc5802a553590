"""Replies as arrays, and the program as a process: by a stand-in that replies to blocks as the page on formats says."""

import signal
import subprocess
import sys
import threading
import time
from collections.abc import Iterator
from pathlib import Path

import numpy as np
import pytest
from osgeo import ogr

from overlayd.kernel.blocks import Asked, Kind, Wants, block
from overlayd.kernel.features import of_rings
from overlayd.kernel.rows import CELLS, PAIR, RINGS, BlockRefused, Relation, Rows, rows_of
from overlayd.kernel.running import Cancelled, ProgramEnded, run

from .common import children, is_running, wait_until

# What a stand-in does with the jobs of a block: it replies a row for each, waits, ends, or refuses the block.
STAND_IN = """#!{python}
import struct, sys, time
what = {what!r}
if what == "long":
    sys.stderr.write("x" * 1_000_000)
while head := sys.stdin.buffer.read(8):
    block = sys.stdin.buffer.read(int.from_bytes(head, "little") - 8)
    jobs = struct.unpack_from("<I", block, 32)[0]
    if what == "wait":
        time.sleep(600)
    if what == "end":
        sys.exit("error 40")
    fault = 75 if what == "refuse" else 0
    rows = b"" if fault else b"".join(struct.pack("<24I", 0, 2, *[0] * 14, jobs, *[0] * 7) for _ in range(jobs))
    size = 48 + len(rows) + 4
    head = struct.pack("<Q4s9I", size, b"OVFR", 1, 0, 0, len(rows) // 96, 0, 0, fault, 3, 0)
    sys.stdout.buffer.write(head + rows + b"OVFE")
    sys.stdout.buffer.flush()
"""


def stand_in(folder: Path, what: str) -> str:
    path = folder / what
    path.write_text(STAND_IN.format(python=sys.executable, what=what))
    path.chmod(0o700)
    return str(path)


def blocks(count: int, jobs: int = 2) -> Iterator[bytes]:
    corners = np.array([0, 9, 0, 0, 0, 9])
    feature = of_rings(corners[:3], corners[3:], np.array([3]), np.array([1]))
    for _ in range(count):
        yield block(feature, Asked(Kind.PAIR, np.zeros(2 * jobs, np.int64), jobs))


def test_rows_come_block_by_block_in_order(tmp_path: Path) -> None:
    found = list(run(stand_in(tmp_path, "reply"), blocks(300, 500)))
    assert [len(rows.rows) for rows in found] == 300 * [500]
    assert all((rows.rows["relation"] == Relation.OVERLAPS).all() and not rows.faults().any() for rows in found)
    assert found[0].areas().tolist() == 500 * [500 / 2.0**41] and found[0].exact("both", 0) == 500
    assert not list(run(stand_in(tmp_path, "reply"), []))


def test_a_run_is_cancelled_within_two_seconds(tmp_path: Path) -> None:
    began = time.monotonic()
    with pytest.raises(Cancelled):
        list(run(stand_in(tmp_path, "wait"), blocks(3), lambda done: time.monotonic() < began + 0.5))
    assert time.monotonic() < began + 2.5


def test_a_program_that_ends_early_is_told_with_what_it_said(tmp_path: Path) -> None:
    with pytest.raises(ProgramEnded, match="status 1: error 40"):
        list(run(stand_in(tmp_path, "end"), blocks(3)))


def test_a_block_that_is_refused_is_told_with_its_job(tmp_path: Path) -> None:
    with pytest.raises(BlockRefused) as refused:
        list(run(stand_in(tmp_path, "refuse"), blocks(3)))
    assert (refused.value.fault, refused.value.job) == (75, 3)


def test_a_fault_of_who_makes_blocks_is_raised_and_a_reader_may_stop(tmp_path: Path) -> None:
    def broken() -> Iterator[bytes]:
        yield from blocks(2)
        raise KeyError("no such feature")

    with pytest.raises(KeyError):
        list(run(stand_in(tmp_path, "reply"), broken()))
    assert len(next(run(stand_in(tmp_path, "reply"), blocks(9))).rows) == 2


def test_blocks_may_wait_for_rows(tmp_path: Path) -> None:
    has_come = threading.Event()

    def made_of_rows() -> Iterator[bytes]:
        for one in blocks(3):
            yield one
            assert has_come.wait(20)
            has_come.clear()

    found = []
    for rows in run(stand_in(tmp_path, "reply"), made_of_rows()):
        found.append(len(rows.rows))
        has_come.set()
    assert found == 3 * [2]


def test_what_a_program_says_never_stops_it(tmp_path: Path) -> None:
    assert len(list(run(stand_in(tmp_path, "long"), blocks(3)))) == 3


def test_a_run_that_waits_for_its_blocks_is_cancelled_and_a_fault_of_who_is_asked_is_raised(tmp_path: Path) -> None:
    def slow() -> Iterator[bytes]:
        yield from blocks(1)
        time.sleep(30)

    def broken(done: int) -> bool:
        raise KeyError(done)

    began = time.monotonic()
    with pytest.raises(Cancelled):
        list(run(stand_in(tmp_path, "reply"), slow(), lambda done: done == 0))
    with pytest.raises(KeyError):
        list(run(stand_in(tmp_path, "wait"), blocks(3), broken))
    assert time.monotonic() < began + 10


# A process whose thread begins a run and ends; then it waits.
HOST = """
import sys, threading, time
sys.path[:0] = {paths!r}
from overlayd.kernel.running import run
kept = []
def blocks():
    time.sleep(600)
    yield b""
def begin():
    kept.append(run({program!r}, blocks()))
    threading.Thread(target=lambda: next(kept[0]), daemon=True).start()
thread = threading.Thread(target=begin)
thread.start()
thread.join()
print("begun", flush=True)
time.sleep(600)
"""


@pytest.mark.parametrize("how", [signal.SIGKILL, signal.SIGTERM])
def test_the_program_ends_with_the_process_that_began_it_not_with_its_thread(tmp_path: Path, how: int) -> None:
    code = HOST.format(paths=sys.path, program=stand_in(tmp_path, "reply"))
    with subprocess.Popen([sys.executable, "-c", code], stdout=subprocess.PIPE) as host:
        try:
            assert host.stdout is not None and host.stdout.readline() == b"begun\n"
            wait_until(lambda: children(host.pid))
            (program,) = children(host.pid)
            time.sleep(0.5)
            assert is_running(program)
        finally:
            host.send_signal(how)
    wait_until(lambda: not is_running(program))


def reply(kind: int, flags: int, rows: np.ndarray[object, np.dtype[np.void]], rings: object, corners: object) -> Rows:
    """A reply of arrays, read."""
    own, places = np.array(rings, RINGS), np.array(corners)
    body = b"".join([rows.tobytes(), own.tobytes(), places.tobytes()])
    head = np.array([1, kind, flags, len(rows), len(own), len(places), 0, 0, 0], "<u4").tobytes()
    return rows_of((8 + 4 + len(head) + len(body) + 4).to_bytes(8, "little") + b"OVFR" + head + body + b"OVFE")


def test_outlines_are_well_known_binary() -> None:
    rows = np.zeros(3, CELLS)
    rows["rings"] = [1, 0, 2]
    corners = [(0.0, 0.0), (1, 0), (0, 1), (0, 0), (9, 0), (0, 9), (1, 1), (1, 2), (2, 1)]
    found = reply(1, Wants.OUTLINES, rows, [(0, 2**32 - 1, 3, 0), (2, 2**32 - 1, 3, 0), (2, 0, 3, 0)], corners)
    texts = [ogr.CreateGeometryFromWkb(one).ExportToWkt() for one in found.outlines().to_list()]
    assert texts == ["POLYGON ((0 0,1 0,0 1,0 0))", "MULTIPOLYGON EMPTY",
                     "POLYGON ((0 0,9 0,0 9,0 0),(1 1,1 2,2 1,1 1))"]


def test_areas_are_numbers_of_sixteen_bytes() -> None:
    rows = np.zeros(2, PAIR)
    rows["both"]["low"], rows["both"]["high"] = [2**63, 0], [2, -1]
    found = reply(0, 0, rows, [], np.zeros((0, 2)))
    assert [found.exact("both", row) for row in (0, 1)] == [2**65 + 2**63, -(2**64)]
    assert found.areas().tolist() == [(2.0**65 + 2.0**63) / 2**41, -(2.0**64) / 2**41]
    with pytest.raises(ValueError):
        rows_of(b"\0" * 60)
