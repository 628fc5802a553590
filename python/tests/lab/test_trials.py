"""What trials judge as right, without a program, and what the library does by which calls on a store fail."""

import os
import pathlib
import subprocess
import sys
from typing import Any

import pytest

from overlayd_lab.reference import judging, model
from overlayd_lab.trials import live_stress, refused_runs
from overlayd_lab.trials.refused_runs import OTHER, SQUARE, Outcome, Scenario
from overlayd_lab.trials.refusing import Allows, device, judge_output, many_growths, one_growth

# ---- live_stress.py

A, B = b"PUT A POLYGON ((0 0, 10 0, 10 10, 0 10, 0 0))", b"PUT A POLYGON ((5 5, 15 5, 15 15, 5 15, 5 5))"
LAYER = "A MULTIPOLYGON (((5 5, 15 5, 15 15, 5 15, 5 5)))"
OLD = "A MULTIPOLYGON (((0 0, 10 0, 10 10, 0 10, 0 0)))"
# Each: what happens in order, as (session, line) asked or (session, line, 1) read; then the store's version and layers
# where the program is killed, or None; whether it is right.
CASES: list[tuple[list[tuple[Any, ...]], tuple[int, list[str]] | None, bool]] = [
    ([(0, A), (0, "ok 1", 1), (1, b"LOCATE A 2 2"), (1, "in", 1)], None, True),
    # An older version may be answered to whom nothing newer was reported, but not a version still to be sent.
    ([(0, A), (0, "ok 1", 1), (1, b"LOCATE A 2 2"), (1, "error 10 unknown layer", 1)], None, True),
    ([(0, A), (0, "ok 1", 1), (0, b"LOCATE A 2 2"), (0, "error 10 unknown layer", 1)], None, False),
    ([(1, b"LOCATE A 2 2"), (1, "in", 1), (0, A), (0, "ok 1", 1)], None, False),
    # A reply that says of a command waits for that command's own reply.
    ([(0, A), (1, b"LOCATE A 2 2"), (1, "in", 1), (0, "ok 1", 1)], None, True),
    ([(0, A), (1, b"LOCATE A 2 2"), (1, "edge", 1), (0, "ok 1", 1)], None, False),
    ([(0, A), (1, b"LOCATE A 2 2"), (1, "in", 1), (0, "error 15 too many layers", 1)], None, False),
    ([(0, A), (1, B), (1, "ok 2", 1), (1, b"LOCATE A 12 12"), (1, "in", 1), (0, "ok 1", 1)], None, True),
    ([(0, A), (1, B), (1, "ok 1", 1), (1, b"LOCATE A 12 12"), (1, "in", 1), (0, "ok 1", 1)], None, False),
    # Batches, as one version or none.
    ([(0, b"BATCH 2", A, b"DEFINE I = A"), (0, "ok 1", 1), (0, b"LOCATE I 2 2"), (0, "in", 1)], None, True),
    ([(0, b"BATCH 2", A, b"DEFINE I = A"), (0, "ok 2", 1)], None, False),
    ([(0, b"BATCH 2", A, b"DROP I"), (0, "refused 1 error 10 unknown layer", 1)], None, True),
    ([(0, b"BATCH 2", A, b"DROP I"), (0, "refused 0 error 10 unknown layer", 1)], None, False),
    ([(0, b"BATCH 2", A, b"LAYERS"), (0, "refused 1 error 41 command syntax", 1)], None, True),
    ([(0, b"BATCH 65"), (0, "error 17 batch size", 1)], None, True),
    ([(0, b"BATCH 2", A, B), (1, b"LOCATE A 2 2"), (0, "ok 1", 1), (1, "in", 1)], None, False),
    ([(0, b"SYNC"), (0, "durable 0", 1), (0, A), (0, "ok 1", 1), (0, b"SYNC"), (0, "durable 0", 1)], None, False),
    # Killed: what was reported durable is there; what was cut off may be, if all replies are right then.
    ([(0, A), (0, "ok 1", 1), (0, B), (0, "ok 2", 1)], (1, [OLD]), True),
    ([(0, A), (0, "ok 1", 1), (0, b"SYNC"), (0, "durable 1", 1)], (0, []), False),
    ([(0, A), (0, "ok 1", 1), (0, B)], (2, [LAYER]), True),
    ([(0, A), (0, "ok 1", 1), (0, B)], (2, [OLD]), False),
    ([(0, A), (0, "ok 1", 1), (0, b"LAYERS", B)], (2, [LAYER]), False),
    ([(0, A), (1, B), (1, "ok 2", 1), (1, b"LOCATE A 12 12"), (1, "in", 1)], (2, [LAYER]), True),
    ([(0, A), (1, B), (1, "ok 2", 1), (1, b"LOCATE A 12 12"), (1, "in", 1)], (3, [OLD]), False),
    ([(0, A), (1, b"LOCATE A 2 2"), (1, "in", 1)], (0, []), True),
    ([(0, b"LAYERS"), (1, b"LOCATE A 2 2"), (1, "in", 1)], (0, []), False),
]


def is_right(events: list[tuple[Any, ...]], left: tuple[int, list[str]] | None) -> bool:
    """Whether events are judged as right."""
    judge = live_stress.Judge(judging.History(model.Meanings()))
    try:
        for place, *rest in events:
            if rest[-1] == 1:
                judge.read(place, rest[0].split("\n"))
            else:
                judge.ask(place, rest)
            judge.judge(1)
        if left:
            judge.cut_off(*left)
            return judge.history.last() == left[0]
        judge.finish()
        return True
    except judging.Wrong:
        return False


@pytest.mark.parametrize("events, left, wanted", CASES)
def test_a_live_run_is_judged(events: list[tuple[Any, ...]], left: tuple[int, list[str]] | None, wanted: bool) -> None:
    assert is_right(events, left) == wanted


# ---- growths.py and faults.py

TOLD = Scenario("replies", [[f"PUT A {SQUARE}", "GRID A 2 2 1 1 1", "SYNC", f"PUT B {OTHER}", "SYNC"]], 1)
REPLIES = ["ok 1", "grid 1 1\n#", "durable 1", "ok 2", "durable 2"]
OUT = "error 40 out of memory"
DEVICE = "error 30 device"
WRITE = "error 49 write"
# No reply: where something was refused before a session read a line, or behind.
EARLY, LATE = "early", "late"
CUT = {3: None, 4: None}
CLOSING = "error 43 closing"
# What may be reported by a run of these lines, by what was refused: the replies that differ or lack, by their places,
# whether something was refused, what is on standard error (None: nothing, with status 1), and whether that is right.
ALLOWED: dict[Allows, list[tuple[Any, int, str | None, bool]]] = {
    one_growth: [
        ({}, 0, "", True), ({}, 1, "", True), ({1: OUT}, 1, "", True), ({1: OUT}, 0, "", False),
        ({1: DEVICE}, 1, "", False), ({1: "grid 1 1\n."}, 1, "", False), ({2: OUT}, 1, "", True),
        ({2: DEVICE}, 1, "", False), ({2: OUT, 4: OUT}, 1, "", False), ({1: OUT, 2: OUT}, 1, "", False),
        ({1: OUT, 4: OUT}, 1, "", False), (EARLY, 1, OUT, True), (EARLY, 1, DEVICE, False), (EARLY, 0, OUT, False),
        (LATE, 1, OUT, False), (LATE, 1, WRITE, True), ({}, 1, WRITE, False), (CUT, 1, WRITE, True),
        (CUT, 1, OUT, False), (CUT, 1, "", False), (CUT, 1, None, False), (CUT | {1: OUT}, 1, WRITE, False),
        ({4: OUT}, 1, None, True), ({}, 1, None, True), ({}, 0, None, False), ({1: OUT}, 1, None, False),
        ({1: OUT}, 1, OUT, False), ({3: CLOSING, 4: CLOSING}, 1, OUT, False),
        ({3: CLOSING, 4: CLOSING, EARLY: True}, 1, OUT, False),
    ],
    many_growths: [({1: OUT, 2: OUT, 4: OUT}, 2, "", True), ({1: OUT, 2: OUT, 4: OUT}, 0, "", False),
                   ({2: DEVICE}, 2, "", False), ({3: CLOSING, 4: CLOSING, EARLY: True}, 2, OUT, False)],
    device: [
        ({}, 0, "", True), ({}, 1, "", True), ({4: DEVICE}, 1, "", True), ({2: DEVICE, 4: DEVICE}, 1, DEVICE, True),
        ({4: DEVICE}, 1, None, False), ({4: DEVICE}, 0, "", False), ({2: DEVICE}, 1, "", False),
        ({1: DEVICE}, 1, "", False), ({1: OUT}, 1, "", False), ({4: OUT}, 1, "", False), ({4: None}, 1, DEVICE, False),
        (CUT, 1, DEVICE, False), (CUT | {1: None, 2: None}, 1, DEVICE, False), (EARLY, 1, DEVICE, True),
        (EARLY, 1, OUT, False), (EARLY, 0, DEVICE, False), (LATE, 1, DEVICE, False),
    ],
}


def is_allowed(allows: Allows, changed: Any, refused: int, fault: str | None) -> bool:
    """Whether a run of the lines above is taken as right."""
    replies = [] if changed in (EARLY, LATE) else [changed.get(place, reply) for place, reply in enumerate(REPLIES)]
    output = "".join(reply + "\n" for reply in replies if reply is not None)
    outcome = Outcome(1, int(fault != ""), output, fault + "\n" if fault else "", None, (9, refused), EARLY in changed)
    try:
        judge_output(TOLD, outcome, allows)
    except judging.Wrong:
        return False
    return True


@pytest.mark.parametrize("allows, changed, refused, fault, wanted",
                         [(allows, *case) for allows, cases in ALLOWED.items() for case in cases])
def test_a_run_of_one_script(allows: Allows, changed: Any, refused: int, fault: str | None, wanted: bool) -> None:
    assert is_allowed(allows, changed, refused, fault) == wanted


# ---- the library by which calls fail

# A writer that syncs its folder, goes on after each call that fails, and prints those.
CALLS = """
import os, sys
def told(call, *words):
    try:
        return call(*words) or True
    except OSError:
        print(call.__name__)
file = told(os.open, sys.argv[1], os.O_RDWR | os.O_CREAT)
folder = os.open(os.path.dirname(sys.argv[1]), os.O_RDONLY)
if file and told(os.fsync, folder):
    told(os.pwrite, file, b"four", 0)
    told(os.fdatasync, file)
    told(os.pwrite, file, b"less", 3)
    told(os.fdatasync, file)
"""
# The number of the call that fails and how, what fails for the writer, and what it leaves.
LEFT = [
    (0, 0, "", b"fouless"), (1, 0, "open", None), (3, 0, "fsync", None), (3, 2, "", b"fouless"),
    (4, 0, "pwrite", bytes(3) + b"less"), (4, 1, "pwrite", b"fo" + bytes(1) + b"less"),
    (4, 2, "", b"fo" + bytes(1) + b"less"), (5, 0, "fdatasync", bytes(3) + b"less"),
    (5, 1, "fdatasync", b"fo" + bytes(1) + b"less"), (5, 2, "", b"fouless"), (6, 0, "pwrite", b"four"),
    (6, 1, "pwrite", b"foule"), (7, 0, "fdatasync", b"four"), (7, 1, "fdatasync", b"foule" + bytes(2)),
    (7, 2, "", b"fouless"), (7, 3, "fdatasync", b"four"), (8, 0, "", b"fouless"),
]


@pytest.mark.parametrize("first, kind, fails, leaves", LEFT)
def test_calls_fail(tmp_path: pathlib.Path, first: int, kind: int, fails: str, leaves: bytes | None) -> None:
    """The call of the writer above that is to fail fails, and what was not synced is lost."""
    folder = tmp_path / "own"
    folder.mkdir()
    store = folder / "file"
    given: dict[str, Any] = {
        "LD_PRELOAD": refused_runs.compiled("faults", tmp_path), "FAIL_STORE": store, "FAIL_FOLDER": folder,
        "FAIL_COUNTS": folder / "counts", "FAIL_FIRST": first, "FAIL_KIND": kind}
    environment = {**os.environ, **{name: str(value) for name, value in given.items()}}
    done = subprocess.run([sys.executable, "-c", CALLS, store], env=environment, stdout=subprocess.PIPE, check=True)
    assert (done.stdout.decode().strip(), store.read_bytes() if store.exists() else None) == (fails, leaves)
