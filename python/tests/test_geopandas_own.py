"""geopandas's own tests of overlay and sjoin, as Debian packages them, with overlayd's functions in their place.

Debian has no data for some of its tests, which fail with geopandas itself: what it passes here is what is counted."""

import pathlib
import re
import subprocess
import sys
import xml.etree.ElementTree as ElementTree

import pytest

from .common import SOURCES, TOP, Programs

pytestmark = pytest.mark.features

OVERLAY = ["geopandas.tests.test_overlay"]
SJOIN = ["geopandas.tools.tests.test_sjoin", "-k", "not Nearest"]
SECONDS = 3000  # far more than they take
PASSED = {"overlay": 57, "sjoin": 114}  # by geopandas 0.12.2 with Debian 12's shapely and rtree
OTHERS = {
    # A ring that crosses itself: geopandas's buffer(0) loses one half of it, even-odd keeps both.
    "test_overlap_make_valid[True]",
}
DEPRECATED = re.compile(r"test_deprecated_op_param|test_inner\[op-|test_unknown_kwargs")


def run(folder: pathlib.Path, name: str, words: list[str], program: str | None) -> subprocess.Popen[bytes]:
    """Begins the tests, with overlayd's functions where a program is named."""
    own = [] if program is None else ["-p", "tests.in_geopandas"]
    command = [sys.executable, "-m", "pytest", "-q", "--tb=no", "-p", "no:cacheprovider", *own, "--junitxml",
               str(folder / name), "--pyargs", *words]
    path = f"{SOURCES['PYTHONPATH']}:{TOP}/python/lab"
    environment = SOURCES | {"OVERLAY_FEATURES": str(program), "PYTHONPATH": path}
    return subprocess.Popen(command, cwd=folder, env=environment, stdout=subprocess.DEVNULL)


def passed(file: pathlib.Path) -> set[str]:
    """The tests that have passed, by class and name."""
    cases = ElementTree.parse(file).getroot().iter("testcase")
    return {f"{case.get('classname')}::{case.get('name')}" for case in cases if not len(case)}


def compared(folder: pathlib.Path, words: list[str]) -> tuple[set[str], set[str]]:
    """What geopandas passes, and what overlayd does."""
    runs = [run(folder, "theirs.xml", words, None), run(folder, "own.xml", words, Programs.features)]
    for one in runs:
        assert one.wait(timeout=SECONDS) in (0, 1)
    return passed(folder / "theirs.xml"), passed(folder / "own.xml")


def test_an_overlay_passes_the_tests_of_geopandas(tmp_path: pathlib.Path) -> None:
    theirs, own = compared(tmp_path, OVERLAY)
    assert len(theirs) == PASSED["overlay"]
    assert {one.rpartition("::")[2] for one in theirs - own} == OTHERS


def test_pairs_pass_the_tests_of_sjoin(tmp_path: pathlib.Path) -> None:
    """But for those that call it by the word op, which geopandas has given up since, and one that wants its name."""
    theirs, own = compared(tmp_path, SJOIN)
    assert len(theirs) == PASSED["sjoin"]
    assert all(map(DEPRECATED.search, theirs - own)) and len(theirs & own) == 89
