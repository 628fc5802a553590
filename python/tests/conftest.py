"""The built programs that tests ask: by words of pytest, else those of crates/. Without one its tests are skipped."""

import os
import pathlib

import pytest

from . import testing
from .common import SOURCES, TOP, Programs

BUILT = {"program": "overlayd", "live": "overlay_live", "features": "overlay_features"}


def pytest_addoption(parser: pytest.Parser) -> None:
    for word, name in BUILT.items():
        parser.addoption(f"--{word}", metavar="FILE", type=pathlib.Path, default=TOP / "crates" / name / "out" / name,
                         help=f"the built {name} (default crates/{name}/out/{name})")


def pytest_configure(config: pytest.Config) -> None:
    config.addinivalue_line("markers", "live: a test of a built overlay_live, beside which overlay_features is asked")
    config.addinivalue_line("markers", "features: a test of a built overlay_features")
    found = [str(path.resolve()) if (path := config.getoption(word)).is_file() else None for word in BUILT]
    Programs.batched, Programs.live, Programs.features = found
    testing.PROGRAM = Programs.live or testing.PROGRAM
    for environment in (os.environ, SOURCES) if Programs.features else ():
        environment["OVERLAY_FEATURES"] = Programs.features or ""


def pytest_runtest_setup(item: pytest.Item) -> None:
    if Programs.live is None and item.get_closest_marker("live"):
        pytest.skip("no built overlay_live: --live names it")
    if Programs.features is None and (item.get_closest_marker("features") or item.get_closest_marker("live")):
        pytest.skip("no built overlay_features: --features names it")
