"""The plugin of QGIS: its tests, in a process of their own, where QGIS is installed."""

import os
import sys

import pytest

from .common import HAS_QGIS, TOP, Programs, ran

SECONDS = 900


@pytest.mark.features
@pytest.mark.skipif(not HAS_QGIS, reason="no QGIS: apt-get install qgis python3-qgis")
def test_the_tests_of_the_plugin_pass() -> None:
    environment = {**os.environ, "OVERLAY_FEATURES": str(Programs.features), "QT_QPA_PLATFORM": "offscreen"}
    command = [sys.executable, "-m", "pytest", "-q", "-p", "no:cacheprovider", "-c", "/dev/null", "--rootdir",
               str(TOP / "qgis" / "tests"), str(TOP / "qgis" / "tests")]
    done = ran(*command, env=environment, timeout=SECONDS)
    assert done.returncode == 0, done.stdout[-4000:] + done.stderr[-1000:]
