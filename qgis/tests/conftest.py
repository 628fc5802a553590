"""QGIS without a screen, with the provider in it: OVERLAY_FEATURES=.. /usr/bin/python3 -m pytest qgis/tests

python/tests/test_qgis.py runs these in a process of their own, as QGIS keeps what it has loaded."""

from __future__ import annotations

import os
import pathlib
import subprocess
import sys
from collections.abc import Iterator
from typing import Any

import pytest

os.environ.setdefault("QT_QPA_PLATFORM", "offscreen")
TOP = pathlib.Path(__file__).resolve().parents[2]
PROCESSING = "/usr/share/qgis/python/plugins"


@pytest.fixture(scope="session")
def plugins(tmp_path_factory: pytest.TempPathFactory) -> pathlib.Path:
    """A folder of plugins with this one whole, as its zip has it."""
    folder = tmp_path_factory.mktemp("plugins")
    subprocess.run([sys.executable, TOP / "qgis" / "make_zip.py", folder], check=True)
    return folder


@pytest.fixture(scope="session")
def qgis(plugins: pathlib.Path) -> Iterator[Any]:
    """The application."""
    sys.path[:0] = [str(plugins), PROCESSING]
    from qgis.core import QgsApplication

    application = QgsApplication([], False)
    application.initQgis()
    from exactoverlay.provider import Provider
    from processing.core.Processing import Processing

    Processing.initialize()
    application.kept = Provider()  # the registry's own reference does not keep Python's part
    QgsApplication.processingRegistry().addProvider(application.kept)
    yield application


@pytest.fixture
def maps() -> pathlib.Path:
    return TOP / "examples" / "maps"
