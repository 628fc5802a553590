"""What QGIS does that a plugin meets: each with the test that it does not fall for it."""

from __future__ import annotations

import os
import pathlib
import stat
import subprocess
import sys
import threading
import zipfile
from typing import Any

import pytest

from conftest import PROCESSING, TOP
from made import BOW, SQUARE, layer, run


def test_the_number_of_a_geopackage_is_left_out(qgis: Any, tmp_path: pathlib.Path) -> None:
    """A GeoPackage's fid, kept as a field, would be there once for each piece, and the output would refuse that."""
    own = layer([SQUARE], fields="field=fid:integer&field=nr:integer")
    halves = layer(["POLYGON ((0 0, 5 0, 5 9, 0 9, 0 0))", "POLYGON ((5 0, 9 0, 9 9, 5 9, 5 0))"])
    found = run("pieces", INPUT=own, OVERLAY=halves, HOW=1, OUTPUT=str(tmp_path / "pieces.gpkg"))
    assert found["COUNT"] == 3


def test_a_program_without_the_executable_bit_runs(qgis: Any, plugins: pathlib.Path, tmp_path: pathlib.Path) -> None:
    """QGIS unpacks a zip without modes."""
    from exactoverlay import finding

    (tmp_path / "overlay_features").symlink_to(os.environ["OVERLAY_FEATURES"])
    found = {**os.environ, "PATH": f"{tmp_path}:{os.environ['PATH']}"}  # where none is built in the clone
    subprocess.run([sys.executable, TOP / "qgis" / "make_zip.py", tmp_path / "a.zip"], env=found, check=True)
    with zipfile.ZipFile(tmp_path / "a.zip") as file:
        file.extractall(tmp_path)
    brought = tmp_path / "exactoverlay" / "bin" / "linux-x86_64" / "overlay_features"
    assert not brought.stat().st_mode & stat.S_IXUSR
    own = finding.candidates
    try:
        finding.candidates = lambda: iter([("the plugin", str(brought))])
        assert run("pairs", INPUT=layer([SQUARE]), OVERLAY=layer([BOW]), OUTPUT="memory:")["AREA"] == 32
    finally:
        finding.candidates = own
    assert brought.stat().st_mode & stat.S_IXUSR


def test_a_run_looks_for_the_program_by_itself(qgis: Any, monkeypatch: pytest.MonkeyPatch) -> None:
    """qgis_process does not ask canExecute."""
    from exactoverlay import finding
    from qgis.core import QgsApplication, QgsCoordinateReferenceSystem, QgsProcessingException

    monkeypatch.setattr(finding, "candidates", lambda: iter([("the setting", "/none/overlay_features")]))
    can, told = QgsApplication.processingRegistry().algorithmById("exactoverlay:pairs").canExecute()
    assert not can and told == "the setting names /none/overlay_features, and no program is there"
    with pytest.raises(QgsProcessingException, match="no program is there"):
        QgsApplication.processingRegistry().algorithmById("exactoverlay:pairs").create().asked(
            {}, _context(), None, QgsCoordinateReferenceSystem(), [], lambda ask: None)
    monkeypatch.setattr(finding, "candidates", lambda: iter([("PATH", None)]))
    with pytest.raises(finding.NoProgram, match="there is no program overlay_features for linux-x86_64"):
        finding.program()


def _context() -> Any:
    from qgis.core import QgsProcessingContext

    return QgsProcessingContext()


def test_no_module_of_the_package_has_a_name_that_others_may_have(plugins: pathlib.Path) -> None:
    """All plugins are in one interpreter: what this one stands on lies within it."""
    text = ("import sys; sys.path[:0] = sys.argv[1:]; import exactoverlay.provider; "
            "sys.exit(any(name.split('.')[0] in ('overlayd', 'tools', 'api') for name in sys.modules))")
    done = subprocess.run([sys.executable, "-c", text, str(plugins), PROCESSING], check=False, env=os.environ,
                          cwd=plugins)
    assert done.returncode == 0


def test_a_run_may_begin_in_a_thread_that_ends(qgis: Any) -> None:
    """A program that ends with the thread that began it would leave the next run without one."""
    found: list[float] = []

    def one() -> None:
        found.append(run("pairs", INPUT=layer([SQUARE]), OVERLAY=layer([BOW]), OUTPUT="memory:")["AREA"])

    for _ in range(3):
        thread = threading.Thread(target=one)
        thread.start()
        thread.join()
    assert found == [32, 32, 32]


def profile(folder: pathlib.Path, plugins: pathlib.Path) -> dict[str, str]:
    """An environment whose QGIS has the plugin, in a folder of its own."""
    own = folder / "profile" / "python" / "plugins"
    own.mkdir(parents=True)
    (own / "exactoverlay").symlink_to(plugins / "exactoverlay")
    return {**os.environ, "QGIS_CUSTOM_CONFIG_PATH": str(folder), "HOME": str(folder), "QT_QPA_PLATFORM": "offscreen",
            "QGIS_PLUGINPATH": str(plugins)}


def test_qgis_process_runs_the_algorithms(plugins: pathlib.Path, maps: pathlib.Path, tmp_path: pathlib.Path) -> None:
    """Debian's /usr/bin/qgis_process hands on the words of /etc/default/qgis, which are qgis's: it refuses all. The
    program itself is qgis_process.bin."""
    environment = profile(tmp_path, plugins)
    program = "/usr/bin/qgis_process.bin"
    subprocess.run([program, "plugins", "enable", "exactoverlay"], env=environment, check=True, capture_output=True)
    words = [f"INPUT={maps / 'parcels.geojson'}", "ID=nr", f"OVERLAPS={tmp_path / 'overlaps.gpkg'}"]
    done = subprocess.run([program, "run", "exactoverlay:check", "--", *words], env=environment, capture_output=True,
                          text=True, check=False)
    assert done.returncode == 0, done.stderr
    assert "NUMBER_OF_OVERLAPS:\t3" in done.stdout and "3 overlaps, 2 gaps" in done.stdout
    assert (tmp_path / "overlaps.gpkg").stat().st_size > 50_000
