"""The desktop of QGIS, on a screen that nobody sees: it loads the plugin of its profile, and runs it."""

from __future__ import annotations

import os
import pathlib
import shutil
import struct
import subprocess

import pytest

from conftest import TOP
from test_traps import profile

SECONDS = 300


@pytest.mark.skipif(not shutil.which("xvfb-run"), reason="no Xvfb: apt-get install xvfb")
def test_the_desktop_checks_a_map(plugins: pathlib.Path, tmp_path: pathlib.Path) -> None:
    picture = pathlib.Path(os.environ.get("OVERLAY_PICTURE", tmp_path / "desktop.png"))
    environment = profile(tmp_path, plugins) | {"OVERLAY_TOP": str(TOP), "OVERLAY_PICTURE": str(picture)}
    del environment["QT_QPA_PLATFORM"]
    settings = tmp_path / "profiles/default/QGIS/QGIS3.ini"
    settings.parent.mkdir(parents=True)
    settings.write_text("[PythonPlugins]\nexactoverlay=true\nprocessing=true\n")
    words = ["xvfb-run", "-a", "-s", "-screen 0 1280x800x24", "qgis", "--noversioncheck", "--nologo", "--profiles-path",
             str(tmp_path), "--code", str(TOP / "qgis/tests/desktop.py")]
    done = subprocess.run(words, env=environment, capture_output=True, text=True, timeout=SECONDS, check=False)
    assert done.returncode == 0, done.stderr[-2000:]
    content = picture.read_bytes()
    assert content[:8] == b"\x89PNG\r\n\x1a\n" and min(struct.unpack(">2I", content[16:24])) > 400
