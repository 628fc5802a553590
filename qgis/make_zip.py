#!/usr/bin/python3
"""Makes the plugin for QGIS whole, in a folder of plugins, or as a zip to install.

    qgis/make_zip.py NAME.zip [PROGRAM]     PROGRAM: a built overlay_features; else the one that ./overlay asks
    qgis/make_zip.py FOLDER [PROGRAM]       a folder of plugins; else without one

The parts of the package overlayd that it stands on go to exactoverlay/ext/overlayd, so that another version of the
package, or of another plugin, is none of its business in QGIS's one interpreter."""

from __future__ import annotations

import os
import pathlib
import shutil
import sys
import tempfile
import time
import zipfile

HERE = pathlib.Path(__file__).resolve().parent
PACKAGE = HERE.parent / "python" / "src" / "overlayd"
PLUGIN, PROGRAM, MACHINE = "exactoverlay", "overlay_features", "linux-x86_64"
PARTS = ("__init__.py", "ending.py", "progress.py", "program.py", "program_files.py", "geometry", "grid", "grid_pass",
         "kernel", "register")
OF_API = ("__init__.py", "asking.py", "cells.py", "pieces.py")
NOT = shutil.ignore_patterns("__pycache__", "ext", "bin")


def fill(plugin: pathlib.Path, program: str | None) -> None:
    """Makes a plugin's folder whole."""
    shutil.copytree(HERE / PLUGIN, plugin, ignore=NOT)
    into = plugin / "ext" / "overlayd"
    (into / "api").mkdir(parents=True)
    (plugin / "ext" / "__init__.py").write_text('"""What the plugin stands on."""\n')
    for name in PARTS:
        if (PACKAGE / name).is_dir():
            shutil.copytree(PACKAGE / name, into / name, ignore=NOT)
        else:
            shutil.copy(PACKAGE / name, into / name)
    for name in OF_API:
        shutil.copy(PACKAGE / "api" / name, into / "api" / name)
    if program is not None:
        place = plugin / "bin" / MACHINE
        place.mkdir(parents=True)
        shutil.copy(program, place / PROGRAM)


def main(out: str, program: str | None = None) -> None:
    target = pathlib.Path(out)
    if target.suffix != ".zip":
        shutil.rmtree(target / PLUGIN, ignore_errors=True)
        fill(target / PLUGIN, program)
        return
    if program is None:
        sys.path.insert(0, str(PACKAGE.parent))
        from overlayd.program_files import FEATURES, found_program

        program = found_program(FEATURES)
    with tempfile.TemporaryDirectory() as folder:
        fill(pathlib.Path(folder, PLUGIN), program)
        seconds = int(os.environ.get("SOURCE_DATE_EPOCH", time.time()))
        with zipfile.ZipFile(target, "w", zipfile.ZIP_DEFLATED) as file:
            for path in sorted(pathlib.Path(folder).rglob("*")):
                if path.is_file():
                    os.utime(path, (seconds, seconds))
                    path.chmod(0o644)
                    file.write(path, path.relative_to(folder))


if __name__ == "__main__":
    main(*sys.argv[1:])
