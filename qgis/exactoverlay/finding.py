"""Finds the program overlay_features: what the user named comes first, then what the plugin brought, then the system's.
"""

from __future__ import annotations

import os
import pathlib
import platform
import shutil
from collections.abc import Iterator

NAME = "overlay_features"
SETTING, VARIABLE = "EXACTOVERLAY_PROGRAM", "OVERLAY_FEATURES"
MACHINE = f"{platform.system().lower()}-{platform.machine()}"
BROUGHT = pathlib.Path(__file__).parent / "bin" / MACHINE / NAME
PACKAGED = pathlib.Path("/usr/lib/overlayd") / NAME


class NoProgram(Exception):
    """Why no program can be asked."""


def candidates() -> Iterator[tuple[str, str | None]]:
    """What each place is called where it may be, and the path there."""
    try:
        from processing.core.ProcessingConfig import ProcessingConfig

        named = ProcessingConfig.getSetting(SETTING)
    except ImportError:
        named = None
    yield "the setting", named
    yield VARIABLE, os.environ.get(VARIABLE)
    yield "the plugin", str(BROUGHT) if BROUGHT.is_file() else None
    yield "the Debian package", str(PACKAGED) if PACKAGED.is_file() else None
    yield "PATH", shutil.which(NAME)


def program() -> tuple[str, str]:
    """The path of the program, and where it was found. A place that the user named and that has none is a fault, so
    that no other program is asked in its stead."""
    for place, path in candidates():
        if not path:
            continue
        if not os.path.isfile(path):
            raise NoProgram(f"{place} names {path}, and no program is there")
        if not os.access(path, os.X_OK):  # QGIS unpacks a zip without modes
            try:
                os.chmod(path, 0o755)
            except OSError as fault:
                raise NoProgram(f"{path}: {fault.strerror}") from None
        return path, place
    raise NoProgram(f"there is no program {NAME} for {MACHINE}: name it in Settings, Options, Processing, Providers, "
                    "Exact overlay, or install the package overlayd")
