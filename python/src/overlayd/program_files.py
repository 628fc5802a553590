"""Where the programs are that subcommands ask, and how the first call in a clone builds one."""

import os
import pathlib
import shutil
import subprocess
import sys
import tempfile
import time

from . import progress
from .ending import Unusable

TOP = pathlib.Path(__file__).resolve().parents[3]
BROUGHT = pathlib.Path(__file__).resolve().parent / "bin"  # of a wheel
OVERLAY = [sys.executable, str(pathlib.Path(__file__).resolve().parent / "__main__.py")]  # this command itself
LIVE, FEATURES = "overlay_live", "overlay_features"
BUILDER, BUILD_SECONDS = "python/lab/overlayd_lab/unproved.py", 120
PROGRAM_HELP = ("{}, which is asked (default: that of crates/*/out of this repository, else of its top, "
                "else on the path; else it is built)")


def found_program(name: str = LIVE) -> str:
    """The program that a variable named as it is in capitals says, else where it is there; else it is built, where that
    can be done."""
    found = os.environ.get(name.upper()) or program_there(name)
    if found:
        return found
    if (TOP / BUILDER).is_file() and shutil.which("rt"):
        return built_program(name)
    raise Unusable(f"no program: {name} is neither built in {TOP} nor on the path; say --program PATH")


def program_there(name: str) -> str | None:
    """The program that a wheel has, or in crates/*/out, where the gate builds it, or at the top, where it is built
    unproved, or on the path."""
    built = [file for file in (BROUGHT / name, TOP / "crates" / name / "out" / name, TOP / name) if file.is_file()]
    return str(built[0]) if built else shutil.which(name)


def built_program(name: str) -> str:
    """The program of these sources, built unproved at the top, as a line says."""
    print(f"{name} is not built yet: it is now, unproved, which takes some minutes", file=sys.stderr)
    with tempfile.TemporaryDirectory(prefix=".built-", dir=TOP) as folder, open(f"{folder}/output", "w+") as output:
        words = [TOP / BUILDER, "--unchecked", TOP / "crates" / name / "src", f"{folder}/{name}"]
        run = subprocess.Popen([sys.executable, *map(str, words)], stdout=output, stderr=output)
        with progress.bar(f"building {name}", BUILD_SECONDS, unit="s") as bar:
            while run.poll() is None:
                time.sleep(1)
                bar.update()
        if run.returncode:
            output.seek(0)
            raise Unusable(f"{name} cannot be built: {output.read().strip().rpartition(chr(10))[2]}")
        os.replace(f"{folder}/{name}", TOP / name)
    return str(TOP / name)
