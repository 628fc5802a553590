"""Tests of progress.py: a bar on a terminal, and nothing elsewhere."""

import os
import pty
import subprocess
import sys

from .common import SECONDS, SOURCES, TOP, InFolder, ran
from .test_layouts import geojson, square


class Progresses(InFolder):
    def call(self, before: str = "") -> list[str]:
        """A call of overlay import for 300 features, whose bars show at once."""
        features = [(f"n{place}", [[square(7 * place, 0, 5)]]) for place in range(300)]
        file, output = self.file("many.geojson", geojson(*features)), self.folder / "many.txt"
        words = [str(file), "--output", str(output)]
        code = (f"import sys\n{before}\n"
                "from overlayd import cli, progress\n"
                "progress.BEGIN_SECONDS = 0\n"
                f"cli.main({['import', *words]!r})\n")
        return [sys.executable, "-c", code]

    def test_a_bar_on_a_terminal_and_on_standard_error_alone(self) -> None:
        reader, writer = pty.openpty()
        done = subprocess.run(self.call(), cwd=TOP, env=SOURCES, stdout=subprocess.PIPE,
                              stderr=writer, check=False, timeout=SECONDS)
        os.close(writer)
        told = b""
        while not told.endswith(b"many.txt\r\n"):
            told += os.read(reader, 65536)
        os.close(reader)
        assert (done.returncode, done.stdout) == (0, b"")
        self.assertRegex(told, rb"rounding features:  *[0-9]+%.*/300 ")

    def test_nothing_elsewhere(self) -> None:
        done = ran(*self.call(), cwd=TOP, env=SOURCES, check=True)
        assert (done.stdout, "features: " in done.stderr) == ("", False), done.stderr

    def test_a_package_that_is_missing_is_named(self) -> None:
        call = self.call("sys.modules['tqdm'] = None")
        done = ran(*call, cwd=TOP, env=SOURCES)
        told = "python3-tqdm is missing: apt-get install python3-tqdm, and run this by /usr/bin/python3"
        assert (done.returncode, done.stdout) == (1, "")
        assert done.stderr == f"overlay import: {told}\n"
