"""The pages of docs/guide/: each command and each line of Python writes what is below it, in a folder with links to
what a clone has."""

from __future__ import annotations

import doctest
import os
import pathlib
import re
import shutil
import warnings

import pytest

from overlayd_lab import complaints

from .common import TOP, Programs, ran
from .test_pages import commands_of

GUIDE = TOP / "docs" / "guide"
INDEX, IN_QGIS, COMPLAINTS = "README.md", "in-qgis.md", "complaints.md"  # the last two have tests of their own
FIRST_SCREEN = "../../README.md"
PAGES = sorted(page.name for page in GUIDE.glob("*.md"))
pytestmark = pytest.mark.features


def run_commands(text: str, environment: dict[str, str]) -> int:
    """Runs the commands of a page, and compares what they write; how many there are."""
    commands = commands_of(text)
    for command, wanted in commands:
        done = ran("bash", "-c", command, env=environment)
        assert done.stdout == wanted, f"{command}\n{done.stderr}"
    return len(commands)


def run_python(text: str) -> int:
    """Runs the lines of Python of a page, and compares what they write; how many there are."""
    blocks = re.findall(r"^```python\n(.*?)^```$", text, re.M | re.S)
    test = doctest.DocTestParser().get_doctest("\n".join(blocks), {}, "page", "page", 0)
    told: list[str] = []
    with warnings.catch_warnings():
        warnings.simplefilter("ignore")
        found = doctest.DocTestRunner().run(test, out=told.append)
    assert not found.failed, "".join(told)
    return len(test.examples)


@pytest.mark.parametrize("page", [FIRST_SCREEN, *(one for one in PAGES if one not in (INDEX, IN_QGIS, COMPLAINTS))])
def test_a_page_writes_what_it_says(page: str, tmp_path: pathlib.Path, monkeypatch: pytest.MonkeyPatch) -> None:
    if page == "keep-it-current.md" and not shutil.which("ogrinfo"):
        pytest.skip("no ogrinfo: apt-get install gdal-bin")
    (tmp_path / "programs").mkdir()
    (tmp_path / "programs" / "overlay_features").symlink_to(str(Programs.features))
    for name in ("overlay", "tools", "examples", "docs"):
        (tmp_path / name).symlink_to(TOP / name)
    monkeypatch.chdir(tmp_path)
    text = (GUIDE / page).read_text()
    # Files that Python writes are there for commands below it.
    python = run_python(text)
    commands = run_commands(text, os.environ | {"PATH": f"{tmp_path / 'programs'}:{os.environ['PATH']}"})
    assert commands + python > 3


def test_the_index_has_every_page() -> None:
    listed = re.findall(r"\]\(([a-z-]+\.md)\)", (GUIDE / INDEX).read_text())
    assert sorted([INDEX, *listed]) == PAGES and len(PAGES) > 2


def test_the_table_of_complaints_is_what_its_script_writes() -> None:
    text = (GUIDE / COMPLAINTS).read_text()
    assert complaints.page(text) == text
