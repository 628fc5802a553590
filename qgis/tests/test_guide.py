"""The page of the guide for QGIS: each line of Python writes what is below it."""

from __future__ import annotations

import doctest
import re
from typing import Any

import pytest

from conftest import TOP


def test_the_page_writes_what_it_says(qgis: Any, monkeypatch: pytest.MonkeyPatch) -> None:
    monkeypatch.chdir(TOP)
    blocks = re.findall(r"^```python\n(.*?)^```$", (TOP / "docs/guide/in-qgis.md").read_text(), re.M | re.S)
    test = doctest.DocTestParser().get_doctest("\n".join(blocks), {}, "page", "page", 0)
    told: list[str] = []
    assert not doctest.DocTestRunner().run(test, out=told.append).failed and len(test.examples) > 10, "".join(told)
