"""Small trees of sources for tests of what reads sources: in fixtures/NAME.tree each file stands after `==== PATH`."""

import pathlib
import re

FIXTURES = pathlib.Path(__file__).parent / "fixtures"


def texts_in(name: str) -> dict[str, str]:
    """The texts of a tree, by their paths."""
    text = (FIXTURES / f"{name}.tree").read_text(encoding="utf-8")
    return dict(re.findall(r"^==== (.*)\n((?:(?!==== ).*\n)*)", text, re.M))


def tree_in(folder: pathlib.Path, name: str) -> pathlib.Path:
    """A folder with the files of a tree."""
    for path, text in texts_in(name).items():
        (folder / path).parent.mkdir(parents=True, exist_ok=True)
        (folder / path).write_text(text, encoding="utf-8")
    return folder
