"""Looks at READMEs of a small tree, right and with one thing wrong at a time."""

import pathlib

import pytest

from overlayd_lab.gate.readmes import Tree, look

from .trees import texts_in, tree_in

README = "crates/one/README.md"
RIGHT = texts_in("readmes")[README]
NUMBERS = "| `locate` | 4 | 1,009 | 1 |  | 1,030 | A point. |\n"


@pytest.fixture
def tree(tmp_path: pathlib.Path) -> pathlib.Path:
    edit = tree_in(tmp_path, "readmes") / "crates/one/must-fail/made_of_nothing.edit"
    edit.parent.mkdir()
    edit.touch()
    return tmp_path


def test_all_is_there(tree: pathlib.Path) -> None:
    assert look(Tree(tree)) == (3, [])


@pytest.mark.parametrize("old, new, said", [
    ("`value`", "`worth`", "no clause"), ("`law` |", "`lore` |", "no call"),
    ("made_of_nothing", "made_of_all", "no wrong body"), ("made_of_two", "made_of_three", "no wrong body"),
    ("src/thing.rt", "src/other.rt", "no file"), ("`Thing`", "`Other`", "no `Other`"),
    ("**Knows**", "Knows", "says not"), ("`on`)", "`off`)", "no clause"), ("`left`)", "`right`)", "no clause"),
])
def test_one_thing_is_not_there(tree: pathlib.Path, old: str, new: str, said: str) -> None:
    (tree / README).write_text(RIGHT.replace(old, new))
    assert any(said in line for line in look(Tree(tree))[1])


@pytest.mark.parametrize("text, faults", [("| LOCATE | 4 | 1,009 | 1,030 |\n", 0),
                                          ("| LOCATE | 4 | 1,009 | 103 |\n", 1), ("| LOCATE | 4 | 109 | 1,030 |\n", 1)])
def test_numbers_of_the_page(tree: pathlib.Path, text: str, faults: int) -> None:
    (tree / "docs/BELIEVE.md").write_text(NUMBERS)
    (tree / "README.md").write_text(text)
    assert len(look(Tree(tree))[1]) == faults


@pytest.mark.parametrize("text, said", [("| Call | Clauses |\n|---|---|\n| `one::none` | all |\n", "no call"),
                                        ("**Refused**: no_such_edit\n", "no wrong body")])
def test_the_page_of_proofs(tree: pathlib.Path, text: str, said: str) -> None:
    (tree / "docs/PROOFS.md").write_text(text)
    assert any(said in line for line in look(Tree(tree))[1])
