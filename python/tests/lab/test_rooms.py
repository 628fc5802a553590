"""Reads a small tree whose page stands here, and looks whether each file of Python says what it is."""

import ast
import pathlib
import subprocess

import pytest

from overlayd_lab import TOP
from overlayd_lab.gate import rooms

from .trees import texts_in

SOURCE, FILE = (texts_in("rooms")[name] for name in ("thing.rt", "page.md"))


@pytest.fixture
def tree(tmp_path: pathlib.Path) -> pathlib.Path:
    """A crate, one of tests, and no more."""
    (tmp_path / "crates/one/src").mkdir(parents=True)
    (tmp_path / "crates.txt").write_text("# lowest first\none: std\none_tests staticlib: one\n")
    (tmp_path / "crates/one/src/thing.rt").write_text(SOURCE)
    return tmp_path


def test_the_page(tree: pathlib.Path) -> None:
    assert rooms.pages(tree, ["one"]) == FILE
    assert rooms.pages(tree, []) == f"{rooms.HEAD}\n{FILE}"
    for name in ("two", "one_tests"):
        with pytest.raises(SystemExit, match=f"{name} is no crate"):
            rooms.pages(tree, ["one", name])


def test_a_file_says_what_it_is(tree: pathlib.Path) -> None:
    (tree / "crates/one/src/bare.rt").write_text("fn said_by_nobody() {}\n")
    with pytest.raises(SystemExit, match="bare.rt has no sentence"):
        rooms.pages(tree, [])


def test_drops(tree: pathlib.Path) -> None:
    """The types that have one are known, and no code asks that a disk may be let go."""
    file = tree / "crates/one/src/bare.rt"
    file.write_text("//! Ends.\nimpl<D: Disk> Drop for Ended<D> {\n    fn drop(self) {}\n}\n")
    assert rooms.drops(tree) == {"one::Ended"}
    assert rooms.faults_of_drops(rooms.drops(tree), ("one::Ended",)) == []
    found = rooms.faults_of_drops(rooms.drops(tree), ("one::Other",))
    assert [fault.split()[0] for fault in found] == ["one::Ended", "one::Other"]
    assert rooms.faults_of_disks(tree) == []
    file.write_text("//! Ends.\nfn ended<D: Disk + Drop, R: Read + Drop>(disk: D) {}\n")
    assert rooms.faults_of_disks(tree) == ["crates/one/src/bare.rt:2 asks that a disk may be let go"]


def test_stores(tree: pathlib.Path) -> None:
    """Each call that has a store open returns, and tests alone open a disk that was shut."""
    (tree / "crates.txt").write_text("one:\nkept_store: one\ntest_machines: kept_store\none_tests staticlib: one\n")
    waiting = "//! Ends. Wait!\nfn ended<W: Wait>(rt: &W) {} // Abort\n\nfn begun<W: std::process::Abort>(rt: &W) {}\n"
    for crate in ("one", "kept_store", "test_machines", "one_tests"):
        (tree / "crates" / crate / "src").mkdir(parents=True, exist_ok=True)
        (tree / "crates" / crate / "src/bare.rt").write_text(waiting)
        (tree / "crates" / crate / "src/opens.rt").write_text("//! Opens.\nuse root_store::shut::Key as Lock;\n")
    assert rooms.faults_of_disks(tree) == ["crates/one/src/opens.rt:2 opens a disk that is shut",
                                           "crates/kept_store/src/bare.rt:2 may not return, and has a store open",
                                           "crates/kept_store/src/bare.rt:4 may not return, and has a store open",
                                           "crates/kept_store/src/opens.rt:2 opens a disk that is shut"]


def test_each_file_of_python_says_what_it_is() -> None:
    paths = subprocess.run(["git", "ls-files", "*.py"], cwd=TOP, capture_output=True, text=True, check=True).stdout
    assert [path for path in paths.split() if not ast.get_docstring(ast.parse((TOP / path).read_text()))] == []
