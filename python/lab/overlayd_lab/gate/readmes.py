"""Says whether what the crates' READMEs and docs/PROOFS.md name is there.

    .ci/readmes            looks, and ends with 1 where something is not there

Each crate has a README.md. In a table whose first column is headed Call or Law, each name there is a function of the
crate (of docs/PROOFS.md: CRATE::NAME), and each name within round brackets of the second column is a clause of the
crate, or a field of a record that its definitions have. Each name after **Wrong bodies** is an edit of the crate (of
docs/PROOFS.md, after **Refused**: of any crate). Every other word in backquotes stands somewhere in the sources.
README.md has the numbers of docs/BELIEVE.md."""

import pathlib
import re
import sys

from overlayd_lab import LAB, TOP
from overlayd_lab.gate import edits, rooms
from overlayd_lab.gate.believing.page import ROW

CLAUSE = re.compile(r"\b(?:ensures|requires) (\w+) \{|^ +pub (\w+) :", re.M)
AS = re.compile(r" as \w+")
QUOTED = re.compile(r"`([^`]+)`")
EDIT = re.compile(r"\b[a-z]\w*_\w+\b")
SOURCES = ("crates/*/src/**/*.rt", "crates/*/specs/**/*.antt", ".ci/*", "python/**/*.py", "python/**/*.c",
           "python/**/*.rattle", "tools/**/*.py", "examples/*.txt", "crates.txt")


class Tree:
    """What a tree has: functions, clauses and wrong bodies of each crate, and all words."""

    def __init__(self, top: pathlib.Path) -> None:
        self.top = top
        lines = (top / "crates.txt").read_text().splitlines()
        self.crates = [line.partition(":")[0].split()[0] for line in lines if ":" in line.partition("#")[0]]
        self.calls: dict[str, set[str]] = {}
        self.clauses: dict[str, set[str]] = {}
        for crate in self.crates:
            texts = edits.texts_of(top / "crates" / crate)
            names = [one.name for path, text in texts.items() if path.endswith(".rt") for one in rooms.items(text)]
            self.calls[crate] = {said for name in names for said in (name.split("::")[-1], AS.sub("", name))}
            said = "\n".join(text for path, text in texts.items() if not path.startswith("proofs/"))
            self.clauses[crate] = {name for found in CLAUSE.findall(said) for name in found}
        self.edits = {crate: {one.name for one in edits.edits(top, [crate], edits.TIERS)} for crate in self.crates}
        files = [path for pattern in SOURCES for path in top.glob(pattern)]
        self.words = {name for path in [*files, *top.glob("*"), *top.glob("docs/*")] for name in (path.name, path.stem)}
        for path in filter(pathlib.Path.is_file, files):
            self.words |= set(re.findall(r"[A-Za-z_]\w*", path.read_text(errors="replace")))


def rows(text: str) -> list[tuple[str, str]]:
    """The first two cells of each row of the tables of calls and laws."""
    tables = re.findall(r"^\| (?:Call|Law) \|[^\n]*\n\|[-|]+\n((?:\|[^\n]*\n?)*)", text, re.M)
    cells = [re.split(r"(?<!\\)\|", line) for table in tables for line in table.splitlines()]
    return [(row[1].strip(), row[2].strip()) for row in cells]


def faults_of_rows(tree: Tree, text: str, crate: str | None) -> list[str]:
    """What the rows of calls name that is not there."""
    faults: list[str] = []
    for first, second in rows(text):
        clauses: set[str] = set()
        for call in QUOTED.findall(first):
            home, _, name = (crate, "", call) if crate else call.partition("::")
            clauses |= tree.clauses.get(home or "", set())
            faults += [] if name in tree.calls.get(home or "", ()) else [f"no call `{call}`"]
        named = [clause for group in re.findall(r"\(([^()]*)\)", second) for clause in QUOTED.findall(group)]
        faults += [f"{first} has no clause `{clause}`" for clause in named
                   if re.fullmatch(r"[a-z]\w*", clause) and clause not in clauses]
    return faults


def faults_of_words(tree: Tree, text: str) -> list[str]:
    """The words in backquotes that stand nowhere."""
    faults: list[str] = []
    homes = [tree.top, tree.top / "crates", tree.top / LAB.relative_to(TOP),
             *(tree.top / "crates" / crate for crate in tree.crates)]
    for quoted in QUOTED.findall(text):
        path = quoted.removeprefix("./").rstrip("/")
        if "/" in path and re.fullmatch(r"[\w./-]+", path):
            faults += [] if any((home / path).exists() for home in homes) else [f"no file `{quoted}`"]
        elif re.fullmatch(r"[\w:.]+", quoted):
            words = re.findall(r"[A-Za-z_]\w*", re.sub(r"\.(rt|antt|py|md|txt|c)$", "", quoted))
            faults += [f"no `{word}` of `{quoted}`" for word in words if word not in tree.words]
    return faults


def faults_of_edits(text: str, mark: str, known: set[str]) -> list[str]:
    """The wrong bodies that are named and are not there."""
    parts = re.findall(rf"\*\*{mark}\*\*:?(.*?)(?=\n\n|\Z)", text, re.S)
    return [f"no wrong body {name}" for part in parts
            for name in EDIT.findall(re.sub(r"`[^`]*`", "", part)) if name not in known]


def faults_of_page(tree: Tree, crate: str | None) -> list[str]:
    """What is wrong with a crate's README, or with docs/PROOFS.md."""
    path = tree.top / (f"crates/{crate}/README.md" if crate else "docs/PROOFS.md")
    if not path.is_file():
        return ["no README.md"] if crate else []
    text = path.read_text()
    faults = faults_of_rows(tree, text, crate) + faults_of_words(tree, text)
    if crate is None:
        return faults + faults_of_edits(text, "Refused", set().union(*tree.edits.values()))
    if not ("**Knows**" in text and "**Read first**" in text):
        faults.append("says not what it knows, or what to read first")
    return faults + faults_of_edits(text, "Wrong bodies", tree.edits[crate])


def faults_of_numbers(top: pathlib.Path) -> list[str]:
    """Where README.md says other numbers of definitions than docs/BELIEVE.md."""
    page, readme = top / "docs" / "BELIEVE.md", top / "README.md"
    if not page.is_file() or not readme.is_file():
        return []
    cells = [f"| {' | '.join(counts)} |" for counts in ROW.findall(page.read_text())]
    if not cells:
        return ["docs/BELIEVE.md has none of the rows whose numbers it tells"]
    return [f"has no row that ends {one} as docs/BELIEVE.md has: run .ci/believe" for one in cells
            if one not in readme.read_text()]


def look(tree: Tree) -> tuple[int, list[str]]:
    """How many pages are as they have to be, and what is wrong with the others."""
    by_page = {f"crates/{crate}/README.md": faults_of_page(tree, crate) for crate in tree.crates}
    by_page |= {"docs/PROOFS.md": faults_of_page(tree, None), "README.md": faults_of_numbers(tree.top)}
    lines = [f"{name}: {fault}" for name, faults in by_page.items() for fault in faults]
    return sum(not faults for faults in by_page.values()), lines


def main() -> int:
    """Looks, and says what is wrong."""
    count, lines = look(Tree(TOP))
    print("\n".join([*lines, f"{count} passed, 0 failed" if not lines else f"{len(lines)} faults"]))
    return 1 if lines else 0


if __name__ == "__main__":
    sys.exit(main())
