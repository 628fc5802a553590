"""Prints what each file of code is, its functions and its constants: the page that a release has as docs/ROOMS.md.

    .ci/rooms            prints the page
    .ci/rooms NAME..     prints the part of some crates
    .ci/rooms --check    says whether the page can be printed, whether just the types of DROPS have a `drop` of their
                         own, whether no code asks that a disk may be let go, whether each call that has a store open
                         returns, and whether tests alone open a disk that was shut; ends with 1 where not

Crates stand in the order of crates.txt, files by name; of Python `python3 -m pydoc MODULE` says the same. A file is
said by the sentence at its head; a file without one, or with an empty one, is a fault. Functions and constants stand in
their order, each with the first sentence of its comment, a constant also with its value where that is short; after them
those without a sentence: of a type as `Type::name`, of a trait's `impl` as `Type as Trait::name`; public ones, and
those of such an `impl`, are bold. Crates of tests are left out.
"""

import itertools
import pathlib
import re
import sys
from typing import NamedTuple

from overlayd_lab import TOP
from overlayd_lab.counting import Words
from overlayd_lab.gate import functions
from overlayd_lab.gate.functions import bare

HEAD = """# Rooms

Each file of code by the sentence at its head, its functions and constants by the first sentence of each: look here for
where a thing is done, and by a short value for where a number stands. `.ci/rooms` printed the page from the sources.
Crates stand lowest first, as in `crates.txt`; what a crate knows, its calls and their clauses are in its README. `git
grep -nw NAME` shows all places that name a function, and `git grep -nE '\\bNAME(::<[^>]*>)?\\(' 'crates/*/src/*.rt'`
most of its calls; what `?`, `==`, `<`, a format or the end of a scope calls, neither shows. Bold is what is written
`pub` and what an `impl` for a trait has, as `Type as Trait::name`; one that a trait declares is `Trait::name`. At the
end of a file stand those without a sentence. Types and crates of tests are left out. Which enum gives an error its
number, crates/fault_texts/README.md says.
"""
MARK = "\n### "  # before each file of the page
# Types whose values end by code of their own. None of them has a disk: a `drop` has no contract, and is run wherever a
# value ends, so one of a type with a disk could write to it after all was reported durable. Below programs no body can
# let a disk go, as long as no type parameter of a disk has the bound `Drop`: `serve` and all below hand it on.
DROPS = ("versions::Version", "book_history::Entry", "book_history::LogWord", "book_lock::LockedLog",
         "version_book::Shared", "version_book::Turn", "version_book::Turns")
# A bound of a disk's type parameter, which is D wherever there is one, that lets its values go.
LETS_GO = re.compile(r"\bD: [^,>={]*\bDrop\b")
# A crate that machines of tests alone are in.
MACHINES = "test_machines"
# Crates that have a store or its disk open, and the bounds by which a call may end otherwise than by returning. A
# clause binds what returns: without these bounds each of their calls does, and no code above them has a store, or the
# disk of one, open.
OPEN = ("disk_model", "root_reading", "commit_plan", "root_store", "flush_core", "overlay_engine", "kept_store")
STAYS = re.compile(r"\b(?:Wait|Abort)\b")
# What opens a disk that a store gave up: tests alone have it. It stands in its own file besides.
OPENER = re.compile(r"\bKey\b")
LOCK = "crates/root_store/src/shut.rt"


def first_sentence(text: str) -> str:
    """The first sentence of a comment, in one line."""
    words = " ".join(text.strip().split("\n\n")[0].split())
    found = re.match(r"(.*?[.:])(?= [A-Z]|$)", words)
    return (found[1] if found else words).removesuffix(":")


def short(value: str) -> str:
    """A value as the pages have it: digits in groups of three, nothing where it is long."""
    if re.fullmatch(r"-?[\d_]+", value):
        return f"{int(value):,}"
    return value if len(value) <= 30 and "{" not in value else ""


def owner_of(block: re.Match[str] | None) -> str:
    """The type whose functions a block has, and the trait that it has them by."""
    if not block or block["trait"]:
        return block["trait"] if block else ""
    trait, made, of = block["made"].partition(" for ")
    return f"{bare(of)} as {bare(trait)}" if made else bare(trait)


class Item(NamedTuple):
    """A function or a constant of a file: its name, whether it is public, the first sentence of its
    comment, and its value."""

    name: str
    is_public: bool
    does: str
    value: str

    def shown(self) -> str:
        """The name as the page has it, with the value if there is one."""
        name = f"**`{self.name}`**" if self.is_public else f"`{self.name}`"
        return f"{name} = {self.value}" if self.value else name


def comment_of(lines: list[str]) -> str:
    """The first sentence of what stands at the end of some lines: of its `///` lines, if it has any."""
    above = list(itertools.takewhile(lambda line: line.startswith(("//", "#[")), map(str.strip, reversed(lines))))
    said = [line for line in reversed(above) if line.startswith("//")]
    documents = [line for line in said if line.startswith("///")]
    return first_sentence("\n".join(line.lstrip("/").strip() for line in documents or said))


def items(source: str) -> list[Item]:
    """The functions and constants of a file."""
    lines = source.splitlines()
    return [Item("::".join(filter(None, (owner_of(block), head["name"] or head["constant"]))),
                 bool(head["public"]) or " as " in owner_of(block), comment_of(lines[:at]), short(head["value"] or ""))
            for at, head, block in functions.items(lines)]


def sentence(source: str) -> str:
    """What the file says at its head, in one line."""
    head = itertools.takewhile(lambda line: line.startswith("//!"), source.splitlines())
    return " ".join(line[3:].strip() for line in head).strip()


def part(path: pathlib.Path, top: pathlib.Path) -> list[str]:
    """The lines of a file."""
    source = path.read_text()
    said = sentence(source)
    if not said:
        raise SystemExit(f"rooms: {path} has no sentence at its head")
    all_items = items(source)
    lines = [f"- {one.shown()}: {one.does}" for one in all_items if one.does]
    rest = [one.shown() for one in all_items if not one.does]
    return [f"### {path.relative_to(top).as_posix()}", "", said, *([""] if lines else []), *lines,
            *(["", f"Also {', '.join(rest)}."] if rest else []), ""]


def crates(top: pathlib.Path) -> list[str]:
    """The crates, lowest first, without those of tests."""
    lines = (top / "crates.txt").read_text().splitlines()
    names = [line.partition(":")[0].split()[0] for line in lines if ":" in line and not line.startswith("#")]
    return [name for name in names if not name.endswith("_tests")]


def files(top: pathlib.Path, crate: str) -> list[pathlib.Path]:
    """The files of code of a crate, by name."""
    return sorted((top / "crates" / crate / "src").rglob("*.rt"))


def drops(top: pathlib.Path) -> set[str]:
    """The types that have a `drop` of their own, each with its crate."""
    return {f"{crate}::{name.partition(' as ')[0]}"
            for crate in crates(top) if crate != MACHINES for path in files(top, crate)
            for name, *_ in items(path.read_text()) if name.endswith(" as Drop::drop")}


def faults_of_drops(made: set[str], known: tuple[str, ...]) -> list[str]:
    """What is wrong with the types that have a `drop` of their own."""
    return [f"{name} has a drop of its own that DROPS of .ci/rooms does not know"
            for name in sorted(made - set(known))] + [
        f"{name} of DROPS of .ci/rooms has no drop of its own" for name in sorted(set(known) - made)]


def faults_of_disks(top: pathlib.Path) -> list[str]:
    """The lines that ask that a disk may be let go, those by which a call that has a store open may not return, and
    those that open a disk which was shut."""
    found: list[str] = []
    for crate in crates(top):
        for path in files(top, crate):
            place = path.relative_to(top).as_posix()
            for number, line in enumerate(path.read_text().splitlines(), 1):
                code = line.partition("//")[0]
                if crate in OPEN and STAYS.search(code):
                    found.append(f"{place}:{number} may not return, and has a store open")
                if crate != MACHINES and place != LOCK and OPENER.search(code):
                    found.append(f"{place}:{number} opens a disk that is shut")
                if crate != MACHINES and LETS_GO.search(line):
                    found.append(f"{place}:{number} asks that a disk may be let go")
    return found


def of_crate(top: pathlib.Path, crate: str) -> str:
    """The part of a crate."""
    return "\n".join([f"## {crate}", "", *(line for path in files(top, crate) for line in part(path, top))])


def pages(top: pathlib.Path, names: list[str]) -> str:
    """The parts of some crates; of none the whole page."""
    strange = [name for name in names if name not in crates(top)]
    if strange:
        raise SystemExit(f"rooms: {strange[0]} is no crate but for tests")
    return "\n".join([*([] if names else [HEAD]), *(of_crate(top, name) for name in names or crates(top))])


def main() -> int:
    """Prints the page or parts of it, or checks what it says."""
    parser = Words(__doc__)
    parser.add_argument("names", nargs="*", metavar="NAME", help="a crate")
    parser.add_argument("--check", action="store_true", help="only say whether all of it can be told, and is right")
    words = parser.parse_args()
    text = pages(TOP, words.names)
    if not words.check:
        print(text, end="")
        return 0
    faults = [*faults_of_drops(drops(TOP), DROPS), *faults_of_disks(TOP)]
    print("\n".join(faults) or f"{text.count(MARK) + len(DROPS)} passed, 0 failed")
    return 1 if faults else 0


if __name__ == "__main__":
    sys.exit(main())
