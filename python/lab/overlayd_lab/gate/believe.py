"""Writes docs/BELIEVE.md: the definitions that the contracts of the calls that matter most reach.

    .ci/believe                  writes the page, and its numbers into README.md
    .ci/believe --text ROW       prints the definitions of a row of the page, in the order in which they are read
    .ci/believe --texts FOLDER   writes there the texts of the rows that a release has
    .ci/believe --check          says whether the page is what it would write, and whether these texts can be printed;
                                 ends with 1 where not

It begins with the words of a call's contract and of its signature, and goes from each definition to those that its
text names, by the imports of the file and through what crates pass on (`pub use`): so it counts by names, and a name
that a definition binds itself is left out. Of a type with a model it takes what the model's value names; of any other
the payloads of its cases, and the fields that a contract or a definition names; of a trait its clauses. It does not
follow link words. It ends where a definition that is reached names one of `proofs/`, or one that is not there. Lemmas
are not counted; what is reached of the kit's own definitions is, in a column of its own."""

import argparse
import pathlib
import subprocess
import sys
import tomllib

from overlayd_lab import TOP
from overlayd_lab.gate.believing.house import Call, House, Link, Pin
from overlayd_lab.gate.believing.page import Law, Row, Tables, Reading, Word, is_written, page, with_numbers
from overlayd_lab.gate.believing.texts import file_of, text, twice

PAGE = pathlib.Path("docs/BELIEVE.md")


def tables() -> tuple[Tables, tuple[Link, ...], tuple[Pin, ...], list[str]]:
    """What the page is written from, link words, definitions that a law says whole, and the rows that a release has.

    `@NAME` in a list of tables.toml stands for the group of that name, and `@all but NAME` for all calls but one."""
    home = pathlib.Path(__file__).resolve().parent / "believing"
    given = tomllib.loads((home / "tables.toml").read_text())
    groups, packed = given["groups"], given["texts"]["packed"]
    calls = [Call(*one) for one in given["calls"]]

    def spelled(parts: list[str]) -> tuple[str, ...]:
        but = {part: [call.title for call in calls if part != f"@all but {call.title}"] for part in parts}
        return tuple(name for part in parts for name in (
            but[part] if part.startswith("@all but ") else groups[part[1:]] if part.startswith("@") else [part]))

    rows = [Row(**{key: spelled(said) if isinstance(said, list) else said for key, said in one.items()})
            for one in given["together"]]
    words = [Word(*one) for one in given["promises"]]
    laws = [Law(section, file, name) for section, file, names in given["laws"] for name in names]
    head = (home / "head.md").read_text().removesuffix("\n")
    head = head.replace("@PACKED@", ", ".join(f"`{title}`" for title in packed))
    links, pins = ([kind(**{key: tuple(said) if isinstance(said, list) else said for key, said in one.items()})
                    for one in given[name]] for kind, name in ((Link, "links"), (Pin, "pins")))
    return Tables(head, calls, rows, words, laws, tuple(given["texts"]["shown"])), tuple(links), tuple(pins), packed


TABLES, LINKS, PINS, PACKED = tables()


def kit() -> pathlib.Path:
    """The folder of the kit's crates: it is beside the page that `rt doc` names."""
    said = subprocess.run(["rt", "doc"], capture_output=True, text=True, check=True).stdout.split()
    return pathlib.Path(said[0]).parent / "rattle"


def packed(reading: Reading) -> dict[str, str]:
    """The texts that a release has, by the names of their files."""
    for title in PACKED:
        names = twice(reading.house.mine(reading.row(title)[1].keys))
        if names:
            raise SystemExit(f"believe: in the text of {title} a name has two meanings: {'; '.join(names)}")
    return {file_of(title): text(reading, title) for title in PACKED}


def main() -> int:
    """Writes the page or the texts, compares the page, or prints the text of a row."""
    parser = argparse.ArgumentParser(description=__doc__, formatter_class=argparse.RawDescriptionHelpFormatter)
    parser.add_argument("--check", action="store_true",
                        help="compare the page with what would be written, and make the texts")
    parser.add_argument("--text", metavar="ROW", help="print the contracts and definitions of a row of the page")
    parser.add_argument("--texts", metavar="FOLDER", type=pathlib.Path, help="write the texts that a release has")
    words = parser.parse_args()
    house = House(TOP, kit(), LINKS, PINS)
    if words.text:
        print(text(Reading(house, TABLES), words.text))
        return 0
    if words.texts:
        words.texts.mkdir(parents=True, exist_ok=True)
        for name, said in packed(Reading(house, TABLES)).items():
            (words.texts / name).write_text(said)
        return 0
    said = page(house, TABLES)
    if words.check:
        texts = packed(Reading(house, TABLES))
        is_same = is_written(TOP / PAGE, said)
        print(f"{1 + len(texts)} passed, 0 failed" if is_same
              else f"{PAGE} is not what .ci/believe writes: run .ci/believe")
        return 0 if is_same else 1
    (TOP / PAGE).write_text(said)
    readme = TOP / "README.md"
    readme.write_text(with_numbers(readme.read_text(), said))
    return 0


if __name__ == "__main__":
    sys.exit(main())
