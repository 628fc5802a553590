"""Tests of what the contracts of calls reach: small crates and a small kit, and what has to be found in them."""

import pathlib
import re

import pytest

from overlayd_lab.gate.believing import rust
from overlayd_lab.gate.believing.house import Call, House, Key, Link, Pin
from overlayd_lab.gate.believing.page import Law, Row, Tables, Reading, Word, is_written, page, quoted, with_numbers
from overlayd_lab.gate.believing.sources import fields_of, read_module, without
from overlayd_lab.gate.believing.texts import alike, file_of, meanings, names_of, text, twice

from .trees import texts_in, tree_in

LINKS = (Link("high", "Calls", "Handed", ("give",), ("take",)),)
FIELD = (Link("high", "Calls", "Handed", ("give",), ("take",), field="rest"),)


@pytest.fixture
def top(tmp_path: pathlib.Path) -> pathlib.Path:
    """The small tree, in a folder."""
    return tree_in(tmp_path, "believe")


def calls_of(*names: str) -> list[Call]:
    """Calls of the small tree."""
    return [Call(name, "high/src/calling.rt", name, "A call.") for name in names]


def low(*names: str) -> set[Key]:
    """Definitions of the lower crate."""
    return {("low", "Numbers", name) for name in names}


def test_reaches(top: pathlib.Path) -> None:
    """What the contracts reach: by names, operators, aliases, models, fields, payloads, and what crates pass on."""
    house = House(top, top / "kit")
    thing: set[Key] = {("", "low", "Thing"), *low("Pair")}
    wanted: dict[str, set[Key]] = {
        "go": {("high", "Calls", "Goes"), *low("twice"), ("core", "Numbers", "twofold"), *thing},
        "turn": {("high", "Calls", "Turns"), *low("Way", "inner", "◌>>=◌", "Pair")},
        "rest": {("high", "Calls", "Rests"), *low("Pair")},
        # Of an enum the payloads, of a struct the fields that something names: `thing`, and not `other`.
        "sort": {("", "low", "Kind"), ("", "low", "Box"), *thing},
        "opens": {("high", "Calls", "Opens"), ("", "low", "Box"), *thing},
        "give": {("high", "Calls", "Gives"), ("high", "Calls", "Handed"), ("high", "Calls", "Rests"),
                 *low("Part", "Pair")},
        "pass": {("above", "From", "Passed"), *low("Part", "Pair"), ("", "low", "Thing")},
        "store": {("", "low", "Store"), *low("Part", "Pair")},
    }
    for call in calls_of(*wanted):
        got = house.of_call(call).keys
        assert got == wanted[call.name], (call.name, got ^ wanted[call.name])
    for name, said in (("hide", "Hidden of high/proofs"),
                       ("lack", "Gone of low.Numbers, which has no such definition")):
        with pytest.raises(SystemExit, match=re.escape(f"high.Calls is reached, and names {said}")):
            house.of_call(calls_of(name)[0])


def test_hides(top: pathlib.Path) -> None:
    """What links hide: a definition, or a field; but not what is reached from the definitions that they name."""
    cases: list[tuple[tuple[Link, ...], set[str]]] = [
        (LINKS, {"Handed", "Rests", "Part", "Pair"}), (FIELD, {"Part"}),
        ((Link("high", "Calls", "Handed", (), (), but=("Gives",)),), set())]
    for links, hidden in cases:
        reach = House(top, top / "kit", links).of_call(calls_of("give")[0])
        assert not {key[2] for key in reach.keys} & hidden, (links, reach)
        assert ({link.title for link in reach.links} == {links[0].title}) == bool(hidden), reach.links
    house = House(top, top / "kit")
    for left_out, gone in [(("Handed.rest",), {"Part"}), (("Handed.few",), {"Rests"}),
                           (("Calls Handed",), {"Handed", "Part", "Rests"})]:
        reach = house.of_call(calls_of("give")[0], house.cut(left_out))
        assert not {key[2] for key in reach.keys} & gone and not reach.links, (left_out, reach)
    assert not house.mine(house.of_call(calls_of("go")[0], house.cut(("go: first",))).keys) & low("twice")
    assert house.of_call(calls_of("store")[0], house.cut(("Store: two",))).keys == {("", "low", "Store"), *low("Pair")}
    for call, wrong in (("go", "Handed.none"), ("go", "None"), ("go", "go: none"), ("store", "Store: three")):
        with pytest.raises(SystemExit):
            house.of_call(calls_of(call)[0], house.cut((wrong,)))
    parts: list[tuple[tuple[str, ...], set[str]]] = [
        (("Handed.few",), {"Handed", "Rests", "Pair"}), (("Handed.rest",), {"Handed", "Part", "Pair"}),
        (("Opens",), {"Opens", "Box", "Thing", "Pair"}),
        (("go: first", "Handed.few"), {"Goes", "twice", "twofold", "Thing", "Handed", "Rests", "Pair"}),
        (("Store: two",), {"Store", "Part", "Pair"})]
    for only, wanted in parts:
        reach, _ = house.of_parts(calls_of("go"), house.cut(only))
        assert {key[2] for key in reach.keys} == wanted, (only, reach)
    with pytest.raises(SystemExit, match="has no Handed.none"):
        House(top, None, (Link("high", "Calls", "Handed", (), (), field="none"),))


def test_pins(top: pathlib.Path) -> None:
    """What a law says whole: its statement is read in place of the definition."""
    law = Pin(("high", "Calls", "Goes"), "high/src/calling.rt", "goes_law", ("high", "Calls", "GoesLaw"))
    house = House(top, top / "kit", pins=(law,))
    assert house.of_call(calls_of("go")[0]).keys == {law.key, ("", "low", "Thing"), *low("Pair")}
    shown = ["-- goes up", "abbrev pub Goes : Thing → ℕ → Type 0",
             "-- the law `goes_law` says it whole: (n : ℕ) → Goes n n"]
    assert house.shown(law.key) == shown, house.shown(law.key)
    tables = Tables("# Head\n@PINS@", calls_of("go"), [], [], [])
    pinned = ("| [`Goes`](../crates/high/specs/Calls.antt) | [`goes_law`](../crates/high/src/calling.rt)"
              " | `(n : ℕ) → Goes n n` |")
    assert pinned in page(house, tables)
    for wrong, fault in [(Pin(law.key, law.file, "go", law.statement), "go does not promise GoesLaw"),
                         (Pin(("high", "Calls", "Gives"), law.file, law.law, law.statement),
                          "GoesLaw does not speak of Gives")]:
        with pytest.raises(SystemExit, match=re.escape(fault)):
            House(top, top / "kit", pins=(wrong,))


def small_tables() -> Tables:
    """A page of the small tree: three calls, and rows of them."""
    return Tables("# Head\n@CONTRACT@\n@LINKS@\n@WITHOUT@", calls_of("go", "give", "take"),
                  [Row("both", ("go", "take"), "Two."), Row("few", ("go", "take"), "Less.", ("Goes", "go: first")),
                   Row("part", ("give",), "One field.", only=("Handed.rest",))],
                  [Word("high", "Calls", "Goes", "A word.")], [Law("go", "high/src/calling.rt", "goes_law")])


def test_writes(top: pathlib.Path) -> None:
    """The page."""
    house = House(top, top / "kit", LINKS)
    tables = small_tables()
    said = page(house, tables)
    for line in ["| `go` | 3 | 10 | 2 | 1 (3) | 16 | A call. |", "| `give` | 1 | 2 | 1 |  | 5 | A call. |",
                 "| both | 4 | 12 | 2 | 1 (3) | 21 | Two. |",
                 "| [`Handed`](../crates/high/specs/Calls.antt) | `give` | `take` |", "Link words: `Handed`.",
                 "Of the kit: core Numbers `twofold`.", "    pub fn go(thing: &Thing) -> usize",
                 "- [`goes_law`](../crates/high/src/calling.rt): What goes, goes on.",
                 "`Goes`](../crates/high/specs/Calls.antt) | 3 | 10 | 2 | 1 (3) | A word. | `go` 3 |"]:
        assert line in said, (line, said)
    assert said.index("low Numbers") < said.index("high Calls") and "`Thing` as `Pair`" in said
    assert "| few | 2 | 6 | 2 |  | 12 | Less. |" in said and "- `few` leaves out `Goes`, `go: first`." in said, said
    assert "- `part` has `Handed.rest`." in said
    for wrong, fault in [(Law("give", "high/src/calling.rt", "goes_law"), "speaks of nothing"),
                         (Law("go", "high/src/calling.rt", "go"), "no law")]:
        with pytest.raises(SystemExit, match=re.escape(fault)):
            page(house, Tables("", tables.calls, [], [], [wrong]))


def test_prints(top: pathlib.Path) -> None:
    """The texts of rows."""
    house = House(top, top / "kit", LINKS)
    tables = small_tables()
    row = text(Reading(house, tables), "both")
    in_turn = ["abbrev pub twice", "-- goes up\nabbrev pub Goes", "Takes n = Handed n → Goes n n"]
    assert in_turn == sorted(in_turn, key=row.index)
    assert "What to believe of: both (4 definitions, 12 lines)" in row and "idle" not in row
    seen = "`Thing`, a type of low: each value is seen as `Pair`, and keeps to\n    λ t. Part ≡ Part\n\n-- a part\n"
    assert row.index(seen) > row.index("pub left")
    assert "goes_law (crates/high/src/calling.rt): What goes, goes on.\n\nabbrev pub GoesLaw : Type 0\n" in row
    places = dict(re.findall(r"(\w+) (\d+)(?:,|$)", row.partition("==== Names, and the lines at which they are\n\n")[2],
                             re.M))
    assert set(places) == {"Goes", "GoesLaw", "Pair", "Part", "Takes", "Thing", "twice", "twofold"}, places
    assert row.splitlines()[int(places["Goes"]) - 1] == "abbrev pub Goes : Thing → ℕ → Type 0" and "left" not in places
    assert "==== Of the kit: core Numbers\n\n-- both\nabbrev pub twofold : ℕ → ℕ\ntwofold n = n + n\n" in row, row
    for call, head, lines in [("opens", "A type of low: Box",
                               "/// A box.\npub struct Box<D: Disk> {\n    pub(crate) thing: Vec<Thing>,\n}\n"),
                              ("sort", "A type of low: Kind",
                               "pub enum Kind {\n    /// One.\n    One { thing: Thing },\n    Two(Box<u8>),\n}\n")]:
        looked = text(Reading(house, Tables("", calls_of(call), [], [], [])), call)
        assert f"==== {head}\n\n{lines}" in looked, looked
        assert call == "sort" or looked.index(f"==== {head}") < looked.index("abbrev pub Opens"), looked
    cut = Tables("", calls_of("store"), [Row("less", ("store",), "Less.", ("Store: two",))], [], [])
    assert "ensures one" in text(Reading(house, cut), "less") and "ensures two" not in text(Reading(house, cut), "less")
    less = text(Reading(house, cut), "less")
    assert less.index("A type of low: Store") < less.index("pub record Pair")
    assert ("    go: first" in text(Reading(house, tables), "few")
            and "{ Goes thing.now result }  // left out" in text(Reading(house, tables), "few"))
    assert "    Handed.rest" in text(Reading(house, tables), "part")
    every = text(Reading(house, tables), "all together")
    assert (all(f"==== {call.title}: A call." in every for call in tables.calls)
            and "; 26 lines with contracts, types and these" in every), every
    assert ("  -- fields left out, of which the sentence may speak: few" in text(Reading(house, tables), "part")
            and "pub few" not in text(Reading(house, tables), "part"))


def test_proves(top: pathlib.Path) -> None:
    """What a text prints besides: a law with words that its row has not, and the type that has a method."""
    house = House(top, top / "kit", LINKS)
    for shown in (("goes_law",), ()):
        tables = Tables("", calls_of("go", "rest"), [], [], [Law("go", "high/src/calling.rt", "goes_law")], shown)
        row = text(Reading(house, tables), "rest")
        assert ("goes_law" in row) == ("-- goes up" in row) == ("-- both" in row) == bool(shown), row
        assert "(2 definitions, 6 lines)" in row, row
    head = ["impl Thing {", "pub fn look(&self) -> usize", "    ensures { Pair }"]
    assert quoted(house, calls_of("look")[0]) == head, quoted(house, calls_of("look")[0])


def test_names(top: pathlib.Path) -> None:
    """The names that have two meanings, as definitions, types and cases; and those that differ in letters' cases."""
    found = names_of(House(top, top / "kit"), {("", "low", "Kind"), ("", "low", "Box"), *low("Way", "twice", "Pair"),
                                               ("above", "From", "Passed")})
    assert (found["Two"] == ["a case of Kind, a type of low"]
            and found["up"] == ["a case of Way, a definition of low Numbers"]), found
    assert meanings(found) == [] and alike(found) == []
    found["up"].append("a type of low")
    found["TWICE"] = ["a type of low"]
    assert meanings(found) == ["up: a case of Way, a definition of low Numbers; a type of low"], meanings(found)
    assert alike(found) == ["TWICE, a type of low; twice, a definition of low Numbers"], alike(found)


def test_compares(top: pathlib.Path) -> None:
    """The numbers of README.md, and what is as it would be written."""
    rows = ("| `locate` | 4 | 1,009 | 2 |  | 1,010 |\n| the sentence in bold | 5 | 8 | 2 | 3 (4) | 21 |\n"
            "| a crash of a run, and its opening | 5 | 9 | 2 |  | 22 |\n"
            "| all without what stands beside | 5 | 3 | 2 |  | 23 |\n| all together | 6 | 7 | 2 |  | 24 |\n")
    readme = ("| Line | Reply | Meaning |\n|---|---|---|\n| a line of 1 | 2 | lines |\n\n"
              "| To read | Definitions | Lines | In all |\n|---|---|---|---|\n"
              "| LOCATE | 1 | 2 | 1 |\n| new files | 3 | 4 | 1 |\n| a crash | 3 | 4 | 1 |\n| most | 3 | 4 | 1 |\n"
              "| all | 5 | 1,006 | 9 |\n")
    numbered = with_numbers(readme, rows)
    assert numbered == readme[: readme.index("| LOCATE")] + (
        "| LOCATE | 4 | 1,009 | 1,010 |\n| new files | 5 | 8 | 21 |\n| a crash | 5 | 9 | 22 |\n"
        "| most | 5 | 3 | 23 |\n| all | 6 | 7 | 24 |\n"), numbered
    kept, other = top / "kept.md", top / "other.md"
    kept.write_text("kept")
    assert is_written(kept, "kept") and not is_written(kept, "more") and not is_written(other, "none")


def test_reads() -> None:
    """Modules within modules, the lines that are shown, and trees of `use`."""
    module = read_module(texts_in("believe")["crates/low/specs/Numbers.antt"])
    deep = module.definitions["Innermost"]
    assert deep.within == "module _ (p : Pair) where\nmodule _ (n : ℕ) (m : ℕ) where" and deep.lines == 3, deep
    assert module.definitions["Part"].within == "" and module.definitions["Part"].lines == 3
    assert module.definitions["inner"].lines == 3 and module.constructors["down"] == "Way"
    assert rust.leaves("a::{b::C as D, e::{F, G}}") == [("D", ("a", "b", "C")), ("F", ("a", "e", "F")),
                                                        ("G", ("a", "e", "G"))]
    assert twice({("low", "A", "same"), ("high", "B", "same"), ("low", "A", "code_of"),
                  ("high", "B", "code_of")}) == ["same: high B, low A"]
    assert file_of("a crash of a run, and its opening") == "a-crash-of-a-run-and-its-opening.txt"
    shown = ["-- a claim", "pub record P : Type 0 where", "  pub a : A", "  -- of b", "  pub b : B", "    → C",
             "  -- of c", "  pub c : C"]
    assert fields_of(shown) == {"a", "b", "c"} and without(shown, set()) == shown
    assert without(shown, {"b"}) == [*shown[:3], *shown[6:],
                                     "  -- fields left out, of which the sentence may speak: b"], without(shown, {"b"})
    assert without(shown, {"c", "a"}) == [*shown[:2], *shown[3:6],
                                          "  -- fields left out, of which the sentence may speak: a, c"]
