"""Tries edits that stand here on a source that stands here, by a prover that says what stands here, and reads edits."""

import dataclasses
import os
import pathlib

import pytest

from overlayd_lab.gate import edits, functions, refusals
from overlayd_lab.gate.edits import BESIDE, CONTROL, REFUTATION, TIERS, Edit, Pair
from overlayd_lab.gate.wrong_bodies import (
    UNREFUSED, Change, Outcome, Prover, Trial, changed_by, counts, groups, lack_of, match, report, with_holes)

from .trees import texts_in

SOURCE = texts_in("wrong_bodies")["thing.rt"]
MADE, FROM, INNER, OUTER = "thing::Thing::made", "thing::OtherFromFault::from", "thing::inner", "thing::outer"
ANSWERS, SEARCHES = "proofs/thing/Thing/made/Answers.antt", "proofs/thing/outer/Answers.antt"
TEXTS = {"src/thing.rt": SOURCE, "proofs/Laws.antt": "law\n", ANSWERS: "returns : goal\nreturns c = refl\n",
         SEARCHES: "returns : goal\nreturns c = search rules\n"}
# Edits, each with what it makes of a line, what it changes, and what becomes of it.
CASES = {
    "another_clause": ("ensures { result ≡ 1 }", "ensures { result ≡ 2 }", Change(frozenset([MADE]), False),
                       "not refused"),
    "another_width": ("    width: u8,", "    width: u16,", None, "not refused"),
    "outer_of_two": ("    inner()\n}\n\ntrait", "    inner() + 2\n}\n\ntrait", Change(frozenset([OUTER]), True),
                     "a clause, at a limit of the search (returns)"),
    "outer_of_three": ("    inner()\n}\n\ntrait", "    inner() + 3\n}\n\ntrait", Change(frozenset([OUTER]), True),
                       "a clause, at a search that is written down (returns)"),
    "another_one": ("    /// Makes one.", "    pub fn another() { } /// Makes one.",
                    Change(frozenset(["thing::Thing::another"]), False), "not refused"),
    "another_thing": ("struct Thing<D>(D);", "struct Thing<D>(D, D);", None, "an operation (add-fits)"),
    "four_steps": ("STEPS: u8 = 3;", "STEPS: u8 = 4;", Change(frozenset([FROM, INNER]), False),
                   "a condition of what is called (all-requires)"),
    "from_another": ("further(STEPS)", "further(0)", Change(frozenset([FROM]), True), "a name that is gone (returns)"),
    "made_of_none": ("        inner()", "        inner() - 1", Change(frozenset([MADE]), True),
                     "a clause, shown to be false (returns-clause-a)"),
    "made_of_two": ("        inner()", "        inner() + 1", Change(frozenset([MADE]), True),
                    "a clause, at its written proof (returns)"),
    "inner_of_two": ("    1", "    2", Change(frozenset([INNER]), True), "an invariant (loop-i-init)"),
    "inner_unread": ("    for _ in 0..STEPS {}", "    for _ in 0 {}", Change(frozenset([INNER]), True),
                     "not tried (src/thing.rt:28:5: error: a number is no range)"),
    "inner_untold": ("    for _ in 0..STEPS {}", "    loop {}", Change(frozenset([INNER]), True),
                     "not tried (logic=unknown)"),
    "inner_worded": ("    for _ in 0..STEPS {}", "    for _ in 0..STEPS { }", Change(frozenset([INNER]), True),
                     "not refused"),
    "let_go": ("fn drop(self) {}", "fn drop(self) { }", None, "not refused"),
}
# What a check says of each change of the source, of which function, and how it ends then.
SAYS = {
    "further(0)": (f"./{ANSWERS.replace('Thing/made', 'OtherFromFault/from')}:3:5: error: `returns`: record `c.a`\n"
                   "  has no field `b`", FROM, ""),
    "inner() - 1": ("note: src/thing.rt:12:9: it is not proved that what it ensures holds (`returns-clause-a`); the"
                    " facts known there allow values at which this goal is false", MADE, ""),
    "inner() + 1": (f"./{ANSWERS}:3:5: error: `returns`: `search`: no proof of `x` was found", MADE, ""),
    "inner() + 2": ("note: src/thing.rt:39:5: it is not proved that x (`returns`); `search` gave up at one of its"
                    " limits", OUTER, "no proof: expected answers in ./proofs; `search` did not prove `returns`"),
    "inner() + 3": (f"./{SEARCHES}:2:5: error: `returns`: `search`: no proof of `x` was found", OUTER, ""),
    "    2\n": ("", INNER, "no proof: expected answers in ./proofs; `search` did not prove `loop-i-init`, `returns`"),
    "u8 = 4": ("fn one::thing::fn::inner::all: no proof: `search` did not prove `all-requires`; it calls `one::g`",
               INNER, ""),
    "(D, D)": ("", INNER, "no proof: `search` did not prove `add-fits`"),
    "0 {}": ("src/thing.rt:28:5: error: a number is no range", INNER, "no proof: `search` did not prove `add-fits`"),
    "loop {}": ("note: src/thing.rt:28:5: it is not proved that the loop ends (`loop-falls`)", INNER, "could not tell"),
}


FITS = "file: src/thing.rt\nold:         inner()\nnew: outermost()\nold: outermost()\nnew: inner(1)\n"
UNFIT = "file: src/thing.rt\nold: outermost()\nnew: inner()\n"
ASTRAY = "file: src/../README.md\nold: inner()\nnew: outer()\n"
# Parts of a crate's file of wrong bodies.
TRIED = f"tried {'0' * 64}\n"
BODY = "== body\nsrc/thing.rt\n-         inner()\n+         outer()\nproofs/Laws.antt\n- law\n+\n"
GATED = "beside must-fail/fits.edit\n"
CONTROLLED = "control\nsrc/thing.rt\n-         inner()\n+         inner( )\n"
REFUTED = "refutation\nsrc/thing.rt\n- result ≡ 1\n+ result ≡ 2\n"
WRONG_FILES = (
    # None of the form.
    "", "\n", f"{BODY}\n", f"\n{BODY}", f"{BODY}\n\n{GATED}{CONTROLLED}", f"{BODY}# a word\n", f"{BODY}old\n",
    BODY.removesuffix("+\n"), BODY.replace("- law\n", ""), BODY.replace("+\n", "+ \n"),
    BODY.replace("src/thing.rt\n", ""), BODY.replace("src/", "source/"), BODY.replace("== body", "== a body"),
    BODY.replace("== ", ""), "== body\n", f"== body\n{CONTROLLED}", f"{BODY}control\n", f"{BODY}{REFUTED}{CONTROLLED}",
    f"{BODY}{CONTROLLED}{CONTROLLED}", GATED, f"{GATED.replace('.edit', '')}{CONTROLLED}",
    f"{GATED}{BODY.partition(chr(10))[2]}", f"{TRIED[:-2]}\n\n{BODY}", f"{TRIED}{BODY}", f"{BODY}\n{TRIED}",
    # A name that stands twice, one that must-fail/ has too, and one beside nothing.
    f"{BODY}\n{BODY}", BODY.replace("body", "fits"), f"{GATED}{CONTROLLED}".replace("fits", "body"),
    # What does not fit, or has nothing of src/; a control of another function tells nothing of the wrong body.
    BODY.replace("inner()", "further()"), BODY + CONTROLLED.replace("inner()", "further()"),
    BODY + REFUTED.replace("≡ 1", "≡ 3"), "== body\nproofs/Laws.antt\n- law\n+ laws\n",
    BODY + CONTROLLED.replace("inner()", "further(STEPS)").replace("inner( )", "further(0)"),
)


@pytest.fixture
def top(tmp_path: pathlib.Path) -> pathlib.Path:
    return tmp_path


class SmallProver(Prover):
    """A prover that says what stands here."""

    def __init__(self, refused: str = "") -> None:
        self.refused = refused
        self.asked: list[list[str]] = []

    def output(self, crate: str, texts: dict[str, str], *words: str) -> str:
        """What a check of these texts prints."""
        if "proofs/thing/inner/Proof.antt" in texts:
            return "./proofs/thing/inner/Proof.antt: error[reserved-name]: rattle generates the module\n\n"
        self.asked.append([word for word in words if "::" in word])
        sayings = {name: "not proved" if name == self.refused else "no holes" for name in (MADE, FROM, INNER, OUTER)}
        lines: list[str] = []
        for change, (line, name, said) in SAYS.items():
            if change in texts["src/thing.rt"]:
                lines.append(line)
                sayings[name] = said or "not proved; it stands on what antt refuses"
        lines += [f"fn one::{name}: {said}" for name, said in sayings.items()]
        is_refused = any(said.startswith(refusals.REFUSED) for said in sayings.values())
        last = ("logic=not-proved" if is_refused else "logic=unknown" if "loop {}" in texts["src/thing.rt"]
                else "logic=proved")
        return "\n".join([*lines, "only=3 holes=1" if words else last, ""])


def case(name: str, beside: str = "") -> Edit:
    """One of the edits that stand here."""
    return Edit("one", name, (Pair("src/thing.rt", *CASES[name][:2]),), beside)


def tried(names: list[str], refused: str = "", beside: tuple[Edit, ...] = ()) -> tuple[Trial, SmallProver]:
    """A trial, after it, of some of the edits that stand here, and of controls."""
    prover = SmallProver(refused)
    given = [*map(case, names), *beside]
    trial = Trial(prover, "one", TEXTS, given)
    trial.run(is_proved=False)
    return trial, prover


def test_trials() -> None:
    """Tries the edits that stand here on the source that stands here, by a prover that says what stands here."""
    trial, prover = tried([*CASES])
    assert [one.name for one in trial.sources.functions if one.is_own] == [MADE, FROM, "thing::law", INNER, OUTER]
    for one in trial.candidates:
        _, _, change, said = CASES[one.edit.name]
        assert one.change == (change or Change(frozenset(), False)), one
        assert str(trial.outcomes[one.edit]) == said, trial.outcomes[one.edit]
    assert sum(found.is_right for found in trial.outcomes.values()) == 6, trial.outcomes
    assert prover.asked[-1] == [] and trial.cycles == {INNER}, prover.asked
    # A block for some types alone has its functions by the module where it stands, and another by that of its type.
    blocks = {one: f"impl<D> {one} {{\n    fn new() {{}}\n}}\n" for one in ("Thing<D>", "Thing<D, a::Stop>")}
    named = [functions.of_crate({**TEXTS, "src/stop.rt": text})[-1].name for text in blocks.values()]
    assert named == ["thing::Thing::new", "stop::Thing+D+Stop::new"], named
    # Edits of one function, and those of more than bodies, are never in one check; others are.
    grouped = groups(trial.sources, [one for one in trial.candidates if one.change.functions])
    assert any(len(group) > 1 for group in grouped), grouped
    for group in grouped:
        assert len(group) == 1 or all(one.change.is_body for one in group), group
        assert sum(len(one.change.functions) for one in group) == len(changed_by(group)), group
        assert not changed_by(group) >= {MADE, INNER} and not changed_by(group) >= {OUTER, INNER}, group
    # A function that is refused without an edit as well says nothing of the edit: the whole crate does.
    trial, prover = tried(["made_of_two", "inner_of_two"], refused=MADE)
    assert trial.checks["of a whole crate"] == 1 and prover.asked[-2] == [MADE, INNER], prover.asked
    trial.outcomes.clear()
    trial.run(is_proved=True)
    assert trial.checks["without an edit"] == 1 and len(trial.outcomes) == 2, trial.checks
    # A hole stands for each function that is not kept; a pair beside src/ changes no function, and not a body alone.
    holed = with_holes("one", trial.sources, TEXTS, {INNER})
    assert ANSWERS not in holed and "proofs/thing/inner/Proof.antt" not in holed
    assert "pub made_spec" in holed["proofs/thing/Thing/made/Proof.antt"]
    adapted = Edit("one", "adapted",
                   (Pair("src/thing.rt", "        inner()", "        outer()"), Pair(ANSWERS, "refl", "sym refl")))
    assert trial.sources.change(adapted) == Change(frozenset([MADE]), True)
    further = Edit("one", "further", (*case("made_of_two").pairs, Pair("proofs/Laws.antt", "law", "laws")))
    assert trial.sources.change(further) == Change(frozenset([MADE]), False)
    # That a loop may not end says nothing of the contract, whoever says it.
    assert not any(refusals.Refusal(refusals.kind_of("loop-by-smaller") + by, "").is_meant
                   for by in ("", refusals.WRITTEN))
    # A written proof that is a search alone is told apart, and no other.
    fallen = refusals.Refusal(f"a clause{refusals.WRITTEN}", "returns", ANSWERS)
    for text in ("returns c = search rules\n\nother c = refl\n", "returns g c = λ a b. omega arith",
                 "returns : goal\nreturns c =\n    grind (arith, a)\n"):
        assert refusals.manner_of(fallen.kind_in({ANSWERS: text})) == refusals.AT_OPEN, text
    for text in ("", "returns-then c = search rules", "returns c = let a = b in search rules",
                 "returns c = (search rules, refl)", "returns c =\n    let a = b in\n    search rules"):
        assert refusals.manner_of(fallen.kind_in({ANSWERS: text})) == refusals.AT_WRITTEN, text
    # What antt could not read, or a library that is of other libraries, is no refusal.
    for line in ("src/a.rt:1:1: error: `x` is not in scope", "specs/A.antt:1:1: error: expected a type",
                 f"{ANSWERS}:1:1: error: y", "module `Rattle-one-specs` is not current. Run the lower steps again"):
        assert not refusals.read(f"{line}\nonly=1 holes=1\n", [], {ANSWERS}).is_reached, line
    # A lemma that a changed definition leaves without a proof refuses the goals that cite it; one that names what is
    # gone, none.
    cited = (f"{ANSWERS}:3:5: error: 1 declaration that depends on `placed`, which was not admitted, was not checked:"
             " returns-clause-a")
    for said, kind in (("`nested`: expected type `x`, but this has type `y`", f"a clause{refusals.WRITTEN}"),
                       ("`nested`: record `x` has no field `y`", refusals.GONE_KIND)):
        lines = (f"./proofs/Laws.antt:2:8: error: {said}\n{cited}\n"
                 f"fn one::{MADE}: not proved; it stands on what antt refuses\nonly=1 holes=1\n")
        found = refusals.read(lines, [], set()).refusal(frozenset([MADE]))
        assert found and (found.kind, found.goal) == (kind, "returns-clause-a" if found.is_meant else "?"), found
    # A check past holes names the lemma instead.
    stands = (f"fn one::{MADE}: not proved; it stands on `Rattle.one.proofs.Laws.nested`, `Rattle.one.proofs.Laws.of`,"
              " which antt refuses\nonly=1 holes=0\n")
    for said, goal in (("expected type `x`, but this has type `y`", "nested"), ("record `x` has no field `y`", None)):
        read = refusals.read(f"./proofs/Laws.antt:2:8: error: `nested`: {said}\n{stands}", [], set())
        found = read.refusal(frozenset([MADE]))
        assert (found and (found.is_meant, refusals.manner_of(found.kind), found.goal)) == (
            goal and (True, refusals.AT_WRITTEN, goal)), found


def test_controls() -> None:
    """Tries controls, and asks for those of wrong bodies that were asked for."""
    worded, fallen = case("inner_worded", CONTROL), case("outer_of_two", CONTROL)
    gone, unread = case("from_another", CONTROL), case("inner_unread", CONTROL)
    trial, prover = tried(["made_of_two"], beside=(worded, fallen, gone, unread))
    said = {one: str(found) for one, found in trial.outcomes.items() if one.beside}
    assert said == {worded: "not refused", fallen: "refused: a clause, at a limit of the search (returns)",
                    gone: "refused: a name that is gone (returns)",
                    unread: "not tried (src/thing.rt:28:5: error: a number is no range)"}, said
    assert {one for one, found in trial.outcomes.items() if found.is_right} == {case("made_of_two"), worded}
    # Controls of one function are made together, a control and a wrong body of one never.
    both = tried([], beside=(worded, case("inner_of_two", CONTROL)))[0]
    mixed = tried(["inner_of_two"], beside=(worded,))[0]
    assert len(groups(both.sources, both.candidates)) == 1 and len(groups(mixed.sources, mixed.candidates)) == 2
    # A check without an edit forgets no control.
    assert trial.checks["without an edit"] == 1 and sorted(prover.asked, key=len)[0] == [], prover.asked
    pairs = (Pair("src/thing.rt", "a", "b"),)
    written = Outcome(True, f"a clause{refusals.WRITTEN}", "returns")
    limited = Outcome(True, f"a clause{refusals.LIMIT}", "returns")
    searched = Outcome(True, f"a clause{refusals.WRITTEN_SEARCH}", "returns")
    shown = Outcome(True, f"a clause{refusals.SHOWN}", "returns")
    asked, other = Edit("one", "job_dropped", pairs), Edit("one", "made_of_two", pairs)
    control, refutation = (dataclasses.replace(asked, beside=kind) for kind in BESIDE)
    assert lack_of(asked, {asked: written}) == "it was asked for, and lacks a control"
    unrefused, refused = Outcome(True, UNREFUSED), Outcome(False, "refused: a clause")
    for outcomes, failed, last in (
        ({asked: written}, 1, "at a written proof: 1, 0 of them with a control, 0 with a refutation"),
        ({asked: written, control: unrefused}, 0, "controls: 1 not refused, 0 failed"),
        ({asked: written, control: refused}, 2, "controls: 0 not refused, 1 failed"),
        ({asked: limited, control: unrefused}, 1, "controls: 1 not refused, 0 failed"),
        ({asked: limited, refutation: unrefused}, 0, "refutations: 1 not refused, 0 failed"),
        ({asked: limited, refutation: refused}, 2, "refutations: 0 not refused, 1 failed"),
        ({asked: searched}, 0, "at an open goal: 1, 0 of them with a control, 0 with a refutation"),
        ({asked: shown}, 0, "at a goal that is shown to be false: 1, 0 of them with a control, 0 with a refutation"),
        ({other: written}, 0, "at a written proof: 1, 0 of them with a control, 0 with a refutation"),
        ({other: Outcome(False, UNREFUSED)}, 1, "not refused 1"),
    ):
        lines, count = report([*outcomes], outcomes)
        assert count == failed and lines[-1] == last, lines
    # One of which an operation may go wrong falls at that too; unless that is shown, it lacks a control.
    unsafe, at_sum = Edit("one", "sum_overflows", pairs), refusals.Refusal(refusals.OPERATION_KIND, "sum")
    assert counts(unsafe, at_sum) and not counts(other, at_sum)
    guarded = dataclasses.replace(unsafe, beside=CONTROL)
    for end, given, failed in ((refusals.SHOWN, [unsafe], 0), ("", [unsafe], 1), ("", [unsafe, guarded], 0)):
        outcomes = {unsafe: Outcome(True, f"an operation{end}"), guarded: unrefused}
        assert report(given, {one: outcomes[one] for one in given})[1] == failed, end
    # Of the goals of one function that is told which says most.
    ends = (refusals.SHOWN, "", refusals.WRITTEN, refusals.LIMIT)
    kinds = [*(f"a clause{end}" for end in ends), refusals.OPERATION_KIND, refusals.GONE_KIND]
    assert [refusals.Refusal(kind, "returns").rank for kind in kinds] == [0, 1, 2, 3, 4, 5]


def test_tried(top: pathlib.Path) -> None:
    """Writes down what was tried."""
    home = top / "crates" / "told"
    (home / "src").mkdir(parents=True)
    (home / "src/thing.rt").write_text("a\n")
    assert edits.age(top, "told") == "", "without wrong bodies there is nothing to try"
    file = home / edits.FILE
    file.write_text("beside must-fail/c.edit\ncontrol\nsrc/thing.rt\n- a\n+\n")
    assert edits.age(top, "told") == "", "those of must-fail/ the gate tries"
    said = "== b\nsrc/thing.rt\n- a\n+ b\n"
    file.write_text(said)
    assert edits.age(top, "told") == "never tried all together"
    for _ in range(2):
        edits.write_tried(top, "told", edits.digest(home))
        assert edits.age(top, "told") == "" and file.read_text().endswith(f"\n\n{said}"), file.read_text()
        assert file.read_text().count("tried") == 1
    with_control = file.read_text() + "control\nsrc/thing.rt\n- a\n+ a;\n"
    for path, text, is_changed in (("src/thing.rt", "b\n", True), ("src/thing.rt", "a\n", False),
                                   (edits.FILE, file.read_text().replace("+ b", "+"), True),
                                   (edits.FILE, with_control, False)):
        (home / path).write_text(text)
        assert edits.age(top, "told") == ("changed since they were tried" if is_changed else ""), (path, text)


@pytest.fixture
def home(top: pathlib.Path) -> pathlib.Path:
    """The crate that stands here, with a wrong body of must-fail/."""
    home = top / "crates" / "one"
    for path, text in {**TEXTS, "must-fail/fits.edit": FITS}.items():
        (home / path).parent.mkdir(parents=True, exist_ok=True)
        (home / path).write_text(text)
    return home


def test_files(top: pathlib.Path, home: pathlib.Path) -> None:
    """Looks at edits in files."""
    assert match(top, ["one"]) == 0
    (home / edits.FILE).write_text(f"{TRIED}\n{BODY}{CONTROLLED}{REFUTED}\n{GATED}{CONTROLLED}{REFUTED}")
    assert match(top, ["one"]) == 0
    given = edits.edits(top, ["one"], TIERS)
    assert ([str(one) for one in given] == ["one/fits", "one/body"]
            and "inner(1)" in given[0].made(TEXTS)["src/thing.rt"])
    assert [one.name for tier in TIERS for one in edits.edits(top, ["one"], (tier,))] == ["fits", "body"]
    assert given[1].pairs == (Pair("src/thing.rt", "        inner()", "        outer()"),
                              Pair("proofs/Laws.antt", "law", ""))
    control, refutation = Pair("src/thing.rt", "        inner()",
                               "        inner( )"), Pair("src/thing.rt", "result ≡ 1", "result ≡ 2")
    for kind, wanted in ((CONTROL, [(control,)] * 2), (REFUTATION, [(*one.pairs, refutation) for one in given])):
        found = edits.beside(top, given, kind)
        assert [one.pairs for one in found] == wanted and {one.beside for one in found} == {kind}, found
        assert edits.beside(top, given[1:], kind) == found[1:]


def test_faults(top: pathlib.Path, home: pathlib.Path) -> None:
    """Looks at files that are no edits, and at edits that do not fit."""
    (home / edits.FILE).write_text(BODY)
    others = {"must-fail/unfit.edit": UNFIT, "must-fail/astray.edit": ASTRAY, "must-fail/empty.edit": "",
              "must-fail/proof.edit": f"file: {ANSWERS}\nold: refl\nnew: sym refl\n",
              "must-fail/open.edit": f"{FITS}old: inner()\n", "must-fail/other.txt": "", "must-fail/a b.edit": FITS,
              "must-fail/body.edit": FITS, "src/stray.edit": FITS, "src/stray.edits": BODY, "other.edits": BODY}
    for name, text in others.items():
        (home / name).write_text(text)
        assert match(top, ["one"]) == 1, name
        (home / name).unlink()
    for text in WRONG_FILES:
        (home / edits.FILE).write_text(text)
        assert match(top, ["one"]) == 1, text


def test_ages(top: pathlib.Path) -> None:
    """Looks at a library that is kept from an earlier run."""
    prover = SmallProver()
    prover.top = prover.over = top
    text = top / "crates" / "kept" / "src" / "thing.rt"
    folder = prover.library("kept") / "kept.rlib"
    for file in (text, folder / "format"):
        file.parent.mkdir(parents=True)
        file.write_text("")
    os.utime(folder / "format", (0, 0))
    os.utime(text, (1, 1))
    assert prover.is_fresh("kept"), "the file that tells a library's form is as old as the run that made it"
    os.utime(folder, (0, 0))
    assert not prover.is_fresh("kept"), "a source is newer than the library beside it"
