"""Has the prover refuse the wrong bodies of crates/NAME/must-fail and
crates/NAME/wrong-bodies.edits, not what is beside.

    .ci/wrong-bodies NAME..        those of some crates, of both places
    .ci/wrong-bodies --all         those of both places of every crate
    .ci/wrong-bodies --gate        those of must-fail/ of every crate, their refutations, controls of those asked for
    .ci/wrong-bodies --match       looks alone whether each edit still fits the sources, and when they were tried last
    --tier TIER, --edit EDIT..     only those of one place, must-fail or wrong-bodies, or of some names
    --controls                     only the controls and refutations beside them
    --over TREE                    over the libraries of another tree of the same sources

A body meets its contract or not whatever other bodies are, since a proof knows of a callee its contract alone. So edits
of the bodies of functions that do not call one another are made together, and one check of these functions tries them
all; the other functions are taken by their contracts, which the gate has proved (those of a cycle of calls, what a
trait declares, and what lets a value go are proved again). An edit that changes more than bodies is tried by itself. A
check of all these functions without an edit comes last, and has to leave each of them unrefused; --gate leaves it out
over another tree, which the gate has just proved. An edit that is not refused so is tried alone, and then in a check of
its whole crate that takes nothing by its contract; so is one that changes no function. Controls and refutations
(`edits.py`) join the same checks, the latter each by itself.

It stands on the libraries in crates/*/out, which the gate leaves there. It says where each edit was refused, and ends
with 1 where one was not, or for nothing that says of the contract; where a control or refutation was refused; and where
a wrong body that was asked for falls without a refutation at a limit of the search, or at a written proof without a
control too. A run of all wrong bodies of a crate's file that ends well writes down there what was tried, by a digest.
"""

import argparse
import collections
import concurrent.futures
import dataclasses
import os
import pathlib
import re
import subprocess
import sys
import tempfile

from overlayd_lab import TOP
from overlayd_lab.gate import edits, functions, refusals
from overlayd_lab.gate.edits import (
    BESIDE, CONTROL, PARTS, REFUTATION, TIERS, WRONG_BODIES, Edit, Misfit, Misread, Pair, texts_of)

# The edits of one check: loading the libraries takes as long as a few functions do, so more would save little.
TOGETHER = 12
# The seconds of one check: most take twenty, a whole crate some minutes.
LIMIT = 3600
UNREFUSED = "not refused"
CONSTANT = re.compile(r"^ *(?:pub(?:\([^)]*\))? )?const (?P<name>\w+):")
HOLE = """use Rattle.{crate}.proofs.{place}.Statement.{{statement}}

pub {name}_spec : {{M : Type 1}} → statement M
{name}_spec = ?
"""


@dataclasses.dataclass(frozen=True)
class Change:
    """What an edit changes: functions, and whether it changes nothing but their bodies."""

    functions: frozenset[str]
    is_body: bool


@dataclasses.dataclass(frozen=True)
class Candidate:
    """An edit and what it changes."""

    edit: Edit
    change: Change


@dataclasses.dataclass(frozen=True)
class Outcome:
    """Whether a wrong body was refused for its meaning, or what is beside not refused; where or why
    not, at which goal."""

    is_right: bool
    kind: str
    goal: str = ""

    def __str__(self) -> str:
        return f"{self.kind} ({self.goal})" if self.goal else self.kind


class Sources:
    """The texts of a crate and its functions."""

    def __init__(self, texts: dict[str, str]) -> None:
        self.texts = texts
        self.functions = functions.of_crate(texts)

    def change(self, edit: Edit) -> Change:
        """What an edit changes; a function that it adds is one."""
        changed: set[str] = set()
        is_body = True
        texts = self.texts
        for pair in edit.pairs:
            change = self.change_by(texts, pair)
            changed |= change.functions
            is_body = is_body and change.is_body
            texts = pair.made(texts)
        if not is_body:
            changed |= {one.name for one in functions.of_crate(texts)} - {one.name for one in self.functions}
        return Change(frozenset(changed), is_body)

    def change_by(self, texts: dict[str, str], pair: Pair) -> Change:
        """What a pair changes: of a constant, the functions that name it; of a written proof, its function."""
        if not pair.path.startswith("src/"):
            place = pathlib.PurePath(pair.path).parent
            own = frozenset(one.name for one in self.functions if one.is_own and refusals.place_of(one.name) == place)
            return Change(own, bool(own))
        if pair.path not in texts or texts[pair.path].count(pair.old) != 1:
            raise Misfit(f"{pair.path}: does not stand once: {pair.old}")
        line = texts[pair.path][: texts[pair.path].index(pair.old)].count("\n")
        around = [one for one in self.functions if one.path == pair.path and one.first <= line <= one.last]
        if around and around[-1].is_own:
            return Change(frozenset([around[-1].name]), line > around[-1].body)
        constant = CONSTANT.match(texts[pair.path].split("\n")[line])
        if not constant:
            return Change(frozenset(), False)
        word = re.compile(rf"\b{constant['name']}\b")
        return Change(frozenset(one.name for one in self.functions if one.is_own and word.search(self.text(one))),
                      False)

    def text(self, function: functions.Function) -> str:
        """The lines of a function."""
        return "\n".join(self.texts[function.path].split("\n")[function.first : function.last + 1])

    def may_call(self, callers: frozenset[str], callees: frozenset[str]) -> bool:
        """Whether one of some functions names one of others, as a call of it would."""
        names = "|".join(sorted(name.rpartition("::")[2] for name in callees))
        called = re.compile(rf"\b(?:{names})\b *(?:::<[^(]*>)?\(")
        return any(called.search(self.text(one).partition("(")[2]) for one in self.functions if one.name in callers)


def groups(sources: Sources, candidates: list[Candidate]) -> list[list[Candidate]]:
    """The edits in groups of such as can be told apart and made one after another: bodies of functions without calls of
    one another. Controls need not be told apart as long as none is refused.
    """

    def are_apart(one: Candidate, other: Candidate) -> bool:
        left, right = one.change.functions, other.change.functions
        if not (one.change.is_body and other.change.is_body):
            return False
        if one.edit.beside and other.edit.beside:
            return True
        return not (left & right or sources.may_call(left, right) or sources.may_call(right, left))

    found: list[tuple[list[Candidate], dict[str, str]]] = []
    for one in candidates:
        for group, texts in found:
            if len(group) < TOGETHER and all(are_apart(one, other) for other in group):
                try:
                    texts.update(one.edit.made(texts))
                except Misfit:
                    continue
                group.append(one)
                break
        else:
            found.append(([one], one.edit.made(sources.texts)))
    return [group for group, _ in found]


def changed_by(candidates: list[Candidate]) -> frozenset[str]:
    """The functions that edits change."""
    return frozenset[str]().union(*(one.change.functions for one in candidates))


class Prover:
    """Checks copies of the crates of one tree over the libraries that the gate left in it, or in
    another of the same sources."""

    def __init__(self, top: pathlib.Path, over: pathlib.Path) -> None:
        page = subprocess.run(["rt", "doc"], stdout=subprocess.PIPE, check=True, text=True).stdout
        self.kit = pathlib.Path(page.strip()).parent
        self.top, self.over = top, over
        self.named: dict[str, list[str]] = {}
        self.kinds: dict[str, list[str]] = {}
        for line in (top / "crates.txt").read_text().splitlines():
            head, colon, rest = line.partition(":")
            if colon and not line.startswith("#"):
                name, *kind = head.split()
                self.named[name], self.kinds[name] = rest.split(), kind

        self.lower: dict[str, list[str]] = {}

    def below(self, crate: str) -> list[str]:
        """The crates of the tree below one, lowest first."""
        if crate not in self.lower:
            own = [name for name in self.named[crate] if name in self.named]
            self.lower[crate] = list(dict.fromkeys(one for name in own for one in [*self.below(name), name]))
        return self.lower[crate]

    def library(self, crate: str) -> pathlib.Path:
        """The folder of a crate's library."""
        return self.over / "crates" / crate / "out" / "rlib"

    def is_fresh(self, crate: str) -> bool:
        """Whether a crate has the same sources in both trees and, if it has a library, that one came there no earlier.
        A library that `rt ci` keeps from an earlier run is as old as that run, so what shows it is when its folder was
        filled.
        """
        home = self.over / "crates" / crate
        files = [file for part in PARTS for file in (home / part).rglob("*") if file.is_file()]
        folder = self.library(crate) / f"{crate}.rlib"
        is_old = folder.is_dir() and any(file.stat().st_mtime > folder.stat().st_mtime for file in files)
        return not is_old and (self.over == self.top or texts_of(home) == texts_of(self.top / "crates" / crate))

    def command(self, crate: str) -> list[str]:
        """The words of a check of a crate, but for what it is to check."""
        root = "src/main.rt" if (self.top / "crates" / crate / "src/main.rt").exists() else "src/lib.rt"
        words = [f"{self.kit}/bin/rattle", "check", "--crate-name", crate, root, "--extern",
                 f"std={self.kit}/rlibs/std.rlib"]
        for name in self.named[crate]:
            folder = self.library(name) if name in self.named else self.kit / "rlibs"
            words += ["--extern", f"{name}={folder}/{name}.rlib"]
        for folder in [self.kit / "rlibs", *(self.library(lower) for lower in self.below(crate))]:
            words += ["-L", f"dependency={folder}"]
        words += ["--antt-project", f"{self.kit}/rattle/logic/antt-project.json", "--logic-built",
                  f"{self.kit}/logic_built"]
        kind = ["--crate-type", "staticlib"] if "staticlib" in self.kinds[crate] else []
        return [*words, "--links", f"{crate}=", "--jobs", "1", *kind]

    def output(self, crate: str, texts: dict[str, str], *words: str) -> str:
        """What a check of these texts prints."""
        with tempfile.TemporaryDirectory(prefix="wrong-bodies-") as folder:
            for path, text in texts.items():
                file = pathlib.Path(folder) / path
                file.parent.mkdir(parents=True, exist_ok=True)
                file.write_text(text)
            try:
                ran = subprocess.run([*self.command(crate), *words], cwd=folder, stdin=subprocess.DEVNULL,
                                     timeout=LIMIT, stdout=subprocess.PIPE, stderr=subprocess.STDOUT, text=True,
                                     errors="replace")
            except subprocess.TimeoutExpired:
                return f"error: no end within {LIMIT} seconds"
        return ran.stdout


def with_holes(crate: str, sources: Sources, texts: dict[str, str], kept: set[str]) -> dict[str, str]:
    """The texts with a hole in place of the proof of each function, but for those that are kept."""
    texts = dict(texts)
    for one in sources.functions:
        place, name = refusals.place_of(one.name), one.name.rpartition("::")[2]
        if one.name in kept or not one.is_own:
            continue
        for file in ("Answers", "Invariants"):
            texts.pop(f"{place}/{file}.antt", None)
        texts[f"{place}/Proof.antt"] = HOLE.format(crate=crate, place=one.name.replace("::", "."), name=name)
    return texts


class Trial:
    """The trial of the edits of one crate: what is known of them as one check after another ends."""

    def __init__(self, prover: Prover, crate: str, texts: dict[str, str], given: list[Edit]) -> None:
        self.prover, self.crate, self.sources = prover, crate, Sources(texts)
        self.candidates = [Candidate(one, self.sources.change(one)) for one in given]
        # Functions of a cycle of calls have one proof, and so no hole of their own.
        self.cycles: set[str] = set()
        self.outcomes: dict[Edit, Outcome] = {}
        self.checks: collections.Counter[str] = collections.Counter()

    def check(self, edited: list[Candidate], wanted: frozenset[str], kept: str) -> refusals.Verdict:
        """What a check says of some functions behind these edits, all others taken by their contracts."""
        texts = self.sources.texts
        for one in edited:
            texts = one.edit.made(texts)
        words = ["--allow-holes", "--incremental", kept,
                 *(word for name in sorted(wanted) for word in ("--only", name))]
        while True:
            holed = with_holes(self.crate, self.sources, texts, self.cycles | wanted)
            output = self.prover.output(self.crate, holed, *words)
            found = refusals.cycles(output) - self.cycles
            if not found:
                return refusals.read(output, self.sources.functions, paths(edited))
            self.cycles |= found

    def check_group(self, group: list[Candidate], kept: str) -> None:
        """Tries edits in one check."""
        self.checks["of several edits" if len(group) > 1 else "of one edit"] += 1
        verdict = self.check(group, changed_by(group), kept)
        for one in group:
            said = verdict.refusal(one.change.functions)
            if one.edit.beside:
                if all(map(verdict.is_unrefused, one.change.functions)):
                    self.outcomes[one.edit] = Outcome(True, UNREFUSED)
                elif said and len(group) == 1:
                    self.outcomes[one.edit] = Outcome(False, f"refused: {said.kind}", said.goal)
            elif said and counts(one.edit, said):
                self.outcomes[one.edit] = Outcome(True, said.kind_in(one.edit.made(self.sources.texts)), said.goal)

    def check_unedited(self, kept: str) -> None:
        """Forgets the outcomes of edits of functions that the same check without an edit does not leave unrefused."""
        self.checks["without an edit"] += 1
        wanted = changed_by(self.candidates) & {one.name for one in self.sources.functions}
        verdict = self.check([], wanted, kept)
        for one in self.candidates:
            is_known = one.edit in self.outcomes and not one.edit.beside
            if is_known and not all(map(verdict.is_unrefused, one.change.functions & wanted)):
                del self.outcomes[one.edit]

    def check_whole(self, one: Candidate) -> None:
        """Tries an edit in a check of the whole crate, and settles what becomes of it."""
        self.checks["of a whole crate"] += 1
        output = self.prover.output(self.crate, one.edit.made(self.sources.texts))
        verdict = refusals.read(output, self.sources.functions, paths([one]))
        said = verdict.refusal(one.change.functions if one.change.is_body else frozenset())
        if said and one.edit.beside:
            self.outcomes[one.edit] = Outcome(False, f"refused: {said.kind}", said.goal)
        elif said:
            kind = said.kind_in(one.edit.made(self.sources.texts))
            self.outcomes[one.edit] = Outcome(counts(one.edit, said), kind, said.goal)
        elif output.rstrip("\n").split("\n")[-1].startswith("logic=proved"):
            self.outcomes[one.edit] = Outcome(bool(one.edit.beside), UNREFUSED)
        else:
            self.outcomes[one.edit] = Outcome(False, "not tried", verdict.first[:200])

    def left(self) -> list[Candidate]:
        """The edits of which nothing is known yet."""
        return [one for one in self.candidates if one.edit not in self.outcomes]

    def run(self, is_proved: bool) -> None:
        """Tries each edit until it is settled; the functions may be known to be proved as they are."""
        known = [one for one in self.candidates if one.change.functions]
        with tempfile.TemporaryDirectory(prefix="wrong-bodies-kept-") as kept:
            for group in groups(self.sources, known):
                self.check_group(group, kept)
                for one in group if len(group) > 1 else []:
                    if one.edit not in self.outcomes:
                        self.check_group([one], kept)
            if known and not is_proved:
                self.check_unedited(kept)
        for one in self.left():
            self.check_whole(one)


def counts(edit: Edit, said: refusals.Refusal) -> bool:
    """Whether a wrong body was refused for what it does wrong: one whose operation may go wrong, at that too."""
    return said.is_meant or edit.is_unsafe and said.is_of_operation


def paths(edited: list[Candidate]) -> set[str]:
    """The files that edits change."""
    return {pair.path for one in edited for pair in one.edit.pairs}


def try_all(prover: Prover, given: list[Edit], lanes: int, is_proved: bool) -> dict[Edit, Outcome]:
    """Tries edits, those of as many crates side by side as there are lanes."""
    by_crate: dict[str, list[Edit]] = {}
    for one in given:
        by_crate.setdefault(one.crate, []).append(one)
    trials = [Trial(prover, crate, texts_of(prover.top / "crates" / crate), some) for crate, some in by_crate.items()]
    trials.sort(key=lambda one: -len(one.sources.functions) * len(one.candidates))
    with concurrent.futures.ThreadPoolExecutor(lanes) as pool:
        for done in [pool.submit(one.run, is_proved) for one in trials]:
            done.result()
    checks = sum((one.checks for one in trials), collections.Counter[str]())
    print("checks:", ", ".join(f"{count} {what}" for what, count in checks.most_common()))
    return {edit: found for trial in trials for edit, found in trial.outcomes.items()}


def checks_at_once() -> int:
    """As many checks as there are processors and as 4 GB each leave room for, up to four; RT_JOBS
    sets another number."""
    said = os.environ.get("RT_JOBS", "")
    memory = re.search(r"MemAvailable:\s+(\d+)", pathlib.Path("/proc/meminfo").read_text())
    room = int(memory[1]) // 4194304 if memory else 1
    return max(1, int(said) if said.isdigit() else min(4, len(os.sched_getaffinity(0)), room))


def refuse(given: list[Edit], prover: Prover, is_proved: bool) -> int:
    """Tries edits, says where each was refused and how many where, and gives the exit status."""
    lower = {name for one in given for name in prover.below(one.crate)}
    crates = lower | {one.crate for one in given}
    lacking = sorted({name for name in crates if not prover.is_fresh(name)}
                     | {name for name in lower if not prover.library(name).is_dir()})
    if lacking:
        names = ", ".join(lacking)
        sys.exit(
            f"nothing in {prover.over} was proved of these sources of {names}: run .ci/run, or name a tree by --over")
    outcomes = try_all(prover, given, checks_at_once(), is_proved)
    lines, failed = report(given, outcomes)
    print("\n".join([*lines, f"{len(given) - failed} passed, {failed} failed"]))
    return 1 if failed else 0


def lack_of(edit: Edit, outcomes: dict[Edit, Outcome]) -> str:
    """What a wrong body lacks that was asked for and is refused, as a control beside one that fell at a written proof,
    or one that fell at an operation; nothing where it has all."""
    manner = refusals.manner_of(outcomes[edit].kind)
    if edit.is_unsafe and outcomes[edit].kind.startswith(refusals.OPERATION_KIND) and manner != refusals.AT_FALSE:
        return "" if has_beside(edit, outcomes, CONTROL) else "it falls at an operation, and lacks a control"
    if not edit.is_asked or not outcomes[edit].is_right or manner in (refusals.AT_FALSE, refusals.AT_OPEN):
        return ""
    if has_beside(edit, outcomes, REFUTATION):
        return ""
    if manner == refusals.AT_LIMIT:
        return "it was asked for, and falls at a limit"
    return "" if has_beside(edit, outcomes, CONTROL) else "it was asked for, and lacks a control"


def has_beside(edit: Edit, outcomes: dict[Edit, Outcome], kind: str) -> bool:
    """Whether a wrong body has something of a kind beside it that was tried and not refused."""
    return any(one.beside == kind and (one.crate, one.name) == (edit.crate, edit.name) and found.is_right
               for one, found in outcomes.items())


def report(given: list[Edit], outcomes: dict[Edit, Outcome]) -> tuple[list[str], int]:
    """What to report of edits, line by line: each, how many fell at which kind of goal, and what stands beside; and how
    many count for nothing.
    """
    lacks = {edit: lack_of(edit, outcomes) for edit in given}
    lines = [": ".join(filter(None, (str(edit), str(outcomes[edit]), lacks[edit]))) for edit in given]
    wrong = [edit for edit in given if not edit.beside]
    kinds = collections.Counter(outcomes[edit].kind for edit in wrong)
    lines += [", ".join(f"{kind} {count}" for kind, count in kinds.most_common())] if wrong else []
    right = [edit for edit in wrong if outcomes[edit].is_right]
    for manner in refusals.MANNERS:
        some = [edit for edit in right if refusals.manner_of(outcomes[edit].kind) == manner]
        with_some = (sum(has_beside(edit, outcomes, kind) for edit in some) for kind in BESIDE)
        lines += (["{}: {}, {} of them with a control, {} with a refutation".format(manner, len(some), *with_some)]
                  if some else [])
    for kind in BESIDE:
        those = [edit for edit in given if edit.beside == kind]
        unrefused = sum(outcomes[edit].is_right for edit in those)
        lines += [f"{kind}s: {unrefused} not refused, {len(those) - unrefused} failed"] if those else []
    failed = [edit for edit in given if not outcomes[edit].is_right or lacks[edit]]
    return lines, len(failed)


def misfit(sources: Sources, edit: Edit, given: list[Edit]) -> str:
    """Why an edit does not fit the sources, or the wrong body of its name, if it stands beside one;
    nothing where it does."""
    try:
        if not any(pair.path.startswith("src/") for pair in edit.pairs):
            return "it has no pair of lines of src/"
        edit.made(sources.texts)
        wrong = [one for one in given if one.name == edit.name]
        if edit.beside and not any(sources.change(one).functions & sources.change(edit).functions for one in wrong):
            return "it changes no function that the edit of its name changes"
    except Misfit as fault:
        return str(fault)
    return ""


def match(top: pathlib.Path, names: list[str]) -> int:
    """Looks at each edit, prints those that do not fit, what is none, and of which crates the wrong bodies of the file
    were tried before something changed; and gives the exit status.
    """
    count = 0
    faults: list[str] = []
    ages: dict[str, list[str]] = {}
    for name in names:
        try:
            faults += edits.strangers(top, [name])
        except Misread as fault:
            faults.append(str(fault))
            continue
        given = edits.edits(top, [name], TIERS)
        sources = Sources(texts_of(top / "crates" / name) if given else {})
        for edit in [*given, *(one for kind in BESIDE for one in edits.beside(top, given, kind))]:
            count += 1
            why = misfit(sources, edit, given)
            faults += [f"{edit}: {why}"] if why else []
        ages.setdefault(edits.age(top, name), []).append(name)
    lines = [f"{age}: {', '.join(some)}" for age, some in sorted(ages.items()) if age]
    print("\n".join([*faults, *lines, f"edits: {count}, faults: {len(faults)}"]))
    return 1 if faults else 0


def note_tried(top: pathlib.Path, given: list[Edit], digests: dict[str, str]) -> None:
    """Writes down of which crates all wrong bodies of the file were tried and refused, by the digests of before."""
    for name, digest in digests.items():
        own = edits.edits(top, [name], (WRONG_BODIES,))
        if own and set(own) <= set(given):
            edits.write_tried(top, name, digest)
            print(f"{name}: written down as tried", file=sys.stderr)


def main() -> int:
    """Does what the words ask for."""
    parser = argparse.ArgumentParser(description=__doc__, formatter_class=argparse.RawDescriptionHelpFormatter)
    parser.add_argument("names", nargs="*", metavar="NAME", help="a crate")
    parser.add_argument("--gate", action="store_true", help="must-fail/ of every crate")
    parser.add_argument("--all", action="store_true", help="those of every crate")
    parser.add_argument("--match", action="store_true", help="only whether each edit fits the sources")
    parser.add_argument("--tier", choices=TIERS, help="only those of must-fail/, or of the file wrong-bodies.edits")
    parser.add_argument("--edit", action="append", metavar="EDIT", help="only the edits of this name")
    parser.add_argument("--controls", action="store_true", help="only what stands beside the edits")
    parser.add_argument("--over", type=pathlib.Path, default=TOP, metavar="TREE",
                        help="the tree whose libraries it takes")
    words = parser.parse_args()
    every = sorted(folder.name for folder in (TOP / "crates").iterdir() if (folder / "src").is_dir())
    if sum([words.gate, words.all, words.match, bool(words.names)]) != 1 or (words.gate and words.tier):
        parser.error("name crates, or one of --gate, --all, --match; --gate has its tier")
    unknown = [name for name in words.names if name not in every]
    if unknown:
        parser.error(f"no crate is named {unknown[0]}")
    if words.match:
        return match(TOP, every)
    tiers = ("must-fail",) if words.gate else (words.tier,) if words.tier else TIERS
    wrong = [one for one in edits.edits(TOP, words.names or every, tiers) if not words.edit or one.name in words.edit]
    controls = edits.beside(TOP, [one for one in wrong if one.is_asked or not words.gate], CONTROL)
    given = [*([] if words.controls else wrong), *controls, *edits.beside(TOP, wrong, REFUTATION)]
    if not given:
        parser.error("no edit is asked for")
    over = words.over.resolve()
    digests = {name: edits.digest(TOP / "crates" / name) for name in sorted({edit.crate for edit in given})}
    status = refuse(given, Prover(TOP, over), words.gate and over != TOP)
    if status == 0:
        note_tried(TOP, given, digests)
    return status


if __name__ == "__main__":
    sys.exit(main())
