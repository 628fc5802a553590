"""Edits of a crate's texts: wrong bodies, which the prover has to refuse, and what stands beside
them, which it must not.

Those of must-fail/ the gate tries; each is a file there, NAME.edit, in the form of `rt must-fail`. The others stand in
the crate's file wrong-bodies.edits, and so does what stands beside any wrong body. An empty line ends each of its
entries:

    tried 0d5e..                        the digest of what was tried last, all wrong bodies of this file (`digest`)

    == fraction_cut_off                 a wrong body: its name, and its pairs of lines
    src/number.rt                       a file of the crate
    -     if !are_zeros(fraction) {     a line that stands once in what the earlier pairs have made
    +     if !are_zeros(&[]) {          the line in its place; `+` alone takes it away
    control                             another edit: the same function, changed so that it means what it meant
    src/number.rt
    -     if !are_zeros(fraction) {
    +     let digits = fraction; if !are_zeros(digits) {
    refutation                          the wrong body again, with these pairs after its own
    src/number.rt
    -         ensures { result ≡ value_of digits }
    +         ensures { result ≡ 0 }

    beside must-fail/job_dropped.edit   what stands beside a wrong body of must-fail/: a control, a refutation, or both
    control
    ..

A wrong body whose name ends with _overflows or _panics counts also where an operation may go wrong: unless the prover
found values at which it does, it owes a control.

A control leaves what its function means as it was, in a shape like that of the wrong body: one that falls at a proof
that was written for the text as it is may fall by its shape alone, and its control shows it. A refutation changes the
clause at which its wrong body falls into what that does instead, which contradicts the clause: the wrong body is proved
to be wrong."""

import dataclasses
import hashlib
import json
import os
import pathlib
import re
from typing import NamedTuple

MUST_FAIL, WRONG_BODIES = TIERS = ("must-fail", "wrong-bodies")
CONTROL, REFUTATION = BESIDE = ("control", "refutation")
FILE = "wrong-bodies.edits"
PARTS = ("src", "specs", "proofs")
NAME = r"[A-Za-z0-9_-][A-Za-z0-9_.-]*"
PAIRS = rf"(?:(?:{'|'.join(PARTS)})/\S+\n(?:- .+\n\+(?: .+)?\n)+)+"
ENTRY = re.compile(
    rf"(?:== (?P<name>{NAME})\n(?P<body>{PAIRS})|beside must-fail/(?P<gate>{NAME})\.edit\n(?!\Z))"
    rf"(?:control\n(?P<control>{PAIRS}))?(?:refutation\n(?P<refutation>{PAIRS}))?"
)
DIGEST = re.compile(r"tried (?P<digest>[0-9a-f]{64})")
# The wrong bodies that were asked for, as the last words of an edit's name.
ASKED = (
    "expression_ignored", "doubled_edge_kept_twice", "overlap_dropped_before_its_parity", "crossing_rounded",
    "vertical_left_out", "late_result_kept", "gate_before_body_is_synced", "done_before_the_last_sync",
    "written_over_the_live_root", "written_over_an_open_root", "older_root_recovered", "durable_when_begun",
    "torn_body_left", "tiles_left_out", "opening_version_for_all", "accepted_and_unchanged", "number_invented",
    "applied_twice", "entry_invented", "entry_dropped", "read_under_the_lock", "job_dropped",
    "finished_with_another_tile", "fraction_cut_off", "polygon_z_accepted", "always_same", "always_oversize",
    "refusals_in_another_order", "grid_point_repeated", "all_pairs_tested", "no_test_listed", "record_kept_by_name",
    "batch_prefix_kept", "number_for_each_command", "opened_without_a_sync", "answers_from_a_private_version",
    "commits_a_version_of_its_own",
)
# How the name of a wrong body ends whose operation may go wrong.
UNSAFE = ("_overflows", "_panics")


class Misfit(Exception):
    """An edit that does not fit the sources."""


class Misread(SystemExit):
    """An entry that is none of the form."""


class Pair(NamedTuple):
    """A line of a file that stands once, and the one in its place."""

    path: str
    old: str
    new: str

    def made(self, texts: dict[str, str]) -> dict[str, str]:
        """The texts with the one line in place of the other."""
        count = texts.get(self.path, "").count(self.old) if self.old else 0
        if self.path != os.path.normpath(self.path) or self.path.partition("/")[0] not in PARTS:
            raise Misfit(f"no file below src/, specs/ or proofs/: {self.path}")
        if count != 1:
            raise Misfit(f"{self.path}: stands {count} times: {self.old}")
        return {**texts, self.path: texts[self.path].replace(self.old, self.new)}


@dataclasses.dataclass(frozen=True)
class Edit:
    """A wrong body, or what stands beside one, as a control or a refutation: its crate, its name,
    and its pairs of lines."""

    crate: str
    name: str
    pairs: tuple[Pair, ...]
    beside: str = ""

    def __str__(self) -> str:
        return "/".join(filter(None, (self.crate, self.beside, self.name)))

    @property
    def is_asked(self) -> bool:
        """Whether it is a wrong body that was asked for."""
        return not self.beside and any(f"_{self.name}".endswith(f"_{name}") for name in ASKED)

    @property
    def is_unsafe(self) -> bool:
        """Whether it is a wrong body of which an operation may go wrong."""
        return not self.beside and self.name.endswith(UNSAFE)

    def made(self, texts: dict[str, str]) -> dict[str, str]:
        """The texts that the edit makes of others."""
        for pair in self.pairs:
            texts = pair.made(texts)
        return texts


class Entry(NamedTuple):
    """What a crate's file has under a name: the pairs of the wrong body, none where must-fail/ has
    it, and those beside it."""

    name: str
    body: tuple[Pair, ...]
    beside: dict[str, tuple[Pair, ...]]


def read_edit(file: pathlib.Path) -> Edit:
    """Reads an edit, as `rt must-fail` does; a line that has none in its place makes a pair that fits nowhere."""
    pairs: list[Pair] = []
    path = old = ""
    for line in file.read_text().split("\n"):
        if line.startswith("file: "):
            path = line.removeprefix("file: ").strip()
        elif line.startswith("old: "):
            old = line.removeprefix("old: ")
        elif line.startswith("new:"):
            pairs.append(Pair(path, old, line.removeprefix("new:").removeprefix(" ")))
            old = ""
    if old:
        pairs.append(Pair("", old, ""))
    return Edit(file.parent.parent.name, file.stem, tuple(pairs))


def pairs_of(said: str | None) -> tuple[Pair, ...]:
    """The pairs of lines of a part of an entry."""
    pairs: list[Pair] = []
    path = old = ""
    for line in (said or "").removesuffix("\n").split("\n"):
        if line.startswith("- "):
            old = line[2:]
        elif line.startswith("+"):
            pairs.append(Pair(path, old, line[2:]))
        else:
            path = line
    return tuple(pairs)


def read(home: pathlib.Path) -> tuple[str, list[Entry]]:
    """What the file of a crate has: the digest of what was tried last, if there is one, and the
    entries in their order."""
    file = home / FILE
    if not file.exists():
        return "", []
    head, *rest = blocks = file.read_text().removesuffix("\n").split("\n\n")
    tried = DIGEST.fullmatch(head)
    entries: list[Entry] = []
    for block in rest if tried else blocks:
        found = ENTRY.fullmatch(f"{block}\n")
        if not found:
            raise Misread(f"{file}: an entry that is none of the form: {block.lstrip().partition(chr(10))[0]}")
        beside = {kind: pairs_of(found[kind]) for kind in BESIDE if found[kind]}
        entries.append(Entry(found["name"] or found["gate"], pairs_of(found["body"]), beside))
    return tried["digest"] if tried else "", entries


def edits(top: pathlib.Path, names: list[str], tiers: tuple[str, ...]) -> list[Edit]:
    """The wrong bodies of some crates, those of must-fail/ first."""
    found: list[Edit] = []
    for name in names:
        home = top / "crates" / name
        found += [read_edit(file) for file in sorted((home / MUST_FAIL).glob("*.edit")) if MUST_FAIL in tiers]
        found += [Edit(name, one.name, one.body) for one in read(home)[1] if one.body and WRONG_BODIES in tiers]
    return found


def beside(top: pathlib.Path, given: list[Edit], kind: str) -> list[Edit]:
    """The controls or the refutations of some wrong bodies, in their order."""
    crates = {one.crate for one in given}
    entries = {(crate, one.name): one for crate in crates for one in read(top / "crates" / crate)[1]}
    found: list[Edit] = []
    for one in given:
        entry = entries.get((one.crate, one.name))
        if entry and kind in entry.beside:
            own = one.pairs if kind == REFUTATION else ()
            found.append(Edit(one.crate, one.name, (*own, *entry.beside[kind]), kind))
    return found


def strangers(top: pathlib.Path, names: list[str]) -> list[str]:
    """What stands in must-fail/ and is none to `rt must-fail`; edits elsewhere; names that stand twice, and in
    must-fail/ too; those beside nothing."""
    found: list[str] = []
    for home in (top / "crates" / name for name in names):
        files = [*home.glob("*/*.edit"), *home.glob("*/*.edits"), *home.glob("*.edits"), *(home / MUST_FAIL).glob("*")]
        for file in sorted(set(files) - {home / FILE}):
            is_edit = re.fullmatch(rf"{NAME}\.edit", file.name) or file.suffix == ".md"
            if file.parent.name != MUST_FAIL or not is_edit or not file.is_file():
                found.append(f"{file}: it is no edit")
        entries = read(home)[1]
        known = [one.name for one in entries]
        for one in entries:
            if known.count(one.name) > 1 or (home / MUST_FAIL / f"{one.name}.edit").exists() == bool(one.body):
                found.append(f"{home / FILE}: {one.name}: it stands twice, or beside nothing")
    return found


def texts_of(home: pathlib.Path) -> dict[str, str]:
    """The texts of a crate, by their paths in it."""
    files = [file for part in PARTS for file in sorted((home / part).rglob("*")) if file.is_file()]
    return {file.relative_to(home).as_posix(): file.read_text() for file in files}


def digest(home: pathlib.Path) -> str:
    """The SHA-256 of a crate's texts and the wrong bodies of its file."""
    bodies = sorted((one.name, one.body) for one in read(home)[1] if one.body)
    return hashlib.sha256(json.dumps([texts_of(home), bodies], sort_keys=True).encode()).hexdigest()


def age(top: pathlib.Path, crate: str) -> str:
    """What is to be reported of when the wrong bodies of a crate's file were tried last: nothing where it has none, or
    where neither they nor its texts have changed since."""
    home = top / "crates" / crate
    tried, entries = read(home)
    if not any(one.body for one in entries) or tried == digest(home):
        return ""
    return "changed since they were tried" if tried else "never tried all together"


def write_tried(top: pathlib.Path, crate: str, tried: str) -> None:
    """Writes down the digest of what was tried, at the head of a crate's file."""
    file = top / "crates" / crate / FILE
    head, _, rest = (text := file.read_text()).partition("\n\n")
    file.write_text(f"tried {tried}\n\n{rest if DIGEST.fullmatch(head) else text}")
