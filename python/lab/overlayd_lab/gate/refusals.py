"""What a check says of the functions of a crate: which are refused, and at which goal.

A wrong body is refused for its meaning where a goal has no proof: a clause, an invariant, a condition of what is
called; or a lemma on which the proof stands, where the edit changes a definition. `Shown to be false` stands where the
prover found and checked values at which the goal fails, so that no proof closes it; `at its written proof` where there
was one that was written for the text as it is: whether the goal could be proved otherwise, that does not show; nor does
`at a limit of the search`, where the prover gave up. Nothing is known of the contract where it only finds that a
written proof names what the edit has taken away (`a name that is gone`), that an operation may go wrong, or that a loop
may not end; but where the name of an edit says that its operation may go wrong, that is its meaning (`edits.py`).
"""

import dataclasses
import pathlib
import re

from overlayd_lab.gate import functions

ANSWER = re.compile(r"(?:\./)?(?P<file>proofs/(?P<place>\S+)/\w+\.antt):\d+:\d+: error: (?P<said>.*)")
AT_LINE = re.compile(r"(?:note: )?(?P<path>src/\S+?):(?P<line>\d+):\d+: (?:error: )?it is not proved (?P<said>.*)")
TOLD = re.compile(r"fn (?P<crate>\w+)::(?P<name>\S+): (?P<said>.*)")
SOUGHT = re.compile(r"`search` did not prove (?P<goals>`[^;]*`)")
ASKED = re.compile(r"\(`(?P<goal>[\w-]+)`\)")
NAMED = re.compile(r"^`(?P<first>[^`]+)`: |\(in `(?P<last>[^`]+)`\)")
# A proof file that names what is not there, and what cites that proof.
GONE = re.compile(r"has no field|is not in scope|has no `|was not admitted")
# An error in a file of lemmas, and what cites a declaration that was refused.
LEMMA = re.compile(r"(?:\./)?proofs/\w+\.antt:\d+:\d+: error: (?P<said>.*)")
CITED = re.compile(r"declarations? that depends? on `[^`]*`, which was (?:rejected|not admitted), w(?:as|ere) not"
                   r" checked: (?P<names>.*)")
# What a check past holes says of a function in the place of that: it takes such a declaration by its signature.
STANDS = re.compile(r"it stands on `(?:[^`]*\.)?(?P<lemma>[^`.]+)`(?:, `[^`]*`)*, which antt refuses")
# What a record lacks, where antt goes on in another line.
GOES_ON = re.compile(r"\n {2}(?=has no )")
# What is lent out by a method can be written by the caller, and the type's invariant goes with it.
LENT = re.compile(r"that the struct's ghost fields, or its `invariant`, hold")
# An error of antt's: one without the name of a goal, or with one of these, says that it could not read a text.
ERROR = re.compile(r"(?:\./)?(?P<path>\S+?):\d+:\d+: error: (?P<goal>`[^`]*`: )?(?P<said>.*)")
UNREAD = re.compile(r"is not in scope|has no field|is no name|operand is missing|expected the end|cannot continue")
# The work of a library that was proved over other libraries cannot be used.
STALE = re.compile(r"module .Rattle-\w+-.*Run the lower steps again")
# A function of a cycle of calls has no file of this name.
RESERVED = re.compile(r"^(?:\./)?proofs/(?P<place>\S+)/Proof\.antt: error\[reserved-name\]", re.M)
# The last line of a check that came to its end, of some functions or of a whole crate that is not proved.
REACHED = re.compile(r"only=|logic=not-proved")
REFUSED = ("not proved", "no proof")
UNREFUSED = ("no holes", "depends on a hole")
GONE_KIND = "a name that is gone"
UNKNOWN_KIND = "nothing that is known"
OPERATION_KIND = "an operation"
END_KIND = "the end of a loop"
LEMMA_KIND = "a lemma"
UNMEANT = (GONE_KIND, UNKNOWN_KIND, OPERATION_KIND, END_KIND)
WRITTEN = ", at its written proof"
WRITTEN_SEARCH = ", at a search that is written down"
LIMIT = ", at a limit of the search"
SHOWN = ", shown to be false"
# What the prover says of a goal that is open: that it found values at which it fails, or that it gave up.
SAID = {"the facts known there allow values at which this goal is false": SHOWN, "gave up at one of its limits": LIMIT}
# The kinds of goals at which wrong bodies fall: what each says, those first that say most.
AT_FALSE = "at a goal that is shown to be false"
AT_OPEN = "at an open goal"
AT_WRITTEN = "at a written proof"
AT_LIMIT = "at a limit of the search"
MANNERS = (AT_FALSE, AT_OPEN, AT_WRITTEN, AT_LIMIT)
# A written proof that is a search and nothing else: it says no more of the text than an open goal does.
SEARCH = re.compile(r"[^\n=]+ =\s+(?:λ [\w ]+\. )?(?:search|grind|omega)\b(?!.* in )[^\n]*")


@dataclasses.dataclass(frozen=True)
class Refusal:
    """Where a function was refused: what the goal asks, and its name."""

    kind: str
    goal: str
    place: str = ""

    def kind_in(self, texts: dict[str, str]) -> str:
        """Its kind, in the texts that were checked: a written proof that is a search alone is told apart."""
        is_search = SEARCH.fullmatch(answer_of(texts.get(self.place, ""), self.goal))
        is_told_apart = self.kind.endswith(WRITTEN) and is_search
        return self.kind.removesuffix(WRITTEN) + WRITTEN_SEARCH if is_told_apart else self.kind

    @property
    def is_meant(self) -> bool:
        """Whether it says something of the contract."""
        return not self.kind.startswith(UNMEANT)

    @property
    def is_of_operation(self) -> bool:
        """Whether it says that an operation may go wrong."""
        return self.kind.startswith(OPERATION_KIND)

    @property
    def rank(self) -> int:
        """How little it says: least where it says nothing of the contract nor of an operation, most where the goal is
        shown to be false."""
        return MANNERS.index(manner_of(self.kind)) if self.is_meant else len(MANNERS) + (not self.is_of_operation)


def kind_of(goal: str) -> str:
    """What a goal asks, by its name."""
    if goal.endswith("-smaller"):
        return END_KIND
    if "-requires" in goal:
        return "a condition of what is called"
    if goal.startswith("loop") or "-preserved" in goal or goal.endswith("-init") or "invariant_of" in goal:
        return "an invariant"
    if goal.startswith("returns") or "-clause-" in goal or "ensures" in goal:
        return "a clause"
    return OPERATION_KIND


def manner_of(kind: str) -> str:
    """At which kind of goal a wrong body fell: of four."""
    manners = {SHOWN: AT_FALSE, WRITTEN: AT_WRITTEN, LIMIT: AT_LIMIT}
    return next((manner for end, manner in manners.items() if kind.endswith(end)), AT_OPEN)


def place_of(function: str) -> pathlib.PurePath:
    """The folder of the proof of a function."""
    return pathlib.PurePath("proofs", *function.split("::"))


def answer_of(text: str, goal: str) -> str:
    """What a written proof says of a goal: from the line that begins with its name to the next empty one."""
    found = re.search(rf"^{re.escape(goal)}\b(?!-)(?! :)[^\n]*(?:\n[^\n]+)*", text, re.M)
    return found[0] if found else ""


def of_answer(said: str, place: str) -> Refusal:
    """What an error in a written proof says."""
    named = NAMED.search(said)
    goal = (named["first"] or named["last"]) if named else "?"
    if GONE.search(said):
        return Refusal(GONE_KIND, goal)
    return Refusal(kind_of(goal) + WRITTEN if named else UNKNOWN_KIND, goal, place)


def are_lemmas_refused(lines: list[str]) -> bool:
    """Whether lemmas have no proof, and none for want of a name: so it is where an edit changes a definition."""
    said = [lemma["said"] for line in lines if (lemma := LEMMA.match(line)) and not CITED.search(lemma["said"])]
    return bool(said) and not any(GONE.search(one) for one in said)


def of_cited(names: str, place: str) -> Refusal:
    """What goals say whose written proofs cite a lemma that has no proof: that which says most."""
    goals = [name.partition(" ")[0] for name in names.split(", ")]
    return min((Refusal(kind_of(goal) + WRITTEN, goal, place) for goal in goals), key=lambda said: said.rank)


def of_line(said: str) -> Refusal | None:
    """What a goal that is open at a line of a source says."""
    asked = ASKED.search(said)
    if asked:
        note = next((end for words, end in SAID.items() if words in said), "")
        return Refusal(kind_of(asked["goal"]) + note, asked["goal"])
    return Refusal("an invariant", "?") if LENT.match(said) else None


def at_line(path: str, line: int, known: list[functions.Function]) -> list[str]:
    """The function that has a line of a source, if one has."""
    return [one.name for one in known if one.path == path and one.first < line <= one.last + 1][-1:]


def holder(name: str) -> str:
    """The path of a function or of what stands within one, as a closure, without the marks of
    closures and of cycles."""
    return re.sub(r"(^|::)fn::", r"\1", name).replace("::+", "::").removeprefix("+")


def is_of(name: str, function: str) -> bool:
    """Whether a name that a check prints is a function's own, or that of a closure in it."""
    inner = holder(name)
    return inner == function or inner.startswith(f"{function}::")


def cycles(output: str) -> set[str]:
    """The functions that a check says are of a cycle of calls."""
    return {found["place"].replace("/", "::") for found in RESERVED.finditer(output)}


def is_unread(line: str, changed: set[str]) -> bool:
    """Whether antt could not read a text of src/ or specs/, or of a file that an edit changes: so
    does `rt must-fail` ask."""
    error = ERROR.match(line)
    if not error or not (error["path"] in changed or error["path"].startswith(("src/", "specs/"))):
        return False
    return not error["goal"] or bool(UNREAD.search(re.sub(r"`[^`]*`", "", error["said"])))


@dataclasses.dataclass(frozen=True)
class Verdict:
    """What one check said: whether it came to its end, what of each function, and where some goal had no proof."""

    is_reached: bool
    sayings: dict[str, str]
    open: list[tuple[str, Refusal]]
    first: str

    def is_unrefused(self, function: str) -> bool:
        """Whether a function, with all within it, is as good as proved."""
        own = [text for name, text in self.sayings.items() if is_of(name, function)]
        return self.is_reached and function in map(holder, self.sayings) and all(s.startswith(UNREFUSED) for s in own)

    def refusal(self, wanted: frozenset[str]) -> Refusal | None:
        """Where one of some functions was refused, or of all if none is named: at the goal that says most."""
        among = wanted or frozenset(map(holder, self.sayings))
        refused = {one for one in among
                   if any(is_of(name, one) and text.startswith(REFUSED) for name, text in self.sayings.items())}
        found = [said for name, said in self.open if any(is_of(name, one) for one in refused)]
        return min(found, key=lambda said: said.rank) if self.is_reached and found else None


def read(output: str, known: list[functions.Function], changed: set[str]) -> Verdict:
    """What the lines of a check say of a crate whose functions are known, and of whose files some are changed."""
    lines = GOES_ON.sub(" ", output.rstrip("\n")).split("\n")
    sayings: dict[str, str] = {}
    found: list[tuple[str, Refusal]] = []
    by_lemmas = are_lemmas_refused(lines)
    for line in lines:
        answer, lined, function = ANSWER.match(line), AT_LINE.match(line), TOLD.match(line)
        if answer:
            cited = CITED.search(answer["said"]) if by_lemmas else None
            fallen = of_cited(cited["names"], answer["file"]) if cited else of_answer(answer["said"], answer["file"])
            found.append((answer["place"].replace("/", "::"), fallen))
        said = of_line(lined["said"]) if lined else None
        if lined and said:
            found += [(name, said) for name in at_line(lined["path"], int(lined["line"]), known)]
        if function:
            sayings[function["name"]] = function["said"]
            sought = SOUGHT.search(function["said"])
            goals = re.findall(r"`([^`]+)`", sought["goals"]) if sought else []
            lined_goals = {said.goal for name, said in found if is_of(function["name"], name)}
            found += [(function["name"], Refusal(kind_of(goal), goal)) for goal in goals if goal not in lined_goals]
            stands = STANDS.search(function["said"]) if by_lemmas else None
            found += [(function["name"], Refusal(LEMMA_KIND + WRITTEN, stands["lemma"]))] if stands else []
    unread = next((line for line in lines if is_unread(line, changed) or STALE.search(line)), "")
    first = unread or next((line for line in lines if "error: " in line or "error[" in line), lines[-1])
    return Verdict(bool(REACHED.match(lines[-1])) and not unread, sayings, found, first)
