"""Writes the text of a row: its contracts, and the definitions that they rest on, in the order in
which they are read."""

import re
import textwrap

from overlayd_lab.gate.believing import rust
from overlayd_lab.gate.believing.beside import Beside, besides
from overlayd_lab.gate.believing.house import Cut, File, House, Key
from overlayd_lab.gate.believing.page import Reading, quoted

FIRM = "\u00a0"  # a space at which no line ends
# Every table of faults has these two.
OF_FAULTS = ("code_of", "text_of")


def file_of(title: str) -> str:
    """The name of the file of a row's text."""
    return f"{'-'.join(re.findall(r'[a-z]+', title.lower()))}.txt"


def text(reading: Reading, title: str) -> str:
    """The text of a row, to print: contracts, definitions lowest first, link words, words of the kit, and types."""
    house = reading.house
    calls, reach = reading.row(title)
    cut = reading.cut(title)
    body = Body(reading, title)
    lines = [*head(reading, title, body), *(line for call in calls for line in [
        f"==== {call.title}: {call.says}", f"     crates/{call.file}", "",
        *marked(quoted(house, call), call.title, cut), ""])]
    lines += body.lines()
    lines += rest(house, body.keys, sorted(link.title for link in reach.links))
    lines += body.types(body.kinds)
    return "\n".join([*lines, *index(lines, body.keys)])


def head(reading: Reading, title: str, body: "Body") -> list[str]:
    """The first lines of a text: how it is read, what is left out, and which names have two meanings."""
    house = reading.house
    row, reach = reading.row_of(title), reading.row(title)[1]
    mine, kit = house.mine(reach.keys), house.of_kit(reach.keys)
    count = (f"({len(mine)} definitions, {house.lines(mine, reading.cut(title)):,} lines), over {len(kit)} of the kit "
             f"({house.lines(kit):,} lines); {reading.needed(title):,} lines with contracts, types and these")
    lines = [f"What to believe of: {title} {count}", "",
             "`.ci/believe --text` wrote this from the sources. docs/BELIEVE.md says how to read it. First the",
             "contracts, then the definitions on which they rest, lowest first: each comes after those that it rests",
             "on, or beside them in one file. A type of the sources, with the fields that these name, stands before",
             "the first file that needs it. After a file stands, not counted, what is proved of it: laws, and what",
             "each value of a type with a model keeps to. At the end, to be looked up, are the kit's definitions",
             "that these name, the types that no definition of the row names, and the lines of all names.", ""]
    for first, parts in [
        ("Left out are these promises, which stand beside (docs/BELIEVE.md); their words are not defined here:",
         row.without),
        ("Of the contracts this row has these promises alone; the words of others are not defined here:", row.only),
    ]:
        if parts:
            lines += [first, "", *(f"    {one}" for one in parts), ""]
    found = names_of(house, body.keys)
    for first, names in [("These names have two meanings here:", meanings(found)),
                         ("These differ in the case of their letters alone:", alike(found))]:
        if names:
            lines += [first, "", *(f"    {one}" for one in names), ""]
    return lines


def marked(lines: list[str], title: str, cut: Cut) -> list[str]:
    """The lines of a contract; a clause that the row leaves out is marked."""
    gone = {clause for call, clause in cut.clauses if call == title}
    return [line + ("  // left out" if found and found[1] in gone else "")
            for line in lines for found in [re.match(r" *ensures (\w+) \{", line)]]


class Body:
    """The definitions of a text, each type before the first file that needs it, and what is proved after the last file
    of which it speaks."""

    def __init__(self, reading: Reading, title: str) -> None:
        calls, reach = reading.row(title)
        self.house = reading.house
        self.cut = reading.cut(title)
        self.mine = self.house.mine(reach.keys)
        self.waiting = besides(reading, reach.keys, self.cut)
        self.keys = reach.keys.union(*(one.keys for one in self.waiting))
        self.fields = self.house.fields_said(calls, self.keys, self.cut)
        self.kinds = self.house.plain_types(self.keys)
        self.done: set[Key] = set()

    def lines(self) -> list[str]:
        """The definitions, file by file, with types and laws between them; at last what speaks of none of them."""
        lines: list[str] = []
        for file, names in self.house.in_order(self.mine):
            keys = {(*file, name) for name in names}
            lines += self.types({kind for kind in self.kinds if self.is_needed(kind, keys)})
            lines += definitions(self.house, file, names, self.cut)
            self.done |= keys
            lines += self.proved([one for one in self.waiting if one.keys & self.mine <= self.done])
        return lines + self.proved(self.waiting)

    def is_needed(self, kind: Key, keys: set[Key]) -> bool:
        """Whether some definitions name a type, or are named by the clauses of a trait."""
        return (any(kind in self.house.uses(key, self.cut) for key in keys)
                or bool(self.house.uses(kind, self.cut) & keys))

    def types(self, kinds: set[Key]) -> list[str]:
        """Some types as their sources declare them, each after those that its fields and cases name."""
        lines: list[str] = []
        for kind in sorted(kinds, key=lambda kind: (self.house.crates[kind[1]], kind[2])):
            if kind in self.kinds:
                self.kinds = self.kinds - {kind}
                shown = self.house.declared(kind[1], kind[2], self.fields, self.cut)
                lines += self.types(self.house.within(kind, self.fields) & self.kinds)
                lines += [f"==== A type of {kind[1]}: {kind[2]}", "", *shown, ""] if shown else []
        return lines

    def proved(self, ready: list[Beside]) -> list[str]:
        """What is proved, each with the words that stand nowhere above."""
        lines = ["==== Proved of these, and not counted", ""] if ready else []
        for one in ready:
            fresh = self.house.mine(one.keys) - self.mine - self.done
            lines += [*one.lines, ""]
            for file, names in self.house.in_order(fresh):
                lines += definitions(self.house, file, names, self.cut)[2:]
            self.done |= fresh
        self.waiting = [one for one in self.waiting if one not in ready]
        return lines


def index(lines: list[str], keys: set[Key]) -> list[str]:
    """The definitions and types of a text, each with the line at which it is."""
    either = "|".join(sorted({re.escape(key[2]) for key in keys}, key=len, reverse=True))
    first = re.compile(
        rf" *(?:(?:abbrev|unfoldable) )?pub (?:(?:record|data|struct|enum|trait) )?({either})(?=[ <(:{{]|$)")
    kept = re.compile(rf"`({either})`, a type of ")
    found: dict[str, list[str]] = {}
    for at, line in enumerate(lines, 1):
        # A field has the form of a definition, but no empty line before it.
        above = next((one for one in reversed(lines[: at - 1]) if not re.match(r" *(--|//|#)", one)), "")
        named = first.match(line) or kept.match(line)
        if named and not above:
            found.setdefault(named[1], []).append(str(at))
    # What belongs together is not parted at the end of a line.
    said = ", ".join(FIRM.join([name, *places])
                     for name, places in sorted(found.items(), key=lambda one: (one[0].lower(), one)))
    wrapped = [line.replace(FIRM, " ") for line in textwrap.wrap(said, 110, break_on_hyphens=False)]
    return ["==== Names, and the lines at which they are", "", *wrapped, ""] if found else []


def twice(keys: set[Key]) -> list[str]:
    """The names that more than one of some definitions has, and their files."""
    files: dict[str, list[str]] = {}
    for crate, module, name in sorted(keys):
        if name not in OF_FAULTS:
            files.setdefault(name, []).append(f"{crate} {module}")
    return [f"{name}: {', '.join(places)}" for name, places in sorted(files.items()) if len(places) > 1]


def names_of(house: House, keys: set[Key]) -> dict[str, list[str]]:
    """The names of some definitions and types, and of the cases of these, and what each is."""
    found: dict[str, list[str]] = {}
    for crate, module, name in sorted(keys):
        what = f"a definition of {crate} {module}" if crate else f"a type of {module}"
        made = house.module((crate, module)).constructors.items() if crate else []
        cases = ([case for case, of in made if of == name] if crate
                 else rust.cases(house.types[module, name].read_text(), name))
        if name not in OF_FAULTS:
            found.setdefault(name, []).append(what)
        for case in cases:
            found.setdefault(case, []).append(f"a case of {name}, {what}")
    return found


def meanings(found: dict[str, list[str]]) -> list[str]:
    """The names that more than one thing has, and what each is."""
    return [f"{name}: {'; '.join(places)}" for name, places in sorted(found.items()) if len(places) > 1]


def alike(found: dict[str, list[str]]) -> list[str]:
    """The names that differ from another in the case of their letters alone, and what each is."""
    names: dict[str, list[str]] = {}
    for name in sorted(found):
        names.setdefault(name.lower(), []).append(f"{name}, {found[name][0]}")
    return ["; ".join(said) for _, said in sorted(names.items()) if len(said) > 1]


def definitions(house: House, file: File, names: list[str], cut: Cut) -> list[str]:
    """Some definitions of a file, each with the sentence above it, in the `module` that has it; a field that is a link
    word says so, and a line names those that are left out."""
    hidden = {(link.key, link.field) for link in house.links if link.field}
    lines = [f"==== crates/{file[0]}/specs/{file[1].replace('.', '/')}.antt", ""]
    within = ""
    for name in names:
        definition = house.module(file).definitions[name]
        if definition.within != within:
            within = definition.within
            lines += [*within.splitlines(), ""] if within else []
        fields = {field for key, field in hidden if key == (*file, name)}
        lines += [line + ("  -- not followed" if found and found[1] in fields else "")
                  for line in house.shown((*file, name), cut) for found in [re.match(r"\s+pub (\w+) :", line)]]
        lines.append("")
    return lines


def rest(house: House, keys: set[Key], links: list[str]) -> list[str]:
    """What a text is looked up in: link words, and the kit's definitions."""
    lines = ["==== Link words, which calls hand to one another", "", *links, ""] if links else []
    for file, names in house.in_order(house.of_kit(keys)):
        lines += [f"==== Of the kit: {file[0]} {file[1]}", ""]
        for name in names:
            lines += [*house.shown((*file, name)), ""]
    return lines
