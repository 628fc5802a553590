"""Writes docs/BELIEVE.md: a table of calls, the link words between them, and what each call rests on."""

import collections
import dataclasses
import functools
import pathlib
import re

from overlayd_lab.gate.believing.house import NOTHING, Call, Cut, House, Key, Reach

# The row of all calls.
ALL = "all together"
# The rows of which README.md has the numbers.
OF_README = rf"(?:`locate`|the sentence in bold|a crash of a run, and its opening|all without what stands beside|{ALL})"
ROW = re.compile(rf"^\| {OF_README} \| (\d+) \| ([\d,]+) \|(?:[^|\n]*\|){{2}} ([\d,]+) \|", re.M)
# Those rows of README.md: their cells of definitions, of lines and of lines in all.
TOLD = re.compile(r"^(\| [^|\n]+ \| )\d+( \| )[\d,]+( \| )[\d,]+( \|)$", re.M)


@dataclasses.dataclass(frozen=True)
class Word:
    """A definition that says a promise, and what it says."""

    crate: str
    module: str
    name: str
    says: str


@dataclasses.dataclass(frozen=True)
class Law:
    """A public function with an empty body, whose contract says what holds of definitions: its section, its file."""

    section: str
    file: str
    name: str


@dataclasses.dataclass(frozen=True)
class Row:
    """What several calls say together: its title, the calls, what it is, and the promises of these that it leaves out,
    or those that alone it has."""

    title: str
    calls: tuple[str, ...]
    says: str
    without: tuple[str, ...] = ()
    only: tuple[str, ...] = ()


@dataclasses.dataclass(frozen=True)
class Tables:
    """What the page is written from, beside the sources: its first part, in which @NAME@ marks what is filled in."""

    head: str
    calls: list[Call]
    together: list[Row]
    promises: list[Word]
    laws: list[Law]
    # The laws that a text shows where it has nearly all of their words.
    shown: tuple[str, ...] = ()


class Reading:
    """What the calls of the page reach."""

    def __init__(self, house: House, tables: Tables) -> None:
        self.house = house
        self.tables = tables
        self.reach = {call.title: house.of_call(call) for call in tables.calls}

    def row(self, title: str) -> tuple[list[Call], Reach]:
        """The calls of a row, and what they reach together, or what the promises reach that alone it has."""
        row = self.row_of(title)
        calls = [call for call in self.tables.calls if call.title in row.calls]
        if len(calls) < len(row.calls):
            raise SystemExit(f"believe: no row {title}, or it names a call that the page has not")
        if row.only:
            return calls, self.house.of_parts(calls, self.house.cut(row.only))[0]
        cut = self.house.cut(row.without)
        parts = [self.house.of_call(call, cut) if row.without else self.reach[call.title] for call in calls]
        keys = set().union(*(part.keys for part in parts))
        links = set().union(*(part.links for part in parts))
        return calls, Reach(keys, {link for link in links if link.field or link.key not in keys})

    def row_of(self, title: str) -> Row:
        """The row of a title: of several calls, or of one."""
        calls = tuple(call.title for call in self.tables.calls) if title == ALL else (title,)
        return next((row for row in self.tables.together if row.title == title), Row(title, calls, ""))

    def cut(self, title: str) -> Cut:
        """What a row leaves out."""
        row = self.row_of(title)
        return self.house.of_parts([], self.house.cut(row.only))[1] if row.only else self.house.cut(row.without)

    def counted(self, keys: set[Key], cut: Cut = NOTHING) -> str:
        """The cells that count some definitions, and the kit's with them."""
        mine, kit = self.house.mine(keys), self.house.of_kit(keys)
        files = len({key[:2] for key in mine})
        of_kit = f"{len(kit)} ({self.house.lines(kit):,})" if kit else ""
        return f"{len(mine)} | {self.house.lines(mine, cut):,} | {files} | {of_kit}"

    def needed(self, title: str) -> int:
        """The lines of all that a reader of a row needs: definitions, those of the kit, contracts, and types."""
        house, cut = self.house, self.cut(title)
        calls, reach = self.row(title)
        fields = house.fields_said(calls, reach.keys, cut)
        types = sum(len(house.declared(kind[1], kind[2], fields, cut)) for kind in house.plain_types(reach.keys))
        contracts = sum(len(quoted(house, call)) for call in calls)
        return house.lines(house.mine(reach.keys), cut) + house.lines(house.of_kit(reach.keys)) + contracts + types


def page(house: House, tables: Tables) -> str:
    """The whole page."""
    reading = Reading(house, tables)
    rows: list[str] = []
    parts: list[str] = []
    met: set[Key] = set()
    listed: dict[Key, str] = {}
    for call in tables.calls:
        _, reach = reading.row(call.title)
        fresh = reach.keys - met
        listed.update({key: call.title for key in house.mine(fresh)})
        counts = f"{reading.counted(reach.keys)} | {reading.needed(call.title):,}"
        rows.append(f"| `{call.title}` | {counts} | {call.says} |")
        parts.append(section(reading, call, reach, fresh))
        met |= reach.keys
    for row in [*tables.together, Row(ALL, (), "")]:
        _, reach = reading.row(row.title)
        counts = f"{reading.counted(reach.keys, reading.cut(row.title))} | {reading.needed(row.title):,}"
        rows.append(f"| {row.title} | {counts} | {row.says} |")
    every = sum(len(module.definitions) for (crate, _), module in house.modules.items() if crate in house.crates)
    table = ["| Call | Definitions | Lines | Files | Of the kit (lines) | Lines in all | What it is |",
             f"|{'---|' * 7}", *rows]
    head = tables.head.replace("@CONTRACT@", "\n".join(f"    {line}" for line in quoted(house, tables.calls[0])))
    for mark, said in (("@LINKS@", links(reading)), ("@WITHOUT@", left_out(reading)), ("@PINS@", pinned(house))):
        head = head.replace(mark, said)
    tail = f"\nOf {every:,} definitions in `crates/*/specs`.\n"
    return "\n".join([head, "", *table, tail, *promised(reading, listed), *parts, types(house, met)])


def quoted(house: House, call: Call) -> list[str]:
    """A function's head as it stands in its source, moved to the margin; a method's after the type that has it."""
    lines = (house.top / "crates" / call.file).read_text().splitlines()
    head = re.compile(rf"\s*(?:pub )?fn {call.name}\b(?!.*;$)")
    first = next(k for k, line in enumerate(lines) if head.match(line))
    shift = len(lines[first]) - len(lines[first].lstrip())
    last = next(k for k in range(first, len(lines)) if re.match(rf" {{{shift}}}\{{", lines[k]))
    owner = [line for line in lines[:first] if shift and re.match(r"impl\b", line)][-1:]
    return [*owner, *(line[shift:] for line in lines[first:last])]


def links(reading: Reading) -> str:
    """The table of link words: who gives each, who takes it."""
    lines = ["| Link word | Given by | Taken by |", "|---|---|---|"]
    for link in reading.house.links:
        for title in (*link.given, *link.taken):
            if link not in reading.reach[title].links and link.key not in reading.reach[title].keys:
                raise SystemExit(f"believe: {title} is said to give or take {link.title}, and does not reach it")
        path = f"../crates/{link.crate}/specs/{link.module}.antt"
        given, taken = (", ".join(f"`{title}`" for title in titles) for titles in (link.given, link.taken))
        lines.append(f"| [`{link.title}`]({path}) | {given} | {taken} |")
    return "\n".join(lines)


def pinned(house: House) -> str:
    """The table of definitions that a law says whole."""
    lines = ["| Definition | Law | What it says |", "|---|---|---|"]
    for key, pin in house.pins.items():
        path = f"../crates/{key[0]}/specs/{key[1].replace('.', '/')}.antt"
        lines.append(f"| [`{key[2]}`]({path}) | [`{pin.law}`](../crates/{pin.file}) | `{house.stated(key)}` |")
    return "\n".join(lines)


def left_out(reading: Reading) -> str:
    """What rows leave out, and what those have that stand beside, row by row."""
    rows = [(row.title, verb, parts) for row in reading.tables.together
            for verb, parts in [("leaves out", row.without), ("has", row.only)] if parts]
    return "\n".join(f"- `{title}` {verb} {', '.join(f'`{one}`' for one in parts)}." for title, verb, parts in rows)


def promised(reading: Reading, listed: dict[Key, str]) -> list[str]:
    """How much the words of the promises rest on, and in which sections that is listed."""
    house = reading.house
    lines = ["The same of single words, by which a promise is said, and the sections that list what each rests on",
             "(what no call reaches is in none):", "",
             "| Word | Definitions | Lines | Files | Of the kit (lines) | What it says | Sections |", f"|{'---|' * 7}"]
    for word in reading.tables.promises:
        if word.name not in house.module((word.crate, word.module)).definitions:
            raise SystemExit(f"believe: {word.crate}/specs/{word.module}.antt has no {word.name}")
        keys = house.reached({(word.crate, word.module, word.name)}).keys
        counts = collections.Counter(listed[key] for key in keys if key in listed)
        sections = ", ".join(f"`{title}` {counts[title]}" for title in dict.fromkeys(listed.values()) if counts[title])
        path = f"{word.crate}/specs/{word.module}.antt"
        lines.append(f"| [`{word.name}`](../crates/{path}) | {reading.counted(keys)} | {word.says} | {sections} |")
    return [*lines, ""]


def section(reading: Reading, call: Call, reach: Reach, fresh: set[Key]) -> str:
    """What a call rests on, but for what stands above: definitions, link words, words of the kit, types; and laws."""
    house = reading.house
    mine, new = house.mine(reach.keys), house.mine(fresh)
    lines = [f"## `{call.title}`", "", f"{call.says} The contract: `crates/{call.file}`."]
    if len(new) < len(mine):
        lines[-1] += f" {len(mine) - len(new)} of its definitions are in sections above."
    if new:
        lines += ["", "| File | Lines | Definitions |", "|---|---|---|"]
    for (crate, module), names in house.in_order(new):
        count = house.lines({(crate, module, name) for name in names})
        path = f"{crate}/specs/{module.replace('.', '/')}.antt"
        lines.append(f"| [{crate} {module}](../crates/{path}) | {count} | {', '.join(f'`{name}`' for name in names)} |")
    for head, names in [("Link words", sorted(link.title for link in reach.links)),
                        ("Of the kit", of_kit(house, fresh)),
                        ("Types", sorted({name for crate, _, name in fresh if not crate}))]:
        if names:
            said = [name if head == "Of the kit" else f"`{name}`" for name in names]
            lines += ["",
                      f"{head}: {(';' if head == 'Of the kit' else ',').join(f' {name}' for name in said).strip()}."]
    return "\n".join([*lines, *laws(reading, call, new), ""])


def of_kit(house: House, keys: set[Key]) -> list[str]:
    """The kit's definitions among some, file by file."""
    files = house.in_order(house.of_kit(keys))
    return [f"{crate} {module} {', '.join(f'`{name}`' for name in names)}" for (crate, module), names in files]


def sentence_of(house: House, law: Law) -> str:
    """What a law says, in the words of its own comment."""
    text = (house.top / "crates" / law.file).read_text()
    found = re.search(rf"((?:^///[^\n]*\n)+)pub fn {law.name}\b[^{{]*?\n(?:    [^\n]*\n)*\{{\}}", text, re.M)
    if not found:
        raise SystemExit(f"believe: crates/{law.file} has no law {law.name}")
    return " ".join(line[3:].strip() for line in found[1].splitlines())


@functools.cache
def reached_by(house: House, law: Law) -> set[Key]:
    """The definitions of the tree that a law speaks of, its own statement among them."""
    return house.mine(house.of_call(Call(law.name, law.file, law.name, "")).keys)


def laws(reading: Reading, call: Call, fresh: set[Key]) -> list[str]:
    """What is proved of the definitions that a section lists."""
    mine = [law for law in reading.tables.laws if law.section == call.title]
    for law in mine:
        if not reached_by(reading.house, law) & fresh:
            raise SystemExit(f"believe: {law.name} speaks of nothing that the section {call.title} lists")
    lines = [f"- [`{law.name}`](../crates/{law.file}): {sentence_of(reading.house, law)}" for law in mine]
    return ["", "What is proved of these:", "", *lines] if lines else []


def types(house: House, keys: set[Key]) -> str:
    """The types of the sources that contracts and definitions name."""
    lines = ["## Types of the sources", "",
             "Counted above in lines in all alone, and there those without a model. A value of a type with a model",
             "is seen as the model's value; of any other its fields are seen, and of an enum its cases. What each",
             "value of a type with a model keeps to, the texts of rows say. A trait has clauses of its own: what a",
             "disk has to keep, a crash's premise, is in `Disk`.", "",
             "| File | Types, and what they are seen as |", "|---|---|"]
    files: dict[tuple[int, str], list[str]] = {}
    for crate, name in sorted({key[1:] for key in keys if not key[0]}):
        path = str(house.types[crate, name].relative_to(house.top / "crates"))
        files.setdefault((house.crates[crate], path), []).append(seen_as(house, crate, name))
    for (_, path), names in sorted(files.items()):
        lines.append(
            f"| [{path}](../crates/{path}) | {', '.join(sorted(names, key=lambda n: n.removeprefix('trait ')))} |")
    return "\n".join([*lines, ""])


def seen_as(house: House, crate: str, name: str) -> str:
    """A type, and what its values are seen as."""
    value = re.sub(r"\s+", " ", house.model(crate, name))
    is_trait = re.search(rf"^\s*pub trait {name}\b", house.types[crate, name].read_text(), re.M)
    return f"{'trait ' if is_trait else ''}`{name}`" + (f" as `{value}`" if value else "")


def with_numbers(readme: str, page_text: str) -> str:
    """README.md with the numbers of the page: of a point, of the sentence in bold, of a run's crash, and of all,
    without what stands beside and with it."""
    numbers = iter(ROW.findall(page_text))

    def counted(found: re.Match[str]) -> str:
        definitions, lines, in_all = next(numbers)
        return f"{found[1]}{definitions}{found[2]}{lines}{found[3]}{in_all}{found[4]}"

    return TOLD.sub(counted, readme, count=5)


def is_written(file: pathlib.Path, said: str) -> bool:
    """Whether a file is what would be written."""
    return file.is_file() and file.read_text() == said
