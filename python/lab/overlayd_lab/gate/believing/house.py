"""The definitions and the types of a tree and of the kit that it stands on, and what a contract reaches of them.

A key names a definition by its crate, its module and itself; ('', crate, type) is a type or a trait of the sources."""

import dataclasses
import itertools
import pathlib
import re
from collections.abc import Iterable

from overlayd_lab.gate.believing import rust
from overlayd_lab.gate.believing.sources import Import, Module, bound, fields_of, imports, read_module, spoken, without

File = tuple[str, str]
Key = tuple[str, str, str]

WORD = re.compile(r"(?<![\w.])[A-Za-z_][\w'-]*(?:\.[A-Za-z_]\w*)?")
EMPTY = Module({}, {}, {}, {})


@dataclasses.dataclass(frozen=True)
class Call:
    """A public function, the file that has it, and what it is."""

    title: str
    file: str
    name: str
    says: str


@dataclasses.dataclass(frozen=True)
class Link:
    """A definition, or a field of one, that calls hand to one another, and that therefore is not followed.

    It is followed all the same where it is reached from the definitions of `but`."""

    crate: str
    module: str
    name: str
    given: tuple[str, ...]
    taken: tuple[str, ...]
    field: str = ""
    but: tuple[str, ...] = ()

    @property
    def key(self) -> Key:
        """The definition."""
        return (self.crate, self.module, self.name)

    @property
    def title(self) -> str:
        """How the page calls it."""
        return f"{self.name}.{self.field}" if self.field else self.name


@dataclasses.dataclass(frozen=True)
class Pin:
    """A definition that a law says whole: the law's statement is read in its place. The law's file,
    function and statement."""

    key: Key
    file: str
    law: str
    statement: Key


@dataclasses.dataclass(frozen=True)
class Cut:
    """What is not followed: fields of some definitions, some definitions whole, and clauses of calls and of traits by
    their names."""

    fields: frozenset[tuple[Key, str]] = frozenset()
    words: frozenset[Key] = frozenset()
    clauses: frozenset[tuple[str, str]] = frozenset()


NOTHING = Cut()


@dataclasses.dataclass
class Reach:
    """What is reached from a contract, and the links at which that ends."""

    keys: set[Key] = dataclasses.field(default_factory=set)
    links: set[Link] = dataclasses.field(default_factory=set)
    fields: set[str] = dataclasses.field(default_factory=set)


class House:
    """The definitions and types of a tree, and of the kit's crates where its folder is given."""

    def __init__(self, top: pathlib.Path, kit: pathlib.Path | None = None, links: tuple[Link, ...] = (),
                 pins: tuple[Pin, ...] = ()) -> None:
        self.top = top
        self.kit = kit
        self.links = links
        self.pins = {pin.key: pin for pin in pins}
        lines = (top / "crates.txt").read_text().splitlines()
        heads = [line.partition(":")[0].split()[0] for line in lines if ":" in line.partition("#")[0]]
        self.crates = {crate: place for place, crate in enumerate(heads)}
        self.modules: dict[File, Module] = {}
        for crate in self.crates:
            for path in sorted(self.folder(crate).glob("**/*.antt")):
                name = ".".join(path.relative_to(self.folder(crate)).with_suffix("").parts)
                self.modules[crate, name] = read_module(path.read_text())
        self.sources = {crate: {path: path.read_text()
                                for path in sorted((top / "crates" / crate / "src").glob("**/*.rt"))}
                        for crate in self.crates}
        self.types = self.find_types()
        self.used: dict[tuple[Key, Cut], set[Key]] = {}
        for link in links:
            definition = self.modules[link.crate, link.module].definitions.get(link.name)
            if not definition or (link.field and not re.search(rf"^\s+pub {link.field} :", definition.text, re.M)):
                raise SystemExit(f"believe: {link.crate}/specs/{link.module}.antt has no {link.title}")
        for pin in pins:
            if not re.search(rf"ensures \{{ {pin.statement[2]} \}}",
                             self.head(Call(pin.law, pin.file, pin.law, ""))[1]):
                raise SystemExit(f"believe: {pin.law} does not promise {pin.statement[2]}")
            if pin.key not in self.of_text(pin.statement, NOTHING):
                raise SystemExit(f"believe: {pin.statement[2]} does not speak of {pin.key[2]}")

    def folder(self, crate: str) -> pathlib.Path:
        """The definitions of a crate, of the tree or of the kit."""
        if crate in self.crates:
            return self.top / "crates" / crate / "specs"
        return (self.kit or self.top / "no-kit") / crate / "specs"

    def find_types(self) -> dict[tuple[str, str], pathlib.Path]:
        """The file of each public type and trait."""
        found: dict[tuple[str, str], pathlib.Path] = {}
        for crate, sources in self.sources.items():
            for path, text in sources.items():
                for name in re.findall(r"^\s*pub (?:struct|enum|trait) (\w+)", text, re.M):
                    found.setdefault((crate, name), path)
        return found

    # ---- names of definitions

    def module(self, file: File) -> Module:
        """A file of definitions; of the kit it is read when it is first asked for."""
        if file not in self.modules:
            path = self.folder(file[0]) / f"{file[1].replace('.', '/')}.antt"
            self.modules[file] = read_module(path.read_text()) if self.kit and path.is_file() else EMPTY
        return self.modules[file]

    def home(self, crate: str, path: str) -> File:
        """The file that a path of a crate means: its own, or one that its `specs/Lib.antt` passes on."""
        if self.module((crate, path)) is EMPTY:
            first, dot, rest = path.partition(".")
            passed = self.module((crate, "Lib")).aliases.get(first)
            if passed and (passed.crate, passed.path) != (crate, path):
                return self.home(passed.crate, passed.path + dot + rest)
        return (crate, path)

    def resolve(self, file: File, word: str, seen: frozenset[File] = frozenset()) -> Key | None:
        """What a word of a file's definitions is: a definition, or ('', crate, type) for a type of the sources."""
        module = self.module(file)
        if file in seen:
            return None
        if word in module.definitions:
            return (*file, word)
        if word in module.constructors:
            return (*file, module.constructors[word])
        if word in module.names:
            return self.imported(module.names[word], file, seen | {file})
        return None

    def imported(self, found: Import, file: File | None, seen: frozenset[File]) -> Key | None:
        """What an imported name is; the page cannot list one of the tree's `proofs/`, nor one that is not there."""
        place = ".".join(file or ("a contract",))
        if found.is_proof:
            if found.crate in self.crates:
                raise SystemExit(f"believe: {place} is reached, and names {found.name} of {found.crate}/proofs")
            return None
        if found.path.startswith("declared."):
            parts = [part for part in [*found.path.split("."), found.name] if (found.crate, part) in self.types]
            return ("", found.crate, parts[-1]) if parts else None
        home = self.home(found.crate, found.path)
        key = self.resolve(home, found.name, seen)
        if not key and found.crate in self.crates and home not in seen:
            raise SystemExit(f"believe: {place} is reached, and names {found.name} of {'.'.join(home)}, which has no"
                             " such definition")
        return key

    def named(self, text: str, file: File | None, names: dict[str, Import], aliases: dict[str, Import]) -> set[Key]:
        """What a text names, in a file or with these imports."""
        found: set[Key | None] = set()
        mine = self.module(file) if file else Module({}, {}, names, aliases)
        for word in set(WORD.findall(text)):
            first, _, last = word.partition(".")
            if last and first in mine.aliases:
                found.add(self.imported(dataclasses.replace(mine.aliases[first], name=last), file, frozenset()))
            elif file:
                found.add(self.resolve(file, first))
            elif first in names:
                found.add(self.imported(names[first], None, frozenset()))
        for name in [*mine.definitions, *mine.names]:
            if "◌" in name and any(f" {part} " in text for part in name.split("◌") if part):
                found.add(self.resolve(file, name) if file else self.imported(mine.names[name], None, frozenset()))
        return {key for key in found if key}

    # ---- what a definition or a type rests on

    def said(self, key: Key, cut: Cut = NOTHING) -> str:
        """A definition's text for what it names, without the fields that are links, or cut."""
        if key in self.pins:
            return spoken("\n".join([*self.signature(key), self.stated(key)]))
        text = spoken(self.module(key[:2]).definitions[key[2]].text)
        for of, field in [*((link.key, link.field) for link in self.links), *cut.fields]:
            if of == key and field:
                text = re.sub(rf"^( +)pub {field} :[^\n]*(?:\n\1 +[^\n]*)*", "", text, flags=re.M)
        return text

    def uses(self, key: Key, cut: Cut = NOTHING) -> set[Key]:
        """What a definition names, or the model of a type of the sources."""
        if (key, cut) not in self.used:
            if key in self.pins:
                self.used[key, cut] = self.of_pin(self.pins[key])
            else:
                self.used[key, cut] = self.of_type(key[1], key[2], cut) if key[0] == "" else self.of_text(key, cut)
        return self.used[key, cut]

    def of_pin(self, pin: Pin) -> set[Key]:
        """What the signature of a definition names, and the law that says it whole."""
        typed = self.named("\n".join(self.signature(pin.key)), pin.key[:2], {}, {})
        return (typed | self.of_text(pin.statement, NOTHING)) - {pin.key, pin.statement}

    def signature(self, key: Key) -> list[str]:
        """The lines of a definition before its first equation, without the sentence above it."""
        lines = [line for line in self.module(key[:2]).definitions[key[2]].shown if not line.strip().startswith("--")]
        return list(itertools.takewhile(lambda line: not re.match(rf" *{re.escape(key[2])} (?!: )", line), lines))

    def stated(self, key: Key) -> str:
        """What the law says of a definition that it says whole, in one line."""
        statement = self.pins[key].statement
        said = " ".join(line.strip() for line in self.module(statement[:2]).definitions[statement[2]].shown
                        if not line.strip().startswith("--"))
        return said.partition(f"{statement[2]} = ")[2]

    def of_text(self, key: Key, cut: Cut) -> set[Key]:
        """What the text of a definition names."""
        module = self.module(key[:2])
        text = self.said(key, cut)
        own = bound(key[2], text) - {key[2]}
        own -= set(module.aliases)
        kept = WORD.sub(lambda word: "" if word[0].partition(".")[0] in own else word[0], text)
        return self.named(kept, key[:2], {}, {}) - {key}

    def of_type(self, crate: str, name: str, cut: Cut = NOTHING) -> set[Key]:
        """What the model of a type names, or the clauses of a trait, but for those that are cut."""
        text = self.types[crate, name].read_text()
        names, aliases = imports(text)
        trait = re.search(rf"^pub trait {name}\b.*?^}}", text, re.M | re.S)
        if trait:
            said = re.sub(r"//.*", "", trait[0])
            for clause in [clause for title, clause in cut.clauses if title == name]:
                said, count = re.subn(rf"\n *(?:ensures|requires) {clause} \{{[^\n]*", "", said)
                if not count:
                    raise SystemExit(f"believe: {name} has no clause {clause}")
            return self.named(said, None, names, aliases)
        value = self.model(crate, name)
        return self.named(value, None, names, aliases) if value else set()

    def model(self, crate: str, name: str) -> str:
        """What a value of a type is seen as, or nothing where the type is seen by its fields."""
        return self.of_model(crate, name, "Value")

    def invariant(self, crate: str, name: str) -> str:
        """What each value of a type with a model keeps to, of its fields, or nothing where the model says none."""
        return self.of_model(crate, name, "invariant")

    def of_model(self, crate: str, name: str, part: str) -> str:
        """A part of a type's model, or nothing."""
        block = re.search(rf"^impl[^\n]*Model for {name}\b.*?^\}}", self.types[crate, name].read_text(), re.M | re.S)
        found = re.search(rf"ghost {part} = \{{ (.*?) \}};", block[0], re.S) if block else None
        return found[1] if found else ""

    def declared(self, crate: str, name: str, fields: set[str], cut: Cut = NOTHING) -> list[str]:
        """A type as its source declares it, with the fields of these names; a trait without the
        clauses that are cut."""
        lines = rust.declared(self.types[crate, name].read_text(), name, fields)
        gone = {clause for title, clause in cut.clauses if title == name}
        return [line for line in lines if not (found := re.match(r" *ensures (\w+) ", line)) or found[1] not in gone]

    def fields_said(self, calls: list[Call], keys: set[Key], cut: Cut = NOTHING) -> set[str]:
        """The names after a point in some contracts and definitions: the fields that these see."""
        said = [*(self.head(call)[1] for call in calls), *("\n".join(self.shown(key, cut)) for key in keys if key[0])]
        return set(re.findall(r"\.(\w+)", "\n".join(said)))

    def plain_types(self, keys: set[Key]) -> set[Key]:
        """Those that are types of the sources without a model, which are seen as they are declared."""
        return {key for key in keys if not key[0] and not self.model(key[1], key[2])}

    def type_of(self, text: str, crate: str, word: str) -> Key | None:
        """The type that a word of a source is, also where another crate passes it on."""
        path = rust.used(text).get(word)
        if path is None:
            return ("", crate, word) if (crate, word) in self.types else None
        return self.passed_on(path[0] if path[0] in self.crates else crate, path[-1])

    def passed_on(self, crate: str, word: str, seen: frozenset[str] = frozenset()) -> Key | None:
        """The type that a crate has under a name, its own or another's that it passes on."""
        if (crate, word) in self.types:
            return ("", crate, word)
        for text in self.sources[crate].values():
            path = rust.used(text, public=True).get(word)
            if path and path[0] in self.crates and path[0] not in seen:
                return self.passed_on(path[0], path[-1], seen | {crate})
        return None

    def within(self, key: Key, fields: set[str]) -> set[Key]:
        """The types of the payloads of a type that is seen by its cases, and of its fields of these names."""
        _, crate, name = key
        if self.model(crate, name):
            return set()
        text = self.types[crate, name].read_text()
        said = " ".join(part for field, part in rust.parts(text, name) if not field or field in fields)
        return {found for word in re.findall(r"\b[A-Z]\w*", said) if (found := self.type_of(text, crate, word))}

    # ---- what a contract reaches

    def head(self, call: Call) -> tuple[str, str, str]:
        """The text of a call's file, of the call's head there, and what stands before it."""
        text = (self.top / "crates" / call.file).read_text()
        # A method that an `impl` gives for a trait has no `pub`; the trait's own lines have no body.
        head = re.search(rf"^( *)(?:pub )?fn {call.name}\b((?:(?!;$).)*?)\n\1\{{", text, re.M | re.S)
        if not head:
            raise SystemExit(f"believe: {call.file} has no pub fn {call.name}")
        return text, re.sub(r"//.*", "", head[2]), text[: head.start()] if head[1] else ""

    def promised(self, call: Call, cut: Cut = NOTHING) -> str:
        """The head of a call without comments, and without the clauses that are cut."""
        _, said, _ = self.head(call)
        for title, clause in cut.clauses:
            if title == call.title:
                said, count = re.subn(rf"\n *ensures {clause} \{{.*?(?=\n *(?:ensures|requires) |\Z)", "", said,
                                      flags=re.S)
                if not count:
                    raise SystemExit(f"believe: {title} has no clause {clause}")
        return said

    def contract(self, call: Call, cut: Cut = NOTHING) -> set[Key]:
        """What the contract of a call names."""
        text, _, before = self.head(call)
        said = self.promised(call, cut)
        found = self.named(said, None, *imports(text))
        crate = call.file.partition("/")[0]
        owner = re.findall(r"^impl[^\n]*?(\w+)(?:<[^\n]*>)? \{$", before, re.M)
        for word in set(re.findall(r"\b[A-Z]\w*", said)) | set(owner[-1:]):
            kind = self.type_of(text, crate, word)
            if kind:
                found.add(kind)
        return found

    def reached(self, start: set[Key], fields: set[str] | None = None, cut: Cut = NOTHING) -> Reach:
        """All that is named from these on, but for what the links hide and what is cut; these themselves whole."""
        reach = Reach(fields=set(fields or ()))
        waiting = set(start)
        while waiting:
            while waiting:
                key = waiting.pop()
                if key not in reach.keys:
                    reach.keys.add(key)
                    if key[0]:
                        reach.fields |= set(re.findall(r"\.(\w+)", self.said(key, cut)))
                    waiting |= self.followed(key, reach, cut)
            types = {key for key in reach.keys if not key[0]}
            waiting = {kind for key in types for kind in self.within(key, reach.fields)} - reach.keys
        reach.links |= {link for link in self.links if link.field and link.key in reach.keys}
        return reach

    def followed(self, key: Key, reach: Reach, cut: Cut) -> set[Key]:
        """What a key names, without what is cut, and without the links, which are put down."""
        named = self.uses(key, cut) - reach.keys - cut.words
        hidden = {link for link in self.links if not link.field and link.key in named and key[2] not in link.but}
        reach.links |= hidden
        return named - {link.key for link in hidden}

    def of_call(self, call: Call, cut: Cut = NOTHING) -> Reach:
        """What the contract of a call reaches."""
        start = self.contract(call, cut) - cut.words
        hidden = {link for link in self.links if not link.field and link.key in start}
        reach = self.reached(start - {link.key for link in hidden},
                             set(re.findall(r"\.(\w+)", self.promised(call, cut))), cut)
        reach.links |= hidden
        return reach

    def of_parts(self, calls: list[Call], parts: Cut) -> tuple[Reach, Cut]:
        """What some promises reach, each a field of a claim, a claim whole or a clause of a call (of a trait all of its
        clauses), and what that leaves out: the other fields of these claims."""
        heads = {key for key, _ in parts.fields}
        others = {(key, field) for key in heads for field in fields_of(self.module(key[:2]).definitions[key[2]].shown)}
        cut = Cut(frozenset(others - parts.fields))
        start, fields = set[Key](), set[str]()
        for title, clause in parts.clauses:
            start |= {("", *place) for place in self.types if place[1] == title}
            for call in [call for call in calls if call.title == title]:
                said = self.clause(call, clause)
                start |= self.named(said, None, *imports(self.head(call)[0]))
                fields |= set(re.findall(r"\.(\w+)", said))
        hidden = {link for link in self.links if not link.field and link.key in start}
        reach = self.reached(heads | parts.words | start - {link.key for link in hidden}, fields, cut)
        reach.links |= hidden
        return reach, cut

    def clause(self, call: Call, name: str) -> str:
        """A clause of a call by its name."""
        found = re.search(rf"\n *ensures {name} (\{{.*?)(?=\n *(?:ensures|requires) |\Z)", self.head(call)[1], re.S)
        if not found:
            raise SystemExit(f"believe: {call.title} has no clause {name}")
        return found[1]

    def cut(self, parts: tuple[str, ...]) -> Cut:
        """What a row leaves out, or what it has: `Record.field`, `Word`, each after its module where it takes that, or
        `call: clause` and `Trait: clause`."""
        fields: set[tuple[Key, str]] = set()
        words: set[Key] = set()
        clauses: set[tuple[str, str]] = set()
        for one in parts:
            title, colon, clause = one.partition(": ")
            if colon:
                clauses.add((title, clause))
                continue
            place, _, word = one.rpartition(" ")
            name, _, field = word.partition(".")
            keys = [(*file, name) for file, module in self.modules.items()
                    if file[0] in self.crates and name in module.definitions and file[1].endswith(place)]
            if len(keys) != 1 or field and not re.search(rf"^\s+pub {field} :", self.said(keys[0]), re.M):
                raise SystemExit(f"believe: a row names {one}, and {len(keys)} definitions have that name")
            if field:
                fields.add((keys[0], field))
            else:
                words.add(keys[0])
        return Cut(frozenset(fields), frozenset(words), frozenset(clauses))

    # ---- order and counts

    def mine(self, keys: Iterable[Key]) -> set[Key]:
        """Those that are definitions of the tree."""
        return {key for key in keys if key[0] in self.crates}

    def of_kit(self, keys: set[Key]) -> set[Key]:
        """Those that are definitions of the kit."""
        return {key for key in keys if key[0] and key[0] not in self.crates}

    def in_order(self, keys: set[Key]) -> list[tuple[File, list[str]]]:
        """The files of some definitions, lowest first, each with its definitions as they stand."""
        files = sorted({key[:2] for key in keys}, key=lambda file: (self.crates.get(file[0], -1), file))
        rests = {file: {key[:2] for k in keys if k[:2] == file for key in self.uses(k)} & set(files) - {file}
                 for file in files}
        order: list[File] = []

        def put(file: File, path: tuple[File, ...]) -> None:
            for low in files:
                if low in rests[file] and low not in path and low not in order:
                    put(low, (*path, low))
            if file not in order:
                order.append(file)

        for file in files:
            put(file, (file,))
        return [(file, sorted((k[2] for k in keys if k[:2] == file), key=lambda n: self.module(file).definitions[n].at))
                for file in order]

    def shown(self, key: Key, cut: Cut = NOTHING) -> list[str]:
        """The lines of a definition, in which one line names the fields that are left out; or what a law says of it."""
        if key in self.pins:
            shown = self.module(key[:2]).definitions[key[2]].shown
            sentence = list(itertools.takewhile(lambda line: line.strip().startswith("--"), shown))
            return [*sentence, *self.signature(key),
                    f"-- the law `{self.pins[key].law}` says it whole: {self.stated(key)}"]
        return without(self.module(key[:2]).definitions[key[2]].shown, {field for of, field in cut.fields if of == key})

    def lines(self, keys: set[Key], cut: Cut = NOTHING) -> int:
        """The lines of some definitions."""
        return sum(len(self.shown(key, cut)) for key in keys)
