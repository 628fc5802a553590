"""Reads files of definitions (.antt): their definitions, their constructors, and what they import."""

import dataclasses
import re

IMPORT = re.compile(
    r"^\s*(?:pub )?(?:ghost )?use Rattle\.(?P<crate>\w+)\.(?P<part>specs|proofs)\.(?P<path>[\w.]+?)"
    r"(?:\.\{(?P<names>[^}]*)\}| as (?P<alias>\w+))?;?\s*$", re.M,
)
HEADER = re.compile(
    r"^(?P<indent> *)(?P<kind>(?:(?:abbrev|unfoldable|opaque) )?(?:pub )?(?:record |data )?)"
    r"(?P<name>[^\s:({]+)(?P<rest>.*)$"
)
NO_DEFINITION = ("use", "mod", "module", "infixl", "infixr", "infix", "unfolding", "--")


@dataclasses.dataclass
class Definition:
    """A definition: the line at which it begins, its lines with the sentence above it, and those lines as they stand.

    `within` is the head of the `module _` that has it, or nothing."""

    name: str
    at: int
    within: str
    shown: list[str]

    @property
    def text(self) -> str:
        """The definition behind the head of its module, for what it names."""
        return f"{self.within}\n" + "\n".join(self.shown) + "\n"

    @property
    def lines(self) -> int:
        """How many lines are to be read."""
        return len(self.shown)


@dataclasses.dataclass(frozen=True)
class Import:
    """A name of a module: its crate, its path there, its name there, and whether it is of `proofs/`."""

    crate: str
    path: str
    name: str
    is_proof: bool


@dataclasses.dataclass
class Module:
    """A file of definitions: its definitions, their constructors, and what it imports."""

    definitions: dict[str, Definition]
    constructors: dict[str, str]
    names: dict[str, Import]
    aliases: dict[str, Import]


def imports(text: str) -> tuple[dict[str, Import], dict[str, Import]]:
    """The names that a text imports, and the modules that it names."""
    names: dict[str, Import] = {}
    aliases: dict[str, Import] = {}
    for found in IMPORT.finditer(text):
        crate, path, is_proof = found["crate"], found["path"], found["part"] == "proofs"
        if found["names"] is None:
            aliases[found["alias"] or path.rsplit(".", 1)[-1]] = Import(crate, path, "", is_proof)
            continue
        for part in found["names"].split(","):
            first, _, last = part.strip().partition(" as ")
            if first:
                names[(last or first).strip()] = Import(crate, path, first.strip(), is_proof)
    return names, aliases


def header(line: str, base: int) -> re.Match[str] | None:
    """The head of a definition at this indentation, if the line is one."""
    found = HEADER.match(line)
    if not found or len(found["indent"]) != base:
        return None
    if found["kind"].strip():
        return None if found["name"] in NO_DEFINITION else found
    return found if found["name"] not in NO_DEFINITION and re.match(r" : ", found["rest"]) else None


class Reader:
    """Reads the lines of a file one by one."""

    def __init__(self, text: str) -> None:
        names, aliases = imports(text)
        self.module = Module({}, {}, names, aliases)
        self.within: list[str] = []
        self.is_head = False
        self.above: list[str] = []
        self.current: Definition | None = None
        self.is_data = False

    def read(self, at: int, line: str) -> None:
        """Takes the next line, counted from 0."""
        stripped = line.strip()
        indent = len(line) - len(line.lstrip())
        if self.is_head or (stripped.startswith("module ") and indent in range(0, 2 * len(self.within) + 1, 2)):
            self.enter(stripped, indent // 2)
        elif not stripped:
            self.above = []
        elif stripped.startswith("--"):
            self.above.append(line)
        elif re.match(r"(pub )?use |infix|pub mod |mod ", stripped):
            self.above, self.current = [], None
        else:
            if indent < 2 * len(self.within):
                del self.within[indent // 2:]
            self.take(at, line)

    def enter(self, stripped: str, depth: int) -> None:
        """Takes a line of the head of a `module _` that stands so many modules deep."""
        if self.is_head:
            self.within[-1] += f" {stripped}"
        else:
            self.within = [*self.within[:depth], stripped]
        self.is_head = not re.search(r"\bwhere$", stripped)
        self.current, self.above = None, []

    def take(self, at: int, line: str) -> None:
        """Takes a line of a definition."""
        head = header(line, 2 * len(self.within))
        if head:
            self.is_data = "data " in head["kind"]
            fresh = Definition(head["name"], at, "\n".join(self.within), [])
            self.current = self.module.definitions.setdefault(head["name"], fresh)
        if self.current:
            self.current.shown += [*self.above, line]
            made = re.match(r"(?:pub )?(\w+) :", line.strip())
            if self.is_data and not head and made:
                self.module.constructors[made[1]] = self.current.name
        self.above = []


def read_module(text: str) -> Module:
    """The definitions of a file."""
    reader = Reader(text)
    for at, line in enumerate(text.splitlines()):
        reader.read(at, line)
    return reader.module


def bound(name: str, text: str) -> set[str]:
    """The names that a definition binds: fields, the variables of functions and of types, parameters of equations."""
    found = set(re.findall(r"^\s+pub (\w+) :", text, re.M))
    for binder in re.findall(r"λ ([^.]*)\.", text) + re.findall(r"[({]([\w' ]+) : ", text):
        found |= set(re.findall(r"[A-Za-z_][\w']*", binder))
    for left in re.findall(rf"^ *{re.escape(name)} ([^=:]*) =(?: |$)", text, re.M):
        found |= {word for word in re.findall(r"[A-Za-z_][\w']*", left) if word[0].islower()}
    return found


def spoken(text: str) -> str:
    """A definition's text without its comments and without the names of fields that it fills."""
    text = re.sub(r"--.*", "", text)
    return re.sub(r"((?:record \{|;)\s*|^\s{3,})\w+ =(?= )", r"\1", text, flags=re.M)


FIELD = re.compile(r"^(?P<indent> +)pub (?P<name>\w+) :")


def fields_of(shown: list[str]) -> set[str]:
    """The names of the fields of a definition."""
    return {found["name"] for line in shown if (found := FIELD.match(line))}


def without(shown: list[str], fields: set[str]) -> list[str]:
    """The lines of a definition without some of its fields and the comments above these; a line at the end names them,
    as the sentence above speaks of them too."""
    kept: list[str] = []
    gone: list[str] = []
    margin = ""
    is_gone = False
    for line in shown:
        found = FIELD.match(line)
        indent = len(line) - len(line.lstrip())
        if found:
            margin = found["indent"]
            is_gone = found["name"] in fields
            if is_gone:
                gone.append(found["name"])
                while kept and kept[-1].startswith(f"{margin}--"):
                    kept.pop()
        elif margin and indent <= len(margin):
            is_gone = False
        if not is_gone:
            kept.append(line)
    return [*kept, f"{margin}-- fields left out, of which the sentence may speak: {', '.join(gone)}"] if gone else kept
