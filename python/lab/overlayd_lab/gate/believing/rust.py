"""Reads sources (.rt): which types they name, and the fields of these."""

import functools
import re

USE = re.compile(r"^\s*(?P<public>pub )?use (?P<tree>[^;]+);", re.M)
HEADED = r"^\s*pub {kind} {name}\b[^;{{(]*(?P<rest>[({{].*)"


def split_outside(text: str, mark: str) -> list[str]:
    """The parts of a text between marks that stand in no brackets."""
    parts, depth = [""], 0
    for letter in text:
        depth += letter in "({[<"
        depth -= letter in ")}]>"
        if letter == mark and not depth:
            parts.append("")
        else:
            parts[-1] += letter
    return parts


def leaves(tree: str, before: tuple[str, ...] = ()) -> list[tuple[str, tuple[str, ...]]]:
    """The names that a tree of `use` gives, each with its path: `a::{B, c::D as E}` gives B and E."""
    tree = tree.strip()
    head, brace, rest = tree.partition("{")
    if not brace:
        path, _, alias = tree.partition(" as ")
        parts = (*before, *(part.strip() for part in path.split("::")))
        return [(alias.strip() or parts[-1], parts)]
    inside = rest.rsplit("}", 1)[0]
    start = (*before, *(part.strip() for part in head.split("::") if part.strip()))
    return [leaf for part in split_outside(inside, ",") if part.strip() for leaf in leaves(part, start)]


@functools.cache
def used(text: str, public: bool = False) -> dict[str, tuple[str, ...]]:
    """The names that a source takes from elsewhere, each with its path; only those that it passes on, where asked."""
    found: dict[str, tuple[str, ...]] = {}
    for use in USE.finditer(re.sub(r"//.*", "", text)):
        if use["public"] or not public:
            found.update(leaves(use["tree"]))
    return found


def block(text: str, at: int) -> str:
    """The text in the brackets that open at a place."""
    depth = 0
    for end in range(at, len(text)):
        depth += text[end] in "({"
        depth -= text[end] in ")}"
        if not depth:
            return text[at + 1 : end]
    return text[at + 1 :]


def parts(text: str, name: str) -> list[tuple[str, str]]:
    """The fields of a type and the text of their types; the payloads of an enum's cases have no field's name."""
    plain = re.sub(r"//.*|#\[[^\n]*\]", "", text)
    for kind in ("struct", "enum"):
        head = re.search(HEADED.format(kind=kind, name=name), plain, re.M | re.S)
        if not head:
            continue
        inside = block(plain, head.start("rest"))
        if kind == "enum":
            return [("", inside)]
        fields = [part.strip() for part in split_outside(inside.replace("->", ""), ",") if part.strip()]
        if plain[head.start("rest")] == "(":
            return [(str(place), field) for place, field in enumerate(fields)]
        named = [re.match(r"(?:ghost )?(?:pub(?:\([^)]*\))? )?(?:ghost )?(\w+):(.*)", field, re.S) for field in fields]
        return [(field[1], field[2]) for field in named if field]
    return []


def cases(text: str, name: str) -> list[str]:
    """The names of the cases of an enum; none of another type."""
    plain = re.sub(r"//.*|#\[[^\n]*\]", "", text)
    head = re.search(HEADED.format(kind="enum", name=name), plain, re.M | re.S)
    inside = block(plain, head.start("rest")) if head else ""
    return [found[0] for part in split_outside(inside, ",") if (found := re.search(r"[A-Z]\w*", part))]


def declared(text: str, name: str, fields: set[str]) -> list[str]:
    """A type or a trait as it is declared, with its comments, without attributes; of a struct the
    fields of these names."""
    lines = text.splitlines()
    head = re.compile(rf"pub (?:struct|enum|trait) {name}\b")
    first = next((at for at, line in enumerate(lines) if head.match(line)), None)
    if first is None:
        return []
    last = first if re.search(r"[;}]$", lines[first]) else next(at
                                                                for at in range(first, len(lines)) if lines[at] == "}")
    above = first
    while above and lines[above - 1].startswith(("///", "#[")):
        above -= 1
    body = lines[first + 1 : last + 1]
    if lines[first].startswith("pub struct"):
        body = named(body, fields)
    return [line for line in [*lines[above : first + 1], *body] if not line.strip().startswith("#[")]


def named(body: list[str], fields: set[str]) -> list[str]:
    """The lines of a struct that have a field of one of these names, with the comments above them,
    and the last line."""
    kept: list[str] = []
    comments: list[str] = []
    is_kept = False
    for line in body:
        field = re.match(r"    (?:pub(?:\([^)]*\))? )?(?:ghost )?(\w+):", line)
        if field:
            is_kept = field[1] in fields
            kept += [*comments, line] if is_kept else []
            comments = []
        elif re.match(r"    (//|#\[)", line):
            comments.append(line)
        elif is_kept or line == "}":
            kept.append(line)
    return kept
