"""The functions of a crate: where each stands in its sources, and the name by which the prover calls it.

Sources are laid out by `rt fmt`, so a function begins at the margin or four columns in, and ends with a brace there or
on its own line. The prover names one by its module, its type and itself: `bounds::Bounds::with`; one of an `impl` for a
trait by both names in one, `point::PtOrd::cmp`; one of a type by the module where the type is, wherever its `impl`
stands; but one of an `impl` for some types alone by the module where that stands, and with what the type is given
there: `fault_disk::PlannedDisk+D+FaultPlan::new`."""

import collections
import dataclasses
import pathlib
import re
from collections.abc import Iterator

# A function, or a constant, whose name begins with a capital, with its value if that stands in the line.
ITEM = re.compile(
    r"^(?P<indent> *)(?P<public>pub )?(?:pub\([^)]*\) )?"
    r"(?:(?:const )?(?:unsafe )?fn (?P<name>\w+)|const (?P<constant>[A-Z]\w*):(?: [^=]+ = (?P<value>[^;]+);$)?)")
# What functions stand in: a trait, or an `impl`.
BLOCK = re.compile(r"^(?:(?:pub(?:\([^)]*\))? )?trait (?P<trait>\w+).*?"
                   r"|(?:unsafe )?impl(?:<(?:[^<>]|<[^<>]*>)*>)? (?P<made>.*?))(?: where.*)?(?: \{)?$")
TYPE = re.compile(r"^(?:pub(?:\([^)]*\))? )?(?:struct|enum|union) (?P<name>\w+)", re.M)


@dataclasses.dataclass(frozen=True)
class Function:
    """A function: its name, its file, and the lines, from 0, of its head, of the brace of its body and of its end.

    It has no proof of its own where a trait declares it; the `drop` of a type, and a function of two `impl` blocks,
    have names of the prover's."""

    name: str
    path: str
    first: int
    body: int
    last: int
    is_own: bool


def bare(name: str) -> str:
    """A type's name without its path and its parameters."""
    return re.sub(r"<.*>", "", name).split("::")[-1].strip()


def module(path: str) -> str:
    """The module that a file below src/ is: `a::b` of src/a/b.rt, nothing of the root."""
    parts = pathlib.PurePath(path).with_suffix("").parts[1:]
    return "" if parts in (("lib",), ("main",)) else "::".join(parts)


def within(*parts: str) -> str:
    """A path of those parts that are not empty."""
    return "::".join(part for part in parts if part)


def parts_of(made: str) -> list[str]:
    """The name of a type or trait, and those of the types that it is given, without their paths."""
    return re.findall(r"(?:\w+::)*(\w+)", re.sub(r"'\w+", "", made))


def is_parameter(name: str) -> bool:
    """Whether a type's name is that of a parameter, which has one letter."""
    return len(name) == 1


def of_trait(trait: str, held: str) -> str:
    """A trait's name with the types that it is given, but for parameters and for the type that has it alone."""
    name, *given = parts_of(trait)
    return name + "".join(one for one in given if not is_parameter(one) and given != [held])


def items(lines: list[str]) -> Iterator[tuple[int, re.Match[str], re.Match[str] | None]]:
    """The functions and constants of a file: the line of each, its head, and that of the block that it stands in."""
    block: re.Match[str] | None = None
    for at, line in enumerate(lines):
        if line and line[0] not in " }{)#/" and not line.startswith("where"):
            block = BLOCK.match(line)
        head = ITEM.match(line)
        if head and len(head["indent"]) in (0, 4):
            yield at, head, block if head["indent"] else None


def owner(block: re.Match[str], path: str, homes: dict[str, list[str]]) -> str:
    """The path of the type or trait whose functions a block has."""
    if block["trait"]:
        return within(module(path), block["trait"])
    left, is_trait, right = block["made"].partition(" for ")
    if is_trait:
        return within(module(path), bare(right) + of_trait(left, bare(right)))
    name, *given = parts_of(left)
    if not all(map(is_parameter, given)):
        return within(module(path), "+".join([name, *given]))
    places = homes.get(bare(left), [])
    return within(places[0] if len(places) == 1 else module(path), bare(left))


def ends(lines: list[str], first: int, indent: str) -> tuple[int, int]:
    """The line that opens the body of the function that begins on a line, and its last one; no
    body: the last one twice."""
    body = last = len(lines) - 1
    for at in range(first, len(lines)):
        is_level = lines[at].startswith(indent) and not lines[at].startswith(f"{indent} ")
        if is_level and lines[at].endswith(("{", "{}")):
            body = min(body, at)
        if is_level and lines[at].endswith((";", "}")):
            last = at
            break
    return min(body, last), last


def of_source(source: str, path: str, homes: dict[str, list[str]]) -> list[Function]:
    """The functions of a file, in their order; `homes` has the modules of each type of the crate."""
    lines = source.split("\n")
    return [
        Function(within(owner(block, path, homes) if block else module(path), head["name"]), path, at,
                 *ends(lines, at, head["indent"]), not block or not (block["trait"] or " Drop for " in block[0]))
        for at, head, block in items(lines) if head["name"]]


def homes_of(texts: dict[str, str]) -> dict[str, list[str]]:
    """The modules of each type of a crate, by its name."""
    found: dict[str, list[str]] = {}
    for path, text in texts.items():
        if path.startswith("src/"):
            for kind in TYPE.finditer(text):
                found.setdefault(kind["name"], []).append(module(path))
    return found


def of_crate(texts: dict[str, str]) -> list[Function]:
    """The functions of a crate, by the texts of its files, file by file."""
    homes = homes_of(texts)
    found = [one for path, text in texts.items() if path.startswith("src/") for one in of_source(text, path, homes)]
    count = collections.Counter(one.name for one in found)
    return [dataclasses.replace(one, is_own=one.is_own and count[one.name] == 1) for one in found]
