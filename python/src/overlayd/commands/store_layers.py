"""The layers of a store that a subcommand works on, and the words that subcommands have for them."""

import pathlib
import sys
from collections.abc import Callable
from dataclasses import dataclass, field
from fractions import Fraction

import click

from ..ending import Unusable
from ..geometry.areas import Ring
from ..grid import scale as scales
from ..program import Session
from ..program_files import FEATURES, found_program
from ..store import outlines
from ..store.layers import Layers, digests
from ..store.opening import layers_of, opened
from ..words import FILE, NUMBER, PROGRAM, Words, option

More = Callable[[Session, Layers, list[str]], None]  # asks more of the layers that are named, while the store is open
Writer = Callable[["Map", Words], int]  # writes what was asked for, as the words say, and gives the status


@dataclass
class Map:
    """What a subcommand works on: all layers, the names of those that were asked for, in their order, the scale, and
    what to report of it."""

    layers: Layers
    names: list[str]
    scale: scales.Scale
    scaled_by: pathlib.Path | None = None
    notes: list[str] = field(default_factory=list)

    def polygons(self, name: str) -> list[list[Ring]]:
        """The polygons of a layer."""
        return outlines.polygons(self.layers, name, found_program(FEATURES))


def words(many: bool = False) -> tuple[click.Option, ...]:
    """The words that subcommands have for where layers come from."""
    of = ("may be given several times (default: all)" if many else "(default: the last derived one that LAYERS lists)")
    return (option("--store", "the store that has the layers; it is not changed", FILE, metavar="FILE", required=True),
            PROGRAM, option("--layer", f"a layer, base or derived; {of}", metavar="NAME", multiple=many))


def scale_words() -> tuple[click.Option, ...]:
    """The words for coordinates of the world."""
    return (option("--scale", "what whole numbers mean (default: NAME.scale.json beside the store NAME.*, where it is "
                   "there)", FILE, metavar="FILE"),
            option("--factor", "in its place: the factor that overlay import was given", NUMBER),
            option("--factor-y", "and that for y", NUMBER),
            option("--origin", "and the origin", NUMBER, nargs=2, metavar="X Y"),
            option("--digits", "digits after the point, 0 to 100 (default: those of the scale, else 6)",
                   click.IntRange(0, 100)))


def scale_of(words: Words) -> tuple[scales.Scale, pathlib.Path | None]:
    """The scale that the words ask for, and the file that it is from, where it is from one."""
    given = (words.factor, words.factor_y, words.origin)
    if given != (None, None, None):
        if words.scale:
            raise click.UsageError("--scale and a factor or an origin are two answers")
        factor = Fraction(1) if words.factor is None else words.factor
        factor_y = factor if words.factor_y is None else words.factor_y
        if factor <= 0 or factor_y <= 0:
            raise click.UsageError("a factor is greater than 0")
        x, y = words.origin or (Fraction(0), Fraction(0))
        return scales.with_digits(scales.Scale(factor, factor_y, (x, y)), words.digits), None
    scale, file = scale_beside(words.store, words.scale)
    return scales.with_digits(scale, words.digits), file


def scale_beside(store: pathlib.Path, named: pathlib.Path | None) -> tuple[scales.Scale, pathlib.Path | None]:
    """The scale of a file that is named, or of the one beside a store, and that file; else that of whole numbers."""
    try:
        file = named or scales.beside(store)
        return (scales.read(file), file) if named or file.is_file() else (scales.Scale(), None)
    except scales.ScaleFault as fault:
        raise Unusable(str(fault)) from fault


def map_of(words: Words, many: bool = False, more: More | None = None) -> Map:
    """All that the words ask for."""
    scale, file = scale_of(words)
    with opened(words.program or found_program(), words.store) as session:
        layers = layers_of(session)
        if not layers.order:
            raise Unusable(f"{words.store}: it has no layer")
        named = words.layer if many else words.layer and [words.layer]
        names = list(dict.fromkeys(named or (layers.order if many else [layers.last()])))
        for name in names:
            if name not in layers.order:
                raise Unusable(f"{name}: no layer has this name")
        if more:
            more(session, layers, names)
    notes = [f"coordinates of the world by {file}"] if file else []
    if file and not words.scale:
        notes += other_layers(words.store, layers, file, scale)
    return Map(layers, names, scale, file, notes)


def other_layers(path: pathlib.Path, layers: Layers, file: pathlib.Path, scale: scales.Scale) -> list[str]:
    """Says where a store has other base layers than those that the scale beside it was written for."""
    own = digests(layers.base)
    changed = [[name for name, digest in one.items() if own.get(name, digest) != digest] for one in scale.layers]
    is_strange = not any(own.keys() & one.keys() for one in scale.layers)
    if not scale.layers or (not is_strange and [] in changed):
        return []
    names = min(changed, key=len)
    changed_since = f"layers that are changed since ({', '.join(names)}), or of another map"
    what = changed_since if names else "layers of another map"
    return [f"{path}: {what}: {file} was written for other ones"]


def run(words: Words, write: Writer, many: bool = False, more: More | None = None) -> int:
    """Runs a subcommand: asks for the map, says its notes, and has it written."""
    try:
        found = map_of(words, many, more)
        for note in found.notes:
            print(note, file=sys.stderr)
        return write(found, words)
    except Unusable as fault:
        print(fault, file=sys.stderr)
        return 1
