"""What an expression over maps is, as one shape: `flood & built - parks` over any number of features."""

import re
from collections.abc import Mapping
from dataclasses import dataclass

from .asking import Areas, Ask
from .blocks import Wants
from .columns import Column
from .laying import Laid, lay
from .layered import evaluated, frame_of, layers_of
from .membership import overlapping
from .overlaying import Overlay, overlay_within, pairs_in
from .polygons import Polygons, polygons_of

NAME = re.compile(r"[A-Za-z][A-Za-z0-9_]*")


class UnknownMap(Exception):
    """A name of an expression that no map has."""

    def __init__(self, name: str, known: list[str]) -> None:
        super().__init__(f"no map {name}; say one of: {', '.join(known)}")
        self.name = name


class NoMap(Exception):
    """An expression that names no map."""

    def __init__(self, known: list[str]) -> None:
        super().__init__(f"the expression names no map; say one of: {', '.join(known) or 'none is given'}")


@dataclass(frozen=True)
class Derived:
    """The area of an expression, and its polygons where outlines were asked for."""

    area: Areas
    polygons: Polygons | None
    laid: Laid


def derive(maps: Mapping[str, Column], expression: str, ask: Ask) -> Derived:
    """An expression over maps by their names; a map is the union of its features."""
    names = sorted(set(NAME.findall(expression)))
    for name in names:
        if name not in maps:
            raise UnknownMap(name, sorted(maps))
    if not names:
        raise NoMap(sorted(maps))
    laid = lay([maps[name] for name in names], ask.grid)
    ask.look()
    stages = [ask.stage(number / len(names) / 2, (number + 1) / len(names) / 2) for number in range(len(names))]
    own = layers_of(laid.maps, [overlaps_of(laid, number, stage) for number, stage in enumerate(stages)],
                    ask.stage(0.5, 0.5))
    unions = {name: "(" + (" | ".join(one.names()) or "Core - Core") + ")" for name, one in zip(names, own)}
    spelled = NAME.sub(lambda found: unions[found[0]], expression)
    asked = ask.stage(0.5, 1, ask.wants & Wants.OUTLINES)
    found = evaluated(own, spelled, frame_of(laid.maps), laid, asked)
    return Derived(found.area(), polygons_of(found.rows, laid.factor) if asked.wants else None, laid)


def overlaps_of(laid: Laid, number: int, ask: Ask) -> Overlay:
    """Which features of a map overlap, or may, as the program has no answer."""
    one = laid.alone(number)
    return overlapping(overlay_within(one, pairs_in(one.maps[0]), ask))
