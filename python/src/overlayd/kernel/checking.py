"""What is wrong in one map: which of its features overlap, and the gaps between them, with audits that close."""

from dataclasses import dataclass

import numpy as np

from .asking import Areas, Ask
from .blocks import Wants
from .colouring import TooManyColours
from .columns import Column
from .laying import lay
from .layered import Core, Found, Layers, evaluated, frame_of, layer_areas, layers_of
from .membership import overlapping
from .overlaying import Overlay, overlay_within, pairs_in
from .polygons import Polygons, polygons_of
from .rows import Relation


class TooDeep(TooManyColours):
    """Features that lie on each other in such numbers that gaps are not looked for; the overlaps that were found, and
    the pairs without an answer."""

    def __init__(self, fault: TooManyColours, overlaps: Overlay, unanswered: Overlay) -> None:
        super().__init__(fault.feature, fault.most)
        self.overlaps, self.unanswered = overlaps, unanswered


@dataclass(frozen=True)
class Audit:
    """In parts of 2^-40 of twice a unit square. Of each layer: the area of its features that are in no other layer,
    less those of each; then what is covered and what is open, less the frame; then what three features or more have
    in common, by what is covered; and how much each of these may be off by the program's bounds."""

    colours: list[int]
    frame: int
    deeper: int
    off: int

    def closes(self) -> bool:
        """Whether nothing is open but what lies in three features or more."""
        return all(abs(one) <= self.off for one in [*self.colours, self.frame]) and self.deeper >= -self.off


@dataclass(frozen=True)
class Check:
    """The rows of features with themselves, of which each has its area, and of those that overlap; the pairs to which
    the program has no answer; what is covered and what is open within the frame; the gaps where outlines were asked
    for; and the audit."""

    own: Overlay
    overlaps: Overlay
    unanswered: Overlay
    covered: Areas
    open: Areas
    gaps: Polygons | None
    audit: Audit


def check(column: Column, ask: Ask, wants: Wants = Wants.NOTHING) -> Check:
    """Overlaps and gaps of a map. The outlines that are asked for are those of gaps; what is wanted beside is of
    overlaps."""
    laid = lay([column], ask.grid)
    ask.look()
    features = laid.maps[0]
    live = np.flatnonzero(features.points() > 0)
    near = pairs_in(features)
    own = overlay_within(laid, np.stack([live, live], axis=1), ask.stage(0, 0.1))
    rows = overlay_within(laid, near, ask.stage(0.1, 0.5, wants))
    overlaps = rows.part(np.flatnonzero(rows.relations() >= Relation.OVERLAPS))
    unanswered = rows.part(rows.faults())
    try:
        (layers,) = layers_of([features], [overlapping(rows)], ask.stage(0.5, 0.5))
    except TooManyColours as fault:
        raise TooDeep(fault, overlaps, unanswered) from fault
    frame = frame_of([features])
    union = " | ".join(layers.names()) or "Core - Core"
    covered = evaluated([layers], union, frame, laid, ask.stage(0.5, 0.65))
    left = evaluated([layers], f"Core - ({union})", frame, laid, ask.stage(0.65, 0.9, ask.wants & Wants.OUTLINES))
    audit = audited(own, overlaps, layers, (covered, left), frame, ask.stage(0.9, 1))
    gaps = gaps_of(left, frame) if ask.wants & Wants.OUTLINES else None
    return Check(own, overlaps, unanswered, covered.area(), left.area(), gaps, audit)


def audited(own: Overlay, overlaps: Overlay, layers: Layers, found: tuple[Found, Found], frame: Core,
            ask: Ask) -> Audit:
    """What closes, and what does not."""
    covered, left = (one.area() for one in found)
    areas = layer_areas(layers, frame, own.laid, ask)
    colour, off, apart = layers.single()[own.pairs[:, 0]], 0, []
    for number in range(layers.count()):
        mine = own.areas("a").part(np.flatnonzero(colour == number))
        apart.append(areas.whole(number) - mine.sum())
        off = max(off, areas.part(np.array([number])).sum_off() + mine.sum_off())
    west, east, south, north = frame
    whole = 2 * (east - west) * (north - south) << 40
    common, sums = overlaps.areas(), own.areas("a")
    deeper = covered.whole(0) - sums.sum() + common.sum()
    off = max(off, covered.sum_off() + left.sum_off() + sums.sum_off() + common.sum_off())
    return Audit(apart, covered.whole(0) + left.whole(0) - whole, deeper, off)


def gaps_of(left: Found, frame: Core) -> Polygons:
    """The polygons of what is open that do not reach the frame: what does lies outside of all features."""
    found = polygons_of(left.rows, left.laid.factor)
    west, east, south, north = frame
    reaches = (found.boxes == np.array([west, south, east, north])).any(axis=1)
    return found.part(np.flatnonzero(~reaches))
