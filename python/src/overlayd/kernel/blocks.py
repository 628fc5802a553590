"""Blocks of features and jobs, as docs/FORMAT.md lays them out: each holds what its jobs need, and no more."""

import enum
from collections.abc import Iterator, Sequence
from dataclasses import dataclass

import numpy as np

from ..geometry.flat_arrays import Numbers
from .features import Features, joined

MAGIC, END, VERSION = b"OVFB", b"OVFE", 1
LIMIT = 4096  # steps that one pass is to have
PAIRS = 20_000  # jobs of a block


class Kind(enum.IntEnum):
    """What a block's jobs ask."""

    PAIR = 0
    CELLS = 1
    LOCATE = 2


class Wants(enum.IntFlag):
    """What rows are to have beside relations and areas."""

    NOTHING = 0
    OUTLINES = 1
    FRACTIONS = 2


@dataclass(frozen=True)
class Asked:
    """What a block asks of its features: jobs as numbers of four bytes, how many, an expression, and its layers."""

    kind: Kind
    jobs: Numbers
    count: int
    expression: bytes = b""
    layers: int = 0


def closed(ring_at: Numbers) -> Numbers:
    """The points of rings with the first one of each after its last."""
    found: Numbers = np.arange(ring_at[-1])
    return np.insert(found, ring_at[1:], ring_at[:-1])


def block(features: Features, asked: Asked, wants: Wants = Wants.NOTHING, limit: int = LIMIT) -> bytes:
    """The bytes of a block, in which each ring ends with its first point."""
    counts, sizes = np.diff(features.feature_at), np.diff(features.ring_at)
    head = np.array([VERSION, asked.kind, wants, limit, len(counts), len(sizes), len(features.x) + len(sizes),
                     asked.count,
                     len(asked.jobs), len(asked.expression), asked.layers], "<u4")
    points = np.stack([features.x, features.y], axis=1)[closed(features.ring_at)]
    parts = [MAGIC, head.tobytes(), counts.astype("<u4").tobytes(), (sizes + 1).astype("<u4").tobytes(),
             points.astype("<i8").tobytes(), asked.jobs.astype("<u4").tobytes(), asked.expression, END]
    length = 8 + sum(map(len, parts))
    return b"".join([length.to_bytes(8, "little"), *parts])


def pair_blocks(a: Features, b: Features, pairs: Numbers, wants: Wants = Wants.NOTHING, size: int = PAIRS,
                limit: int = LIMIT) -> Iterator[bytes]:
    """Blocks of pairs of features of two maps, so many in each, which follow each other."""
    for at in range(0, len(pairs), size):
        some = pairs[at : at + size]
        own, place = np.unique(some[:, 0], return_inverse=True)
        others, other_place = np.unique(some[:, 1], return_inverse=True)
        jobs = np.stack([place, len(own) + other_place], axis=1).ravel()
        yield block(joined([a.part(own), b.part(others)]), Asked(Kind.PAIR, jobs, len(some)), wants, limit)


def within_blocks(features: Features, pairs: Numbers, wants: Wants = Wants.NOTHING, size: int = PAIRS,
                  limit: int = LIMIT) -> Iterator[bytes]:
    """The same of pairs of one map."""
    for at in range(0, len(pairs), size):
        own, place = np.unique(pairs[at : at + size], return_inverse=True)
        asked = Asked(Kind.PAIR, place.ravel(), len(pairs[at : at + size]))
        yield block(features.part(own), asked, wants, limit)


def cells_job(core: Sequence[int], features: Numbers, layers: Numbers) -> Numbers:
    """One job over features that make layers, within a core: least and greatest x, least and greatest y."""
    head = np.array(core, "<i8").view("<u4")
    members = np.stack([features, layers], axis=1).ravel()
    job: Numbers = np.concatenate([head, [len(features)], members]).astype("<u4")
    return job


def locate_job(feature: int, x: Numbers, y: Numbers, w: Numbers) -> Numbers:
    """One job that asks of points (x / w, y / w) whether a feature has them."""
    points = np.stack([x, y, w], axis=1).astype("<i8").ravel().view("<u4")
    job: Numbers = np.concatenate([[feature, len(x)], points]).astype("<u4")
    return job
