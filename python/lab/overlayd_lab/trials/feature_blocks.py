"""Blocks of features and jobs, and replies to them, in the bytes of docs/FORMAT.md, without numpy."""

import struct
import subprocess
from collections.abc import Iterable, Sequence
from fractions import Fraction
from typing import NamedTuple

from overlayd_lab.trials.hostile_features import Feature

KINDS = {"pair": 0, "cells": 1, "locate": 2}
SIZES = {0: 96, 1: 48, 2: 4}
RELATIONS = ("disjoint", "touches", "overlaps", "within", "contains", "equals")


class Ring(NamedTuple):
    """A ring of a row: its outer ring among the row's, or None; its corners."""

    outer: int | None
    corners: list[tuple[Fraction, Fraction]]


class Row(NamedTuple):
    """A row: its numbers in their order, and its rings."""

    fault: int
    numbers: tuple[int, ...]
    rings: list[Ring]


class Reply(NamedTuple):
    """A reply: why the block is refused, or 0, the job at fault, and the rows."""

    fault: int
    job: int
    rows: list[Row]


def words(numbers: Iterable[int]) -> bytes:
    """Numbers of 4 bytes."""
    return b"".join(struct.pack("<I", one) for one in numbers)


def longs(numbers: Iterable[int]) -> bytes:
    """Numbers of 8 bytes."""
    return b"".join(struct.pack("<q", one) for one in numbers)


def block(kind: str, features: Sequence[Feature], jobs: Sequence[bytes], *, flags: int = 0, limit: int = 4096,
          expression: bytes = b"", layers: int = 0) -> bytes:
    """A block; each ring is closed here."""
    rings = [[*ring, ring[0]] for feature in features for ring in feature]
    points = [z for ring in rings for p in ring for z in p]
    job_bytes = b"".join(jobs)
    counts = [len(features), len(rings), len(points) // 2, len(jobs), len(job_bytes) // 4, len(expression), layers]
    body = words(map(len, features)) + words(map(len, rings)) + longs(points) + job_bytes + expression + b"OVFE"
    head = b"OVFB" + words([1, KINDS[kind], flags, limit, *counts])
    return struct.pack("<Q", 8 + len(head) + len(body)) + head + body


def cells_job(core: tuple[int, int, int, int], members: Sequence[tuple[int, int]]) -> bytes:
    """x from, x to, y from, y to; features with their layers."""
    return longs(core) + words([len(members)]) + words(z for one in members for z in one)


def locate_job(feature: int, points: Sequence[tuple[int, int, int]]) -> bytes:
    """A feature, and points x, y, w."""
    return words([feature, len(points)]) + longs(z for p in points for z in p)


def numbers_at(kind: int, raw: bytes) -> tuple[int, tuple[int, ...]]:
    """The fault of a row, and its other numbers."""
    if kind == 2:
        return 0, struct.unpack("<I", raw)
    narrow = 6 if kind == 0 else 4
    first = struct.unpack_from(f"<{narrow}I", raw)
    places = range(32 if kind == 0 else 16, len(raw), 16)
    wide = [int.from_bytes(raw[at:at + 16], "little", signed=True) for at in places]
    return first[0], (*first[1:], *wide)


def corners_at(raw: bytes, is_exact: bool) -> list[tuple[Fraction, Fraction]]:
    """Corners as fractions or as doubles."""
    if not is_exact:
        return [(Fraction(x), Fraction(y)) for x, y in struct.iter_unpack("<dd", raw)]
    whole = [int.from_bytes(raw[at:at + 16], "little", signed=True) for at in range(0, len(raw), 16)]
    return [(Fraction(x, w), Fraction(y, w)) for x, y, w in zip(whole[::3], whole[1::3], whole[2::3])]


def reply_at(raw: bytes) -> Reply:
    """The reply that some bytes are."""
    length, magic, version, kind, flags, rows, rings, corners, fault, job, _ = struct.unpack_from("<Q4s9I", raw)
    exact = bool(flags & 2)
    at, size, wide = 48, SIZES[kind], 48 if exact else 16
    assert (magic, version, raw[-4:]) == (b"OVFR", 1, b"OVFE") and length == len(raw)
    assert length == at + rows * size + 16 * rings + corners * wide + 4
    found = [Row(*numbers_at(kind, raw[at + k * size:at + (k + 1) * size]), []) for k in range(rows)]
    at += rows * size
    corner = at + 16 * rings
    for k in range(rings):
        row, outer, count, _ = struct.unpack_from("<4I", raw, at + 16 * k)
        own = corners_at(raw[corner:corner + count * wide], exact)
        found[row].rings.append(Ring(None if outer == 0xffffffff else outer, own))
        corner += count * wide
    return Reply(fault, job, found)


def replies(raw: bytes) -> list[Reply]:
    """All replies of a run."""
    found, at = [], 0
    while at < len(raw):
        length = int.from_bytes(raw[at:at + 8], "little")
        found.append(reply_at(raw[at:at + length]))
        at += length
    return found


def run(program: str, blocks: Iterable[bytes]) -> list[Reply]:
    """What a program replies to blocks."""
    done = subprocess.run([program], input=b"".join(blocks), stdout=subprocess.PIPE, check=True)
    return replies(done.stdout)
