"""Flat arrays: the parts of a list one after the other, as all modules by numpy keep them."""

from typing import Any

import numpy as np

Numbers = np.ndarray[Any, Any]
MIXED = np.int64(0x9E3779B97F4A7C1)


def offsets(counts: Numbers) -> Numbers:
    """Where each part begins, and where the last one ends."""
    found: Numbers = np.zeros(len(counts) + 1, np.int64)
    found[1:] = np.cumsum(counts)
    return found


def owners(counts: Numbers) -> Numbers:
    """Of each member the number of its part."""
    return np.repeat(np.arange(len(counts)), counts)


def spans(begins: Numbers, counts: Numbers) -> Numbers:
    """The numbers begins[0] up to begins[0] + counts[0], then those of begins[1], and so on."""
    ends = np.cumsum(counts)
    numbers: Numbers = np.arange(int(counts.sum()), dtype=np.int64) + np.repeat(begins - (ends - counts), counts)
    return numbers


def after_of(sizes: Numbers) -> Numbers:
    """The place of the corner after each, round its ring."""
    ends = np.cumsum(sizes)
    after: Numbers = np.arange(int(sizes.sum()), dtype=np.int64) + 1
    full = sizes > 0
    after[ends[full] - 1] = (ends - sizes)[full]
    return after


def firsts(*columns: Numbers) -> Numbers:
    """Which rows differ from the row before."""
    found: Numbers = np.ones(len(columns[0]), bool)
    if len(found):
        found[1:] = False
        for column in columns:
            found[1:] |= column[1:] != column[:-1]
    return found


def mixed(first: Numbers, *others: Numbers) -> Numbers:
    """A number for each row of whole numbers: of equal rows the same. Other rows may have it too, in one of some 2^64
    pairs, so whoever sorts by it looks at the rows again."""
    found: Numbers = first
    for column in others:
        found = found * MIXED + column
    return found
