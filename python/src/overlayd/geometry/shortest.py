"""The shortest decimals that print as doubles, which are those that repr writes, of many at once."""

from dataclasses import dataclass

import numpy as np

from .flat_arrays import Numbers

DIGITS = 18  # that are looked at
MOST_PLACES, EXACT_PLACES = 60, 27  # 10^27 is a long double
POWERS = np.longdouble(10) ** np.arange(MOST_PLACES + 1)
GAPS = POWERS.astype(float)
EPSILON = float(np.finfo(np.longdouble).eps)
LEAST_BEFORE, MOST_BEFORE = -3, 16  # digits before the point of a number that is written without an exponent
PAD, POINT, ZERO = np.frombuffer(b"\xff.0", np.uint8)  # no byte of UTF-8 is 255
LEAD, TAIL = (np.frombuffer(text, np.uint8)[:, None] for text in (b"0.000", b"e-00"))
THREE = np.array([np.arange(1000) // 100, np.arange(1000) // 10 % 10, np.arange(1000) % 10], np.uint8) + ZERO
PLACES = np.arange(DIGITS + 1, dtype=np.int8)[:, None]


@dataclass(frozen=True)
class Decimals:
    """Whole numbers of about 18 digits, the last of them zeros, of which so many stand after the point; and which of
    them surely are the shortest decimals of their doubles."""

    numbers: Numbers
    places: Numbers
    are: Numbers


def decimals(doubles: Numbers) -> Decimals:
    """Those of doubles: by the nearest numbers of 18 digits, which long doubles tell, and the nearest shorter ones."""
    own = np.abs(doubles)
    with np.errstate(divide="ignore"):
        size = np.where(own == 0, 0, np.floor(np.log10(own)))  # digits before the point but one, or one more or less
    is_near = (size > DIGITS - MOST_PLACES) & (size < MOST_BEFORE)
    places: Numbers = np.where(is_near, DIGITS - 1 - size, 0).astype(np.int64)
    own = np.where(is_near, own, 0)
    scaled = own.astype(np.longdouble) * POWERS[places]
    numbers: Numbers = np.rint(scaled).astype(np.int64)
    off, gap = (scaled - numbers).astype(float), GAPS[places] / 2
    raised = np.ldexp(own, np.minimum(places, EXACT_PLACES))
    is_whole = raised == np.floor(raised)  # the double itself is a decimal of so many places
    slack = np.where(is_whole, 0, numbers * (EPSILON * np.where(places > EXACT_PLACES, 2, 0.5)))
    over = np.spacing(own) * gap  # half way to the doubles next to it
    under = np.where(np.frexp(own)[0] == 0.5, over / 2, over)
    found, are, left = numbers, np.zeros(len(own), bool), is_near
    for unit in (1000, 100, 10, 1):
        next_to = (numbers + unit // 2) // unit * unit
        is_tie = is_whole & (next_to - numbers == unit / 2)  # then repr takes the one that is even
        next_to -= np.where(is_tie & (next_to // unit % 2 == 1), unit, 0)
        far = np.abs(numbers - next_to + off)
        fits = left & (far + slack < np.where(is_tie, under, np.minimum(under, unit / 2)))
        found, are = np.where(fits, next_to, found), are | fits
        left = left & (far - slack > over)
    return Decimals(np.where(doubles < 0, -found, found), places, are)


def spelled(doubles: Numbers) -> Numbers:
    """What repr writes of each, as columns of bytes, with PAD anywhere among these."""
    own = decimals(doubles)
    is_less = own.numbers < 10 ** (DIGITS - 1)
    left, before = np.where(is_less, own.numbers * 10, own.numbers), (DIGITS - own.places - is_less).astype(np.int8)
    digits: Numbers = np.full((DIGITS + 2, len(left)), PAD, np.uint8)
    for at in range(DIGITS - 2, 0, -3):
        three, left = left - left // 1000 * 1000, left // 1000
        for row, own_digits in zip(THREE, digits[at:]):
            np.take(row, three, out=own_digits, mode="clip")
    is_raised = before < LEAST_BEFORE
    least = np.where(is_raised, 1, np.maximum(before + 1, 1))  # so many are written, zeros or not
    most = np.maximum(least, ((digits[1:-1] > ZERO) * PLACES[1:]).max(axis=0))
    digits[1:-1] |= PAD * (PLACES[1:] > most)
    point = np.where(is_raised & (digits[2] != PAD), 1, np.where(before > 0, before, DIGITS + 1)).astype(np.int8)
    body = np.where(PLACES < point, digits[1:], digits[:-1])
    has_point = np.flatnonzero(point <= DIGITS)
    body[point[has_point], has_point] = POINT
    lead = np.where(PLACES[:len(LEAD)] < np.where(is_raised | (before > 0), 0, 2 - before), LEAD, PAD)
    power = np.where(is_raised, 1 - before, 0).astype(np.uint8)
    tail = np.where(is_raised, TAIL, PAD)
    tail[2:] += np.stack([power // 10, power % 10])
    found: Numbers = np.concatenate([lead, body, tail])
    is_odd = np.flatnonzero(~own.are | np.signbit(doubles) | (own.numbers >= 10**DIGITS))
    texts, which = np.unique(doubles[is_odd], return_inverse=True)
    found[:, is_odd] = in_rows(np.array([*map(repr, texts.tolist())], f"S{len(found)}"))[which].T
    return found


def in_rows(texts: Numbers) -> Numbers:
    """Texts of bytes of one width as rows, PAD after each."""
    rows = texts.view(np.uint8).reshape(len(texts), texts.itemsize)
    found: Numbers = np.where(rows == 0, PAD, rows)
    return found
