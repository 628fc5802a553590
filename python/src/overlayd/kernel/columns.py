"""Columns of Well-Known Binary: the bytes of many shapes one after the other, and the doubles in them.

Doubles lie in them at any byte, so all numbers are read and written by a view of the whole column that has one at each
byte."""

from collections.abc import Sequence
from dataclasses import dataclass

import numpy as np

from ..geometry.flat_arrays import Numbers, offsets, spans

COUNT, WIDTH = 4, 8  # bytes of a count and of a double


@dataclass(frozen=True)
class Column:
    """Shape k has the bytes at[k] up to at[k + 1]; one that is missing has none."""

    data: Numbers
    at: Numbers

    def __len__(self) -> int:
        return len(self.at) - 1

    def shape(self, number: int) -> bytes:
        """The bytes of one."""
        found: bytes = self.data[self.at[number] : self.at[number + 1]].tobytes()
        return found

    def part(self, places: Numbers) -> "Column":
        """Some of the shapes."""
        sizes = np.diff(self.at)[places]
        return Column(self.data[spans(self.at[:-1][places], sizes)], offsets(sizes))

    def to_list(self) -> list[bytes]:
        """The bytes of each, for who wants them one by one."""
        whole, ends = self.data.tobytes(), self.at.tolist()
        return [whole[begin:end] for begin, end in zip(ends, ends[1:])]


def of_bytes(shapes: Sequence[bytes | None]) -> Column:
    """A column of the bytes of each shape."""
    own = [shape or b"" for shape in shapes]
    return Column(np.frombuffer(b"".join(own), np.uint8), offsets(np.fromiter(map(len, own), np.int64, len(own))))


def columns_joined(columns: Sequence[Column]) -> Column:
    """The shapes of several columns in one."""
    if len(columns) == 1:
        return columns[0]
    sizes = [np.diff(one.at) for one in columns]
    data = [one.data for one in columns]
    return Column(np.concatenate([np.zeros(0, np.uint8), *data]), offsets(np.concatenate([np.zeros(0, int), *sizes])))


def of_arrow(shapes: Numbers) -> Column:
    """A column as GDAL's Arrow stream gives it to numpy: bytes of one length, or objects."""
    if shapes.dtype.kind == "V":
        return Column(np.frombuffer(shapes.tobytes(), np.uint8), np.arange(len(shapes) + 1) * shapes.dtype.itemsize)
    return of_bytes(shapes.tolist())


def numbers_from(data: Numbers, kind: str) -> Numbers:
    """The numbers of a kind that begin at each byte."""
    size = np.dtype(kind).itemsize
    return np.ndarray((max(0, len(data) - size + 1),), kind, data, 0, (1,))


def counts_at(data: Numbers, places: Numbers, is_big: Numbers) -> Numbers:
    """The numbers of four bytes that begin at bytes."""
    return in_order(numbers_from(data, "<u4")[places], is_big).astype(np.int64)


def points_at(data: Numbers, places: Numbers, is_big: Numbers) -> tuple[Numbers, Numbers]:
    """The points, two doubles each, that begin at bytes."""
    doubles = numbers_from(data, "<f8")
    return in_order(doubles[places], is_big), in_order(doubles[places + WIDTH], is_big)


def in_order(found: Numbers, is_big: Numbers) -> Numbers:
    """Numbers, some of which have their bytes in the other order."""
    return np.where(is_big, found.byteswap(), found) if is_big.any() else found


def put_counts(data: Numbers, places: Numbers, counts: Numbers) -> None:
    """Writes numbers of four bytes, lowest bytes first, so that they begin at bytes."""
    numbers_from(data, "<u4")[places] = counts


def put_points(data: Numbers, places: Numbers, x: Numbers, y: Numbers) -> None:
    """Writes points likewise."""
    doubles = numbers_from(data, "<f8")
    doubles[places], doubles[places + WIDTH] = x, y
