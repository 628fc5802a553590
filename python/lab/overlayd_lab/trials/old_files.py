"""A module for crashes.py and tests: two files of format 1, whose 17 columns are twice as wide as ours.

One is written here byte by byte, as docs/FORMAT.md has it, with a closed slot that opening completes. The other was
written by the program when its files were of that format."""

import gzip
import pathlib
import struct

from overlayd_lab import LAB
from overlayd_lab.reference import read_store

RELEASED = LAB / "trials" / "format-1.store.gz"
BLOCK = read_store.BLOCK
SQUARE = [(0, 0), (10, 0), (10, 10), (0, 10), (0, 0)]
SIDES = [((0, 0), (0, 10)), ((0, 0), (10, 0)), ((0, 10), (10, 10)), ((10, 0), (10, 10))]


def numbers(*values: int) -> bytes:
    return struct.pack(f">{len(values)}i", *values)


def extent(block: int, size: int) -> bytes:
    return struct.pack(">QI", block, size)


def piece(left: tuple[int, int], right: tuple[int, int]) -> bytes:
    """A piece of a tile that is its whole support."""
    return numbers(*left, *right) + b"\0" + numbers(*left) + b"\0" + numbers(*right)


def in_six_blocks() -> bytes:
    """Version 2: the square A in block 3, I = A in block 4, its tile of column 8 in block 2; slot 0 is closed."""
    tile = bytes([0, 8]) + numbers(len(SIDES)) + b"".join(piece(*side) for side in SIDES)
    base = struct.pack(">HH", 1, len(SQUARE)) + b"".join(numbers(*point) for point in SQUARE)
    entries = b"".join(b"\1" + extent(2, len(tile)) if column == 8 else b"\0" for column in range(17))
    catalog = b"\0\2" + b"\1A\0" + extent(3, len(base)) + b"\1I\1" + extent(4, 1) + entries
    body = read_store.MAGIC + struct.pack(">IQQ", read_store.OLD_FORMAT, 1, 2) + extent(5, len(catalog))
    slot = bytes([read_store.GATE_OPEN]) + bytes(15) + body
    return b"".join(block.ljust(BLOCK, b"\0") for block in (b"", slot, tile, base, b"A", catalog))


def released() -> bytes:
    """Version 3: the squares A and B, I = A & B, and its tiles."""
    return gzip.decompress(RELEASED.read_bytes())


# The files by their names.
FILES = {"six blocks": in_six_blocks, "released": released}


def written(folder: pathlib.Path) -> dict[str, pathlib.Path]:
    """Writes the files into a folder, and gives their paths by their names."""
    paths = {}
    for name, data in FILES.items():
        paths[name] = folder / f"{name}.store"
        paths[name].write_bytes(data())
    return paths
