"""Whether what judges is right: the model by the examples, the judge by outputs, the reader by docs/FORMAT.md."""

import pathlib
import re
import struct

import pytest

from overlayd.grid.limits import COLUMNS, COLUMN_WIDTH, NAME_MAX, PIECES_MAX, STEPS_MAX, TOKENS_MAX
from overlayd_lab import TOP
from overlayd_lab.reference import judging, model, read_store
from overlayd_lab.reference.read_store import Extent, Listed, changed, codes, table_behind

# ---- the model: each example that is one session in memory, but for the dense grid, whose tiles are too large for
# counting


def is_modelled(script: pathlib.Path) -> bool:
    """Whether an example is one session in memory, and soon done."""
    alone = not script.read_text(errors="replace").startswith("# overlayd ")
    return alone and script.with_suffix(".expected").exists() and script.name != "dense-grid.txt"


@pytest.mark.parametrize("script", sorted(filter(is_modelled, TOP.glob("examples/*.txt"))), ids=lambda one: one.stem)
def test_the_model_has_the_replies_of_an_example(script: pathlib.Path) -> None:
    """But for `error 21 pending`, which is of tiles alone."""
    wanted = model.split_replies(script.with_suffix(".expected").read_text().splitlines())
    given = model.replies_of(script.read_bytes())
    assert len(given) == len(wanted) > 0
    pairs = [(reply, right) for reply, right in zip(given, wanted) if right != ["error 21 pending"]]
    assert [reply for reply, _ in pairs] == [right for _, right in pairs]


# ---- the judge

SQUARE = b"POLYGON ((0 0, 10 0, 10 10, 0 10, 0 0))"
OTHER = b"POLYGON ((5 5, 15 5, 15 15, 5 15, 5 5))"
FIRST = b"PUT A " + SQUARE + b"\nLOCATE A 12 12\nDEFINE I = A\nWAIT I\nEDGES I 16\nSYNC\nLAYERS\nHELLO\n"
SECOND = b"LOCATE A 2 2\nPUT A " + OTHER + b"\nDROP A\nLOCATE A 2 2\n"
RIGHT = """# script 1
ok 1
out
ok 3
built 3
edges 4
5 5 1 5 15 1
5 5 1 15 5 1
5 15 1 15 15 1
15 5 1 15 15 1
durable 3
layers 2
A MULTIPOLYGON (((5 5, 15 5, 15 15, 5 15, 5 5)))
I = A
error 41 command syntax
# script 2
error 10 unknown layer
ok 2
error 14 in use
out
"""
# Each: what is changed, to what, and how many replies are wrong then (None: the output as a whole).
CHANGED = [
    ("", "", 0),
    ("out\nok 3", "in\nok 3", 0),  # so it is at version 2, which it may have seen
    ("out\nok 3", "edge\nok 3", 1),
    ("durable 3", "durable 2", 1),
    ("durable 3", "durable 4", 1),
    ("built 3", "built 2", 1),
    ("15 5 1 15 15 1", "15 5 1 15 16 1", 1),
    ("error 14 in use", "error 10 unknown layer", 1),
    ("error 14 in use\nout", "error 14 in use\nin", 1),
    ("error 10 unknown layer", "in", 0),
    ("error 10 unknown layer", "edge", 1),
    ("error 41 command syntax", "error 41 syntax", 1),
    ("ok 3", "ok 4", None),
    ("ok 3", "ok 2", None),
    ("I = A\n", "I = B\n", 1),
    ("ok 2", "error 11 not a base layer", None),
]
# Each: scripts whose sessions were cut off, what they wrote, and how many replies are wrong (None: the output as a
# whole).
CUT_OFF = [([b"DROP A\n", b"PUT A " + SQUARE, b"PUT B " + OTHER], "# script 1\n# script 2\n# script 3\nok 2\n", 0),
           ([b"PUT A " + SQUARE, b"DROP A\n", b"PUT B " + OTHER], "# script 1\n# script 2\n# script 3\nok 3\n", 0),
           ([b"DROP A\n", b"PUT B " + OTHER], "# script 1\n# script 2\nok 2\n", None)]


def found_wrong(scripts: list[bytes], output: str, is_cut: bool = False) -> int | None:
    """How many replies are wrong, or None where the output is as a whole."""
    try:
        return len(judging.judge(scripts, output, is_cut=is_cut).wrong)
    except judging.Wrong:
        return None


@pytest.mark.parametrize("old, new, count", CHANGED)
def test_the_judge_finds_what_is_changed(old: str, new: str, count: int | None) -> None:
    assert found_wrong([FIRST, SECOND], RIGHT.replace(old, new, 1) if old else RIGHT) == count


@pytest.mark.parametrize("scripts, output, count", CUT_OFF)
def test_the_judge_of_sessions_that_were_cut_off(scripts: list[bytes], output: str, count: int | None) -> None:
    assert found_wrong(scripts, output, is_cut=True) == count


# ---- the reader: the vectors and the damaged files of docs/FORMAT.md

PAGE = read_store.FORMAT_PAGE.read_text(encoding="utf-8")
VECTORS = read_store.vectors_of(PAGE)
HEADS = ("A **file of six blocks**", "A **file with a derived layer**", "A **file of format 1**")


def file_of_a_row(data: bytes, cell: str) -> bytes:
    """The file of a row: cut, or with other bytes."""
    length = re.search(r"cut to (\d+) bytes", cell)
    return data[: int(length.group(1))] if length else changed(data, codes(cell))


def point_text(data: bytes) -> str:
    """A named point as the page writes it."""
    try:
        return " ".join(str(value) for value in read_store.named_point(read_store.Bytes(data)))
    except read_store.NotOfTheForm:
        return "none"


def test_the_vectors_of_records() -> None:
    assert read_store.read_catalog(VECTORS[1]) == []
    assert read_store.read_base(VECTORS[2]) == [[(0, 0), (10, 0), (10, 10), (0, 10), (0, 0)]]
    assert read_store.read_catalog(VECTORS[3]) == [Listed(b"A", Extent(3, 44), None)]
    assert read_store.read_definition(VECTORS[5]) == ("&", "A", "B")
    assert read_store.read_tile(VECTORS[6], 32) == 1


@pytest.mark.parametrize("name, point", [row[1:] for row in table_behind(PAGE, "The prover computes these seven.")])
def test_the_vectors_of_named_points(name: str, point: str) -> None:
    assert point_text(bytes.fromhex(codes(name)[0])) == point


@pytest.mark.parametrize("head, cell, gives", [(head, *row) for head in HEADS for row in table_behind(PAGE, head)])
def test_the_files_of_the_page(head: str, cell: str, gives: str) -> None:
    base = re.split(r"\n\n", PAGE[PAGE.index(head):])[0].replace("\n", " ")
    lines = read_store.summary(file_of_a_row(changed(read_store.six_blocks(VECTORS), codes(base)), cell))
    wanted = codes(gives)
    assert (lines[:1] + lines[-1:] if len(wanted) == 2 else lines[:1]) == wanted


def catalog_of(count: int) -> bytes:
    """A catalog of layers with the longest names and all tiles finished: no layer takes more bytes."""
    extent = struct.pack(">QI", 2, 1)
    one = b"\xff" + bytes(255) + b"\1" + extent + (b"\1" + extent) * COLUMNS
    return struct.pack(">H", count) + one * count


def longest_base() -> bytes:
    """As many rings as there can be, each of which takes bytes beside those of its steps, with all steps."""
    count = STEPS_MAX // 3
    sizes = [3] * (count - 1) + [STEPS_MAX - 3 * (count - 1)]
    rings = [struct.pack(">H", steps + 1) + bytes(8 * (steps + 1)) for steps in sizes]
    return struct.pack(">H", count) + b"".join(rings)


def longest_definition() -> bytes:
    """As many of the longest names as there can be: an operator and a name take more than any number of brackets."""
    return b" & ".join([b"A" * NAME_MAX] * ((TOKENS_MAX + 1) // 2))


def tile_of(count: int) -> bytes:
    """A tile of column 16 with pieces of one support, whose left ends are at each whole x, all ends named as crossings:
    no name takes more bytes, and there is room for as many pieces as a tile may have."""
    support = (0, 0, COLUMN_WIDTH, 0)

    def name(x: int) -> bytes:
        return struct.pack(">B8i", 1, *support, x, -1, x, 1)

    pieces = [struct.pack(">4i", *support) + name(x) + name(x + 1) for x in range(count)]
    return struct.pack(">BBI", 0, 16, count) + b"".join(pieces)


def test_the_longest_records() -> None:
    """Their lengths are those of the page; a reader takes them, of catalog and tile shorter ones."""
    catalog, tile = (2 + 65535 * (len(catalog_of(1)) - 2), 6 + PIECES_MAX * (len(tile_of(1)) - 6))
    found = re.search(
        r"a\s+catalog ([\d,]+) bytes, a base record ([\d,]+), a definition ([\d,]+), a tile ([\d,]+)", PAGE)
    lengths = [catalog, len(longest_base()), len(longest_definition()), tile]
    assert found and [int(number.replace(",", "")) for number in found.groups()] == lengths
    assert len(read_store.read_catalog(catalog_of(40))) == read_store.read_tile(tile_of(40), 16) == 40
    assert len(catalog_of(40)) == 2 + 40 * (catalog -
                                            2) // 65535 and len(tile_of(40)) == 6 + 40 * (tile - 6) // PIECES_MAX
    assert sum(len(ring) - 1 for ring in read_store.read_base(longest_base())) == STEPS_MAX
    assert model.spelled(read_store.read_definition(longest_definition())).encode() == longest_definition()
