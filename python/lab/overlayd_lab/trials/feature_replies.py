"""Are lines, refusals and statuses of overlay_features those that docs/FORMAT.md names?

    python3 -m overlayd_lab.trials.feature_replies PROGRAM

A few squares by pairs, cells and points, whose rows are known by hand, as lines of text; blocks that are refused, each
with its number and the job at fault, between others that are answered; words that the program does not know. The last
line is 'N passed, M failed'."""

import argparse
import subprocess
import sys

from overlayd_lab.trials import feature_blocks as blocks
from overlayd_lab.trials.hostile_features import Feature

UNIT = 2**40


def square(low: int, high: int, y: int = 0) -> Feature:
    """An upright square, from (low, low + y) to (high, high + y)."""
    return [[(low, low + y), (high, low + y), (high, high + y), (low, high + y)]]


WHOLE, PART, INNER = square(0, 4), square(2, 6), square(1, 3)
SIDE, FAR = [[(x + 4, y) for x, y in WHOLE[0]]], square(10, 12)
AGAIN = [[*WHOLE[0][2:], *WHOLE[0][:2]]]
WITH_HOLE = [square(0, 6)[0], square(2, 4)[0]]


def pair_line(word: str, first: int, second: int, both: int) -> str:
    """The line of a pair of whole corners, by areas in units."""
    return " ".join([word, *(str(2 * area * UNIT) for area in (first, second, both)), "bound 0"])


def cells_line(area: int) -> str:
    """The line of a core whose cells have whole corners."""
    return f"area {2 * area * UNIT} bound 0"


ANSWERED: list[tuple[bytes, list[str]]] = [
    (blocks.block("pair", [WHOLE, PART, SIDE, INNER, FAR, AGAIN],
                  [blocks.words(two) for two in ((0, 1), (0, 2), (0, 3), (3, 0), (0, 4), (0, 5))]),
     [pair_line("overlaps", 16, 16, 4), pair_line("touches", 16, 16, 0), pair_line("contains properly", 16, 4, 4),
      pair_line("within properly", 4, 16, 4), pair_line("disjoint", 16, 4, 0), pair_line("equals", 16, 16, 16)]),
    (blocks.block("cells", [WHOLE, PART, INNER],
                  [blocks.cells_job((0, 6, 0, 6), [(0, 0), (1, 1), (2, 2)]),
                   blocks.cells_job((3, 9, 0, 9), [(0, 0), (1, 1)])],
                  expression=b"(Laa | Lab) - Lac", layers=3),
     [cells_line(24), cells_line(14)]),
    (blocks.block("locate", [WITH_HOLE],
                  [blocks.locate_job(0, [(1, 1, 1), (5, 5, 2), (2, 3, 1), (7, 0, 1)]),
                   blocks.locate_job(0, [(4, 9, 3), (3, 3, 2**42), (3, 3, 2**42 + 1)])]),
     ["inside", "outside", "edge", "outside", "inside", "inside", "fine"]),
]
MEMORY = 2000
NO_CORE = blocks.cells_job((3, 2, 0, 0), [])
TWO = blocks.block("pair", [WHOLE, PART], [blocks.words((0, 1))])


def changed(at: int, byte: int) -> bytes:
    """The block of two squares with another byte at a place."""
    return TWO[:at] + bytes([byte]) + TWO[at + 1:]


REFUSED: list[tuple[bytes, str]] = [
    (changed(8, 0), "error 61"),
    (changed(12, 2), "error 62"),
    (changed(28, 3), "error 64"),
    (changed(16, 3), "error 65"),
    (changed(20, 4), "error 66"),
    (changed(56, 2), "error 67"),
    (changed(64, 4), "error 68"),
    (changed(79, 1), "error 69"),
    (changed(len(TWO) - 1, 0), "error 70"),
    (blocks.block("cells", [WHOLE], [NO_CORE], expression=b"Laa", layers=1), "error 73 job 0"),
    (blocks.block("locate", [WHOLE], [blocks.locate_job(0, []), blocks.locate_job(0, [(1, 1, 0)])]), "error 74 job 1"),
    (blocks.block("pair", [WHOLE], [blocks.words((0, 0)), blocks.words((0, 1))]), "error 75 job 1"),
    (blocks.block("cells", [WHOLE], [], expression=b"Laa & Lab", layers=1), "error 76"),
    (blocks.block("cells", [WHOLE], [], expression=b"Laa &", layers=1), "error 76"),
    (blocks.block("cells", [WHOLE], [], expression=b"Laa", layers=30), "error 77"),
    (blocks.block("pair", [WHOLE] * 40, [blocks.words((0, 1))]), "error 83"),
    (TWO[:-1], "error 60"),
]


def run(program: str, words: list[str], given: bytes) -> tuple[int, str, str]:
    """The status of a run, what it says and its faults."""
    done = subprocess.run([program, *words], input=given, stdout=subprocess.PIPE, stderr=subprocess.PIPE, check=False)
    return done.returncode, done.stdout.decode(), done.stderr.decode()


def main() -> int:
    parser = argparse.ArgumentParser(description=__doc__, formatter_class=argparse.RawDescriptionHelpFormatter)
    parser.add_argument("program")
    program = parser.parse_args().program
    given, wanted = b"", []
    for block, line in REFUSED:
        given += b"".join(one for one, _ in ANSWERED) + block
        wanted += [one for _, lines in ANSWERED for one in lines] + [line]
    status, output, fault = run(program, ["--text", "--memory", str(MEMORY)], given)
    lines = output.splitlines()
    failed = sum(a != b for a, b in zip(lines, wanted)) + abs(len(lines) - len(wanted)) + ((status, fault) != (0, ""))
    refused = [["--texts"], ["--memory"], ["--memory", "many"], ["--memory", "1" * 16]]
    failed += sum(run(program, words, b"") != (2, "", "error 50 words\n") for words in refused)
    failed += run(program, [], b"") != (0, "", "")
    total = len(wanted) + 1 + len(refused) + 1
    print(f"{total - failed} passed, {failed} failed")
    return 1 if failed else 0


if __name__ == "__main__":
    sys.exit(main())
