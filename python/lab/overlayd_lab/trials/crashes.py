"""Crashes at each device call of lists of steps, recovers from each, and goes on from one of them.

python3 -m overlayd_lab.trials.crashes [PROGRAM] [--first SEED] [--lists N] [--steps N] [--lives N]

Builds the program of trials/crashes, unproved (minutes); PROGRAM is one built before. Drawn lists of steps drive
an engine over a disk in memory. It is recovered from a crash after each call, the written bytes old, new, or all 0,
0x55 or 0xA7; from one of these another engine goes on. Of 20 lists one begins with a tile of too many pieces, two with
files of format 1 (old_files.py). What recovers is one of two contents of a plain fold. Status 1: one is wrong or lost.
"""

import pathlib
import subprocess
import sys
import tempfile

from overlayd_lab import unproved
from overlayd_lab.counting import Words
from overlayd_lab.trials import old_files

HERE = pathlib.Path(__file__).resolve().parent


def main() -> int:
    parser = Words(__doc__)
    parser.add_argument("program", type=pathlib.Path, nargs="?")
    parser.add_argument("--first", type=int, default=0, metavar="SEED", help="the seed of the first list (0)")
    parser.add_argument("--lists", type=int, default=200, metavar="N", help="how many lists (200)")
    parser.add_argument("--steps", type=int, default=60, metavar="N", help="steps of a list (60)")
    parser.add_argument("--lives", type=int, default=2, metavar="N", help="how often an engine goes on (2)")
    words = parser.parse_args()
    with tempfile.TemporaryDirectory() as place:
        folder = pathlib.Path(place)
        program = unproved.program_of(words.program, HERE / "crashes", folder)
        paths = old_files.written(folder)
        numbers = [str(one) for one in (words.first, words.lists, words.steps, words.lives)]
        return subprocess.run([program, *numbers, *paths.values()], stdin=subprocess.DEVNULL, check=False).returncode


if __name__ == "__main__":
    sys.exit(main())
