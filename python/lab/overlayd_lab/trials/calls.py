"""Makes each call of the libraries while its growths are refused in turn, and prints a table.

python3 -m overlayd_lab.trials.calls [PROGRAM]

Builds the program of trials/calls, unproved (minutes); PROGRAM is one that was built before. For each call and
input the first growth is refused, then the second and so on, until a run meets no refusal. A run is right where it
answers as with memory, or by 40 (over a disk also 30) with all as before, and then the same call gives the answer. How
lists, books, sessions and servers are judged stands in trials/calls; the judges are shown wrong ones at last. The
server's counts differ from run to run. Status 1: a run is wrong."""

import pathlib
import subprocess
import sys
import tempfile

from overlayd_lab import unproved
from overlayd_lab.counting import Words

HERE = pathlib.Path(__file__).resolve().parent
# A call that is wrong on purpose: its first growth refused is right, its second has changed what it was called on.
WRONG_CALL = "wrong call 1 1 1"
# What else is wrong on purpose: the program says how many there are, and how many of them were reported as wrong.
SPOILED = ["lists", "books", "sessions", "servers"]


def are_told(line: str) -> bool:
    """Whether there are wrong lists, books, sessions and servers, and each is reported as wrong."""
    words = line.split()[1:]
    return words[::3] == SPOILED and all(cases == count != "0" for cases, count in zip(words[1::3], words[2::3]))


def main() -> int:
    parser = Words(__doc__)
    parser.add_argument("program", type=pathlib.Path, nargs="?")
    words = parser.parse_args()
    with tempfile.TemporaryDirectory() as folder:
        program = unproved.program_of(words.program, HERE / "calls", folder)
        done = subprocess.run([program], stdout=subprocess.PIPE, text=True)
    *table, call, spoiled = done.stdout.splitlines()
    print("\n".join(table))
    rows = [line.split() for line in table[1:] if not line.startswith(" ")]
    growths, runs, out, device, inside, own, other = (sum(int(row[at]) for row in rows) for at in range(-7, 0))
    print(f"lines {len(rows)}, growths refused {growths}, runs {runs}: 40 {out}, 30 {device}, inside a list {inside}, "
          f"its own answer {own}, other {other}")
    is_told = call == WRONG_CALL and are_told(spoiled)
    print(f"what is wrong on purpose ({call}; {spoiled}) is reported as wrong: {'yes' if is_told else 'no'}")
    return 1 if other or done.returncode or not is_told else 0


if __name__ == "__main__":
    sys.exit(main())
