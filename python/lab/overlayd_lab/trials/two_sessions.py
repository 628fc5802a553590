"""Whether a session sees at once what another was told is done: two sessions of overlay_live change one layer in turns.

python3 -m overlayd_lab.trials.two_sessions LIVE [--rounds N]

In each round one session puts the layer, and as soon as it has `ok N` the other asks for a point that has changed sides
by it; both ways are asked equally often. Status 1: an answer was of an older version."""

import sys

from overlayd.program import Server, Session
from overlayd_lab.counting import Words, absolute, counted

NEAR = "POLYGON ((0 0, 10 0, 10 10, 0 10, 0 0))"
FAR = "POLYGON ((20 0, 30 0, 30 10, 20 10, 20 0))"


def is_seen(writer: Session, reader: Session, round_: int) -> bool:
    """Whether the reader is answered by what the writer has just put, which is the next version."""
    number = writer.put("A", NEAR if round_ % 2 else FAR)
    return number == round_ and reader.locate("A", 5, 5) == ("in" if round_ % 2 else "out")


def main() -> int:
    """Counts the rounds in which the change was seen, and those in which it was not."""
    parser = Words(__doc__)
    parser.add_argument("program", type=absolute, metavar="LIVE")
    parser.add_argument("--rounds", type=int, default=100_000)
    words = parser.parse_args()
    with Server(program=words.program, sessions=2) as server:
        one, other = server.sessions
        pairs = [(one, other), (one, other), (other, one), (other, one)]
        seen = sum(is_seen(*pairs[round_ % 4], round_) for round_ in range(1, words.rounds + 1))
    return counted(seen, words.rounds - seen)


if __name__ == "__main__":
    sys.exit(main())
