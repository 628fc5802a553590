"""Draws the lines of sessions: commands of all kinds, good and bad, over names that the sessions share."""

import random
from collections.abc import Callable, Sequence

from overlayd.grid.limits import COLUMNS
from overlayd_lab.reference import model

BASES = [f"A{n}" for n in range(16)]
DERIVED = [f"D{n}" for n in range(24)]
FAR = [-1048576, -1000000, -400000, -131072, 131072, 262143, 700000, 1048576]
Point = tuple[int, int]


def rectangle(draw: random.Random) -> list[Point]:
    """A rectangle on a grid of 5."""
    x, y = draw.randrange(-60, 50, 5), draw.randrange(-60, 50, 5)
    right, top = x + draw.randrange(5, 40, 5), y + draw.randrange(5, 40, 5)
    return [(x, y), (right, y), (right, top), (x, top), (x, y)]


def random_ring(draw: random.Random) -> list[Point]:
    """A ring of random points, which may cross itself."""
    points = [(draw.randrange(-60, 61), draw.randrange(-60, 61)) for _ in range(draw.randrange(3, 7))]
    return points + points[:1]


def wide_ring(draw: random.Random) -> list[Point]:
    """A rectangle over several columns."""
    left, right = sorted(draw.sample(FAR, 2))
    y, top = sorted(draw.sample(range(-60, 61), 2))
    return [(left, y), (right, y), (right, top), (left, top), (left, y)]


def leaning_ring(draw: random.Random) -> list[Point]:
    """A ring over several columns, whose edges meet their borders at fractions and may cross each other."""
    points = [(draw.choice(FAR[1:-1]) + draw.randrange(-9, 10), draw.randrange(-60, 61))
              for _ in range(draw.randrange(3, 6))]
    return points + points[:1]


def text(draw: random.Random) -> str:
    """A base layer as Well-Known Text: how many rings it has and of which form each is (the
    functions above) is drawn."""
    kinds: Sequence[Callable[[random.Random], list[Point]]] = [rectangle] * 5 + [random_ring] * 4 + [
        wide_ring, leaning_ring]
    rings = [draw.choice(kinds)(draw) for _ in range(draw.choice([0, 1, 1, 1, 1, 2, 2, 3]))]
    if len(rings) == 1 and draw.random() < 0.7:
        return "POLYGON ((" + ", ".join(f"{x} {y}" for x, y in rings[0]) + "))"
    return model.wkt_of(tuple(tuple(ring) for ring in rings))


def expression(draw: random.Random) -> str:
    """A definition over one to three names."""
    count = draw.choice([1, 2, 2, 2, 3])
    names = [draw.choice(BASES[:10] if draw.random() < 0.88 else DERIVED[:12]) for _ in range(count)]
    words = names[:1]
    for name in names[1:]:
        words += [draw.choice("&|-^"), name]
    if len(names) == 3 and draw.random() < 0.5:
        words = words[:2] + ["("] + words[2:] + [")"]
    return draw.choice(["", " "]).join(words)


BROKEN = [
    "HELLO", "PUT", "PUT A0", "PUT A0 POLYGON", "PUT A0 POLYGON ((0 0, 1 0, 0 0))", "PUT 9X POLYGON EMPTY",
    "PUT A0 POLYGON ((0 0, 1 0, 0 1, 5 5))", "PUT A1 POLYGON ((0 0, 10.5 0, 0 1, 0 0))", "LAYERS now", "SYNC 1",
    "PUT A1 POLYGON ((0 0, 1048577 0, 0 1, 0 0))", "PUT A2 POLYGON Z ((0 0 0))", "DEFINE D0", "DEFINE D0 = A0 &",
    "DEFINE D0 = (A0", "DEFINE 9X = A0", "DEFINE D1 = " + " | ".join(["A0"] * 33), "DEFINE D1 = A?", "DROP",
    "DROP A0 A1", "LOCATE A0 1", "LOCATE A0 1 1 0", "LOCATE A0 1 1 1025", "LOCATE A0 1048577 0", "LOCATE A0 x 1",
    "EDGES D0", "WAIT",
    "EDGES D0 33", "EDGES D0 -1", "VERIFY D0 33", "GRID D0 0 0 0 1 1", "GRID D0 0 0 1 257 1", "GRID D0 0 0 1 1",
    "GRID A0 1048576 0 1 2 1", "WAIT 9X", "put A0 POLYGON EMPTY", "LOCATE A0 +1 -0", " \t LOCATE\tA0  2 \t 2 ",
]


class Script:
    """Draws the lines of one session."""

    def __init__(self, draw: random.Random, texts: list[str], points: list[tuple[int, int, int]]) -> None:
        self.draw = draw
        self.texts = texts
        self.points = points

    def name(self) -> str:
        """A name, of a layer or of none."""
        return self.draw.choice(BASES[:10] if self.draw.random() < 0.4 else DERIVED[:14])

    def column(self) -> int:
        """A column, mostly one that the rings lie in."""
        return self.draw.choice([15, 16, 15, 16, 15, 16, 15, 16, self.draw.randrange(COLUMNS)])

    def put(self) -> str:
        """A PUT."""
        return f"PUT {self.draw.choice(BASES)} {self.draw.choice(self.texts)}"

    def define(self) -> str:
        """A DEFINE."""
        return f"DEFINE {self.draw.choice(DERIVED)} = {expression(self.draw)}"

    def drop(self) -> str:
        """A DROP."""
        return f"DROP {self.draw.choice(BASES + DERIVED)}"

    def locate(self) -> str:
        """A LOCATE."""
        x, y, w = self.draw.choice(self.points)
        return f"LOCATE {self.name()} {x} {y}" + (f" {w}" if w > 1 or self.draw.random() < 0.1 else "")

    def edges(self) -> str:
        """An EDGES."""
        return f"EDGES {self.draw.choice(DERIVED[:14])} {self.column()}"

    def verify(self) -> str:
        """A VERIFY."""
        return f"VERIFY {self.draw.choice(DERIVED[:14])} {self.column()}"

    def grid(self) -> str:
        """A GRID."""
        across, up, step = self.draw.choice([(8, 8, 10), (4, 3, 15), (12, 1, 7)])
        x, y = self.draw.choice([-60, -30, 0]), self.draw.choice([-60, -30, 0])
        return f"GRID {self.name()} {x} {y} {step} {across} {up}"

    def wait(self) -> list[str]:
        """A wait; mostly of a layer whose edges are asked then."""
        if self.draw.random() < 0.2:
            return [f"WAIT {self.name()}"]
        name, column = self.draw.choice(DERIVED[:14]), self.column()
        return [f"WAIT {name}", f"EDGES {name} {column}", f"VERIFY {name} {column}"]

    def broken(self) -> str:
        """A line that is refused, or that is hard to read."""
        if self.draw.random() < 0.01:
            return "#" * 65537
        return self.draw.choice(BROKEN)

    def skipped(self) -> str:
        """A line that has no reply."""
        return self.draw.choice(["", "  \t", "# a comment", "#"])

    def lines(self) -> list[str]:
        """The lines that are drawn next."""
        kinds: list[tuple[Callable[[], str | list[str]], int]] = [
            (self.put, 18), (self.define, 12), (self.drop, 4), (self.locate, 32), (self.edges, 6), (self.verify, 4),
            (self.grid, 3), (lambda: "LAYERS", 2), (self.wait, 5), (lambda: "SYNC", 1), (self.broken, 6),
            (self.skipped, 2),
        ]
        drawn = self.draw.choices([kind for kind, _ in kinds], [weight for _, weight in kinds])[0]()
        return drawn if isinstance(drawn, list) else [drawn]
