"""A plain, slow model of the book of layers, as docs/COMMANDS.md has it: beside the program, not of it.

    python3 -m overlayd_lab.reference.model SCRIPT

Prints the replies of one script over an empty book without a store, where all tiles are finished at once: SYNC is
refused by 46, and EDGES and VERIFY never by 21.

All is by counting over all segments, in whole numbers and fractions. What was once worked out for a layer's meaning is
kept under a key."""

import fractions
import functools
import math
import pathlib
import re
import sys
from collections.abc import Callable, Iterable, Sequence, Set
from typing import Any, NamedTuple

from overlayd.grid.limits import (BATCH_MAX, COLUMNS, COLUMN_WIDTH, COORDINATE_MAX, GRID_MAX, LAYERS_MAX, LINE_MAX,
                                  NAME_MAX, PIECES_MAX, STEPS_MAX, STEP_MAX, TOKENS_MAX, WEIGHT_MAX)
from overlayd.program import lines_after
from overlayd_lab.counting import Words

TEXTS = {
    1: "wkt syntax at #", 2: "not whole at #", 3: "coordinate out of range at #", 4: "ring # open", 5: "ring # short",
    6: "too many segments", 7: "expression syntax at #", 8: "expression too long", 9: "bad name", 10: "unknown layer",
    11: "not a base layer", 12: "not a derived layer", 13: "later layer", 14: "in use", 15: "too many layers",
    16: "version limit", 17: "batch size", 20: "point out of range", 21: "pending", 22: "oversize", 23: "bad column",
    30: "device", 31: "full", 32: "not a store", 33: "damaged #", 34: "not empty", 35: "store failed",
    36: "sequence limit", 40: "out of memory", 41: "command syntax", 42: "line too long", 43: "closing", 44: "gone",
    45: "grid size", 46: "no store", 47: "read limit", 48: "read", 49: "write", 50: "words",
}

Whole = tuple[int, int]
Ring = tuple[Whole, ...]
Rings = tuple[Ring, ...]
# A name, or an operator with its two operands.
Tree = Any
# The left end and the right one of a segment.
Segment = tuple[int, ...]
Point = tuple[fractions.Fraction, fractions.Fraction]
Piece = tuple[Point, Point]
Place = tuple[int | fractions.Fraction, int | fractions.Fraction]


class Put(NamedTuple):
    """A base layer."""

    name: str
    rings: Rings


class Define(NamedTuple):
    """A derived layer."""

    name: str
    tree: Tree


class Drop(NamedTuple):
    """A layer that is to go."""

    name: str


class Question(NamedTuple):
    """Every other line; of one without a layer the name is None."""

    word: str
    name: Any
    numbers: tuple[int, ...]


class Refused(Exception):
    """A refusal, with the number that it carries or None."""

    def __init__(self, code: int, carried: int | None = None) -> None:
        super().__init__(code)
        self.code = code
        self.carried = carried

    def line(self) -> str:
        """The reply."""
        return f"error {self.code} " + TEXTS[self.code].replace("#", str(self.carried))


class RefusedAt(Exception):
    """A refusal of a batch for one of its commands."""

    def __init__(self, place: int, why: Refused) -> None:
        super().__init__(place)
        self.place = place
        self.why = why

    def line(self) -> str:
        """The reply."""
        return f"refused {self.place} {self.why.line()}"


# ---- Well-Known Text

WKT_TOKEN = re.compile(rb"[A-Za-z]+|[0-9+.\-]+|[(),]")
WKT_SPACE = b" \t\r\n"
WKT_NUMBER = re.compile(rb"[+-]?(?:[0-9]+(?:\.[0-9]*)?|\.[0-9]+)")


class WktReader:
    """Reads a text from left to right and stops at the first fault."""

    def __init__(self, text: bytes) -> None:
        self.text = text
        self.at = 0
        self.rings: list[Ring] = []

    def peek(self) -> bytes | None:
        """The next token, None at the end; a byte that begins no token is a token that can stand nowhere."""
        while self.at < len(self.text) and self.text[self.at] in WKT_SPACE:
            self.at += 1
        if self.at == len(self.text):
            return None
        found = WKT_TOKEN.match(self.text, self.at)
        return found.group() if found else b"\0"

    def take(self, *allowed: bytes) -> bytes:
        """The next token in upper case, which has to be one of these."""
        token = self.peek()
        if token is None or token.upper() not in allowed:
            raise Refused(1, self.at)
        self.at += len(token)
        return token.upper()

    def number(self) -> int:
        """A coordinate."""
        token = self.peek()
        if token is None or not WKT_NUMBER.fullmatch(token):
            raise Refused(1, self.at)
        whole, _, part = token.partition(b".")
        if part.strip(b"0"):
            raise Refused(2, self.at)
        value = int(whole) if whole.strip(b"+-") else 0
        if abs(value) > COORDINATE_MAX:
            raise Refused(3, self.at)
        self.at += len(token)
        return value

    def listed(self, read: Callable[[], None]) -> None:
        """Members between commas, the opening bracket being taken."""
        read()
        while self.take(b",", b")") == b",":
            read()

    def polygon(self) -> None:
        """A polygon: none, or its rings."""
        if self.take(b"EMPTY", b"(") == b"(":
            self.listed(self.ring)

    def ring(self) -> None:
        """A ring, its opening bracket too."""
        self.take(b"(")
        ring: list[Whole] = []
        self.listed(lambda: ring.append((self.number(), self.number())))
        self.rings.append(tuple(ring))

    def whole(self) -> Rings:
        """The rings of the whole text."""
        if self.take(b"POLYGON", b"MULTIPOLYGON") == b"POLYGON":
            self.polygon()
        elif self.take(b"EMPTY", b"(") == b"(":
            self.listed(self.polygon)
        if self.peek() is not None:
            raise Refused(1, self.at)
        return tuple(self.rings)


@functools.lru_cache(maxsize=100000)
def wkt_or_refusal(text: bytes) -> Rings | Refused:
    """The rings of a text, or why it is refused."""
    try:
        rings = WktReader(text).whole()
        for place, ring in enumerate(rings):
            if len(ring) < 4:
                raise Refused(5, place)
            if ring[0] != ring[-1]:
                raise Refused(4, place)
        if sum(len(ring) - 1 for ring in rings) > STEPS_MAX:
            raise Refused(6)
        return rings
    except Refused as refusal:
        return refusal


def read_wkt(text: bytes) -> Rings:
    """The rings of a text, each a tuple of points."""
    read = wkt_or_refusal(text)
    if isinstance(read, Refused):
        raise read
    return read


@functools.lru_cache(maxsize=100000)
def wkt_of(rings: Rings) -> str:
    """Rings as LAYERS writes them."""
    if not rings:
        return "MULTIPOLYGON EMPTY"
    members = ("((" + ", ".join(f"{x} {y}" for x, y in ring) + "))" for ring in rings)
    return "MULTIPOLYGON (" + ", ".join(members) + ")"


# ---- expressions: a name, or a triple of operator, left and right

NAME = re.compile(rb"[A-Za-z][A-Za-z0-9_]*")


def read_name(text: bytes) -> str:
    """A name, if it is one."""
    if len(text) > NAME_MAX or not NAME.fullmatch(text):
        raise Refused(9)
    return text.decode()


def tokens_of(text: bytes) -> list[str]:
    """The tokens of an expression, each of which may stand where it does."""
    tokens: list[str] = []
    at, depth, operand = 0, 0, True
    while True:
        while at < len(text) and text[at] in WKT_SPACE:
            at += 1
        if at == len(text):
            break
        if len(tokens) == TOKENS_MAX:
            raise Refused(8)
        found = NAME.match(text, at)
        token = found.group() if found else text[at : at + 1]
        if not (found or token == b"(" if operand else token in b"&|-^" or (token == b")" and depth)):
            raise Refused(7, at)
        if found and len(token) > NAME_MAX:
            raise Refused(9)
        depth += (token == b"(") - (token == b")")
        operand = token == b"(" or token in (b"&", b"|", b"-", b"^")
        tokens.append(token.decode())
        at += len(token)
    if operand or depth:
        raise Refused(7, len(text))
    return tokens


def tree_of(tokens: list[str]) -> Tree:
    """The tree of tokens that make an expression; takes them away."""

    def atom() -> Tree:
        token = tokens.pop(0)
        if token != "(":
            return token
        inner = chain()
        tokens.pop(0)
        return inner

    def product() -> Tree:
        tree = atom()
        while tokens and tokens[0] == "&":
            tree = (tokens.pop(0), tree, atom())
        return tree

    def chain() -> Tree:
        tree = product()
        while tokens and tokens[0] in "|-^":
            tree = (tokens.pop(0), tree, product())
        return tree

    return chain()


def read_expression(text: bytes) -> Tree:
    """The tree of a text."""
    return tree_of(tokens_of(text))


def bracketed(tree: Tree, needs: bool) -> str:
    """A tree in brackets where it needs them."""
    return "(" + spelled(tree) + ")" if needs else spelled(tree)


@functools.lru_cache(maxsize=100000)
def spelled(tree: Tree) -> str:
    """The one spelling of a tree."""
    if isinstance(tree, str):
        return tree
    operator, left, right = tree
    is_sum = [isinstance(side, tuple) and side[0] != "&" for side in (left, right)]
    right_needs = isinstance(right, tuple) if operator == "&" else is_sum[1]
    return f"{bracketed(left, operator == '&' and is_sum[0])} {operator} {bracketed(right, right_needs)}"


@functools.lru_cache(maxsize=100000)
def leaves(tree: Tree) -> tuple[str, ...]:
    """The names of a tree from left to right."""
    return (tree,) if isinstance(tree, str) else leaves(tree[1]) + leaves(tree[2])


# ---- lines

NUMBER = re.compile(rb"[+-]?[0-9]{1,18}")
QUESTIONS = {b"LOCATE": (2, 3), b"EDGES": (1, 1), b"GRID": (5, 5), b"LAYERS": None, b"WAIT": (0, 0), b"SYNC": None,
             b"VERIFY": (1, 1)}


def lines_of(script: bytes) -> list[bytes]:
    """The lines of a script that have a reply."""
    lines = script.split(b"\n")
    lines = [line[:-1] if line.endswith(b"\r") else line for line in lines[:-1]] + lines[-1:]
    return [line for line in lines if is_answered(line)]


def is_answered(line: bytes) -> bool:
    """Whether a line has a reply."""
    return len(line) > LINE_MAX or not (line.startswith(b"#") or not line.strip(b" \t"))


def put_of(rest: bytes) -> Put:
    """A PUT, by what follows its word."""
    found = re.fullmatch(rb"([^ \t]+)[ \t]+([^ \t].*)", rest, re.DOTALL)
    if not found:
        raise Refused(41)
    return Put(read_name(found.group(1)), read_wkt(found.group(2)))


def define_of(rest: bytes) -> Define:
    """A DEFINE, by what follows its word."""
    found = re.fullmatch(rb"([^ \t=]+)[ \t]*=(.*)", rest, re.DOTALL)
    if not found:
        raise Refused(41)
    return Define(read_name(found.group(1)), read_expression(found.group(2).lstrip(WKT_SPACE)))


def check_numbers(word: str, numbers: Sequence[int]) -> None:
    """The refusals that come before the book is asked."""
    if word == "LOCATE" and not is_in_plane(*numbers):
        raise Refused(20)
    if word == "GRID":
        _, _, step, across, up = numbers
        if not (1 <= step <= STEP_MAX and 1 <= across <= GRID_MAX and 1 <= up <= GRID_MAX):
            raise Refused(45)


def question_of(word: bytes, words: list[bytes]) -> Question:
    """A question, by its word and those after it."""
    counts = QUESTIONS[word]
    if counts is None:
        if words:
            raise Refused(41)
        return Question(word.decode(), None, ())
    if not words or not counts[0] <= len(words) - 1 <= counts[1]:
        raise Refused(41)
    if not all(NUMBER.fullmatch(number) for number in words[1:]):
        raise Refused(41)
    numbers = tuple(int(number) for number in words[1:])
    if word == b"LOCATE" and len(numbers) == 2:
        numbers += (1,)
    question = Question(word.decode(), read_name(words[0]), numbers)
    check_numbers(*question[::2])
    return question


def read_line(line: bytes) -> Any:
    """What a line asks; refuses it for reasons of its own."""
    if len(line) > LINE_MAX:
        raise Refused(42)
    start = re.match(rb"[ \t]*([^ \t]*)[ \t]*", line)
    assert start
    word, rest = start.group(1), line[start.end() :]
    if word == b"PUT":
        return put_of(rest)
    if word == b"DEFINE":
        return define_of(rest)
    words = re.findall(rb"[^ \t]+", rest)
    if word == b"DROP":
        if len(words) != 1:
            raise Refused(41)
        return Drop(read_name(words[0]))
    if word not in QUESTIONS:
        raise Refused(41)
    return question_of(word, words)


def batch_size(line: bytes) -> int | None:
    """How many lines belong to a BATCH line; none for another line."""
    words = re.findall(rb"[^ \t]+", line)
    if len(line) > LINE_MAX or words[0] != b"BATCH":
        return None
    if len(words) != 2 or not NUMBER.fullmatch(words[1]):
        raise Refused(41)
    if not 1 <= int(words[1]) <= BATCH_MAX:
        raise Refused(17)
    return int(words[1])


def command_of(line: bytes) -> Any:
    """The command of a line of a batch."""
    if len(line) <= LINE_MAX and re.findall(rb"[^ \t]+", line)[0] not in (b"PUT", b"DEFINE", b"DROP"):
        raise Refused(41)
    return read_line(line)


def commands_of(lines: list[bytes], size: int) -> list[Any]:
    """The commands of as many lines as belong to a batch, or of those that are left of a script."""
    if len(lines) < size:
        raise Refused(41)
    commands = []
    for place, line in enumerate(lines):
        try:
            commands.append(command_of(line))
        except Refused as refusal:
            raise RefusedAt(place, refusal) from None
    return commands


# ---- layers


class Layers:
    """An ordered list of layers, never changed: names, and for each its rings or its tree."""

    def __init__(self, names: tuple[str, ...] = (), contents: dict[str, Any] | None = None) -> None:
        self.names = names
        self.contents = contents or {}

    def place(self, name: str) -> int:
        """The place of a layer, or the one after all."""
        return self.names.index(name) if name in self.contents else len(self.names)

    def is_derived(self, name: str) -> bool:
        """Whether a derived layer has the name."""
        return name in self.contents and is_tree(self.contents[name])

    def refusal(self, command: Any) -> int | None:
        """The number of the first reason against a command, or None."""
        name = command.name
        stands = name in self.contents
        if isinstance(command, Drop):
            is_used = any(is_tree(content) and name in leaves(content) for content in self.contents.values())
            return None if stands and not is_used else 14 if stands else 10
        if isinstance(command, Put) and self.is_derived(name):
            return 11
        if isinstance(command, Define):
            if stands and not self.is_derived(name):
                return 12
            for leaf in leaves(command.tree):
                if leaf not in self.contents:
                    return 10
                if self.place(leaf) >= self.place(name):
                    return 13
        return 15 if not stands and len(self.names) == LAYERS_MAX else None

    def after(self, command: Any) -> "Layers":
        """The layers after a command that isn't refused."""
        contents = dict(self.contents)
        if isinstance(command, Drop):
            del contents[command.name]
            return Layers(tuple(name for name in self.names if name != command.name), contents)
        contents[command.name] = command[1]
        return Layers(self.names if command.name in self.contents else self.names + (command.name,), contents)

    def lines(self) -> list[str]:
        """The lines of LAYERS."""
        return [layer_line(name, self.contents[name]) for name in self.names]


def after_all(layers: Layers, commands: Sequence[Any]) -> Layers:
    """The layers after commands; refused for the first that is refused after those before it."""
    for place, command in enumerate(commands):
        code = layers.refusal(command)
        if code is not None:
            raise RefusedAt(place, Refused(code))
        layers = layers.after(command)
    return layers


def is_tree(content: Any) -> bool:
    """Whether a content is a tree: a name, or a triple that begins with an operator."""
    return isinstance(content, str) or (len(content) == 3 and isinstance(content[0], str))


@functools.lru_cache(maxsize=100000)
def layer_line(name: str, content: Any) -> str:
    """A layer as LAYERS writes it."""
    return f"{name} = {spelled(content)}" if is_tree(content) else f"{name} {wkt_of(content)}"


# ---- points and tiles


def is_in_plane(x: int, y: int, w: int) -> bool:
    """Whether a point that is asked is one."""
    return 1 <= w <= WEIGHT_MAX and abs(x) <= COORDINATE_MAX * w and abs(y) <= COORDINATE_MAX * w


def border(column: int) -> int:
    """Where a column begins."""
    return COLUMN_WIDTH * column - COORDINATE_MAX


@functools.lru_cache(maxsize=100000)
def segments_of(rings: Rings) -> tuple[Segment, ...]:
    """The segments of rings, left end first, each with its whole numbers (lx, ly, rx, ry)."""
    steps = [step for ring in rings for step in zip(ring, ring[1:]) if step[0] != step[1]]
    return tuple(min(step) + max(step) for step in steps)


def side(segment: Segment, x: int, y: int, w: int) -> int:
    """Above 0 where the point is above the segment's line, 0 on it."""
    lx, ly, rx, ry = segment
    return (rx - lx) * (y - ly * w) - (ry - ly) * (x - lx * w)


def is_on(segment: Segment, x: int, y: int, w: int) -> bool:
    """Whether a segment holds a point."""
    lx, ly, rx, ry = segment
    if not lx * w <= x <= rx * w or side(segment, x, y, w) != 0:
        return False
    return min(ly, ry) * w <= y <= max(ly, ry) * w


def is_below(segment: Segment, x: int, y: int, w: int) -> bool:
    """Whether a segment passes under a point; its right end does not count."""
    return segment[0] * w <= x < segment[2] * w and side(segment, x, y, w) > 0


def count(test: Callable[..., bool], segments: Iterable[Segment], x: int, y: int, w: int) -> int:
    """How many segments pass a test at a point."""
    return sum(test(segment, x, y, w) for segment in segments)


def whole(point: Place) -> tuple[int, int, int]:
    """The whole numbers x, y and w of a pair of fractions, without a common divisor."""
    w = math.lcm(point[0].denominator, point[1].denominator)
    return (int(point[0] * w), int(point[1] * w), w)


def along(segment: Segment, part: fractions.Fraction) -> Point:
    """The point that far from the left end to the right one."""
    lx, ly, rx, ry = segment
    return (lx + (rx - lx) * part, ly + (ry - ly) * part)


def crossing(first: Segment, second: Segment) -> Point | None:
    """The one point that two segments that are not parallel have in common, or None."""
    lx, ly, rx, ry = first
    kx, ky, sx, sy = second
    turn = (rx - lx) * (sy - ky) - (ry - ly) * (sx - kx)
    if turn == 0:
        return None
    if max(lx, kx) > min(rx, sx) or max(min(ly, ry), min(ky, sy)) > min(max(ly, ry), max(ky, sy)):
        return None
    part = (kx - lx) * (sy - ky) - (ky - ly) * (sx - kx)
    other = (kx - lx) * (ry - ly) - (ky - ly) * (rx - lx)
    if turn < 0:
        turn, part, other = -turn, -part, -other
    if not (0 <= part <= turn and 0 <= other <= turn):
        return None
    return along(first, fractions.Fraction(part, turn))


def own_nodes(segment: Segment, column: int) -> set[Point]:
    """The ends of a segment, and where it meets the borders of a column."""
    lx, ly, rx, ry = segment
    nodes = {(fractions.Fraction(lx), fractions.Fraction(ly)), (fractions.Fraction(rx), fractions.Fraction(ry))}
    for line in (border(column), border(column + 1)):
        if lx < line < rx:
            nodes.add(along(segment, fractions.Fraction(line - lx, rx - lx)))
    return nodes


def nodes_of(segments: Sequence[Segment], column: int) -> list[set[Point]]:
    """The nodes on each segment."""
    nodes = [own_nodes(segment, column) for segment in segments]
    for i, first in enumerate(segments):
        for j in range(i):
            point = crossing(first, segments[j])
            if point is not None:
                nodes[i].add(point)
                nodes[j].add(point)
            elif first[0] <= segments[j][2] and segments[j][0] <= first[2]:
                add_ends(nodes, segments, i, j)
    return nodes


def add_ends(nodes: list[set[Point]], segments: Sequence[Segment], i: int, j: int) -> None:
    """The ends of each of two parallel segments that are on the other one."""
    for at, other in ((i, j), (j, i)):
        for x, y in (segments[other][:2], segments[other][2:]):
            if is_on(segments[at], x, y, 1):
                nodes[at].add((fractions.Fraction(x), fractions.Fraction(y)))


def pieces_of(segments: Sequence[Segment], column: int) -> list[Piece]:
    """The pieces that begin in a column, each once, in order."""
    left, right = border(column), border(column + 1)
    pieces: set[Piece] = set()
    for nodes in nodes_of(segments, column):
        inside = sorted(node for node in nodes if left <= node[0] <= right)
        pieces.update(piece for piece in zip(inside, inside[1:]) if piece[0][0] < right)
    return sorted(pieces)


class Meanings:
    """What layers mean, by keys."""

    def __init__(self) -> None:
        self.keys: dict[Any, int] = {}
        self.meanings: list[Any] = []
        self.places: dict[tuple[int, int, int, int], str] = {}
        self.reaches: dict[int, frozenset[int]] = {}
        self.tiles: dict[tuple[int, int], list[Piece] | None] = {}

    def key_of(self, meaning: Any) -> int:
        """The key of a meaning, a new one where it has none."""
        if meaning not in self.keys:
            self.keys[meaning] = len(self.meanings)
            self.meanings.append(meaning)
        return self.keys[meaning]

    def key(self, content: Any, keys: dict[str, int]) -> int:
        """The key of a layer's content, with the keys of the layers that it names."""
        if not is_tree(content):
            return self.key_of(("base", content))
        return self.key_of(("derived", self.keyed(content, keys)))

    def keyed(self, tree: Tree, keys: dict[str, int]) -> Any:
        """A tree with keys in place of names."""
        if isinstance(tree, str):
            return keys[tree]
        return (tree[0], self.keyed(tree[1], keys), self.keyed(tree[2], keys))

    def is_derived(self, key: int) -> bool:
        """Whether a key is of a derived layer."""
        return bool(self.meanings[key][0] == "derived")

    def reach(self, key: int) -> frozenset[int]:
        """The keys of the base layers in reach."""
        if key not in self.reaches:
            kind, content = self.meanings[key]
            found = {key} if kind == "base" else set().union(*map(self.reach, keys_in(content)))
            self.reaches[key] = frozenset(found)
        return self.reaches[key]

    def value(self, key: int, insides: Set[int], known: dict[int, bool] | None = None) -> bool:
        """Whether a layer has a point, from the base layers that have it; what was worked out is known."""
        known = {} if known is None else known
        if key not in known:
            kind, content = self.meanings[key]
            known[key] = key in insides if kind == "base" else self.tree_value(content, insides, known)
        return known[key]

    def tree_value(self, tree: Any, insides: Set[int], known: dict[int, bool]) -> bool:
        """The same of a tree of keys."""
        if isinstance(tree, int):
            return self.value(tree, insides, known)
        left, right = self.tree_value(tree[1], insides, known), self.tree_value(tree[2], insides, known)
        return {"&": left and right, "|": left or right, "-": left and not right, "^": left != right}[tree[0]]

    def place_in_base(self, key: int, x: int, y: int, w: int) -> str:
        """`+` on an edge, `#` inside, `.` outside."""
        at = (key, x, y, w)
        if at not in self.places:
            segments = segments_of(self.meanings[key][1])
            if any(is_on(segment, x, y, w) for segment in segments):
                self.places[at] = "+"
            else:
                self.places[at] = "#" if count(is_below, segments, x, y, w) % 2 else "."
        return self.places[at]

    def place(self, key: int, x: int, y: int, w: int) -> str:
        """The same of any layer."""
        bases = {base: self.place_in_base(base, x, y, w) for base in self.reach(key)}
        if "+" in bases.values():
            return "+"
        return "#" if self.value(key, {base for base, place in bases.items() if place == "#"}) else "."

    def grid(self, key: int, x: int, y: int, step: int, across: int, up: int) -> list[str]:
        """The lines of a grid; refused where a point is beyond the plane."""
        if not (is_in_plane(x, y, 1) and is_in_plane(x + (across - 1) * step, y + (up - 1) * step, 1)):
            raise Refused(20)
        rows = ("".join(self.place(key, x + i * step, y + j * step, 1) for i in range(across)) for j in range(up))
        return [f"grid {across} {up}", *rows]

    def has_two_sides(self, key: int, bases: dict[int, list[Segment]], piece: Piece) -> bool:
        """Whether the sides of a piece differ."""
        x, y, w = whole(((piece[0][0] + piece[1][0]) / 2, (piece[0][1] + piece[1][1]) / 2))
        under = {base for base, segments in bases.items() if count(is_below, segments, x, y, w) % 2}
        over = {base for base, segments in bases.items() if (base in under) != (count(is_on, segments, x, y, w) % 2)}
        return self.value(key, under) != self.value(key, over)

    def tile(self, key: int, column: int) -> list[Piece] | None:
        """The boundary pieces of a column, or None where they are too many."""
        at = (key, column)
        if at not in self.tiles:
            left, right = border(column), border(column + 1)
            bases = {
                base: [s for s in segments_of(self.meanings[base][1]) if s[0] < right and left <= s[2]]
                for base in self.reach(key)
            }
            every = sorted(set(segment for segments in bases.values() for segment in segments))
            found = [piece for piece in pieces_of(every, column) if self.has_two_sides(key, bases, piece)]
            self.tiles[at] = found if len(found) <= PIECES_MAX else None
        return self.tiles[at]

    def edges(self, key: int, column: int) -> list[str]:
        """The lines of a reply to EDGES."""
        pieces = self.tile(key, column)
        if pieces is None:
            raise Refused(22)
        return edge_lines(pieces)


def edge_lines(pieces: Sequence[tuple[Place, Place]]) -> list[str]:
    """The lines of a reply to EDGES, of a tile's pieces."""
    return [f"edges {len(pieces)}"] + [" ".join(f"{x} {y} {w}" for x, y, w in map(whole, p)) for p in pieces]


def keys_in(tree: Any) -> list[int]:
    """The keys of a tree from left to right."""
    return [tree] if isinstance(tree, int) else keys_in(tree[1]) + keys_in(tree[2])


PLACES = {"+": "edge", "#": "in", ".": "out"}


def answer(meanings: Meanings, question: Question, key: int | None) -> list[str]:
    """The lines that answer a question of a layer with a key, None where it doesn't stand; tiles are finished."""
    word, _, numbers = question
    if key is None:
        raise Refused(10)
    if word == "LOCATE":
        return [PLACES[meanings.place(key, *numbers)]]
    if word == "GRID":
        return meanings.grid(key, *numbers)
    if not meanings.is_derived(key):
        raise Refused(12)
    if not 0 <= numbers[0] < COLUMNS:
        raise Refused(23)
    return ["same"] if word == "VERIFY" else meanings.edges(key, numbers[0])


def answer_or_refusal(meanings: Meanings, question: Question, key: int | None) -> list[str]:
    """The same, or the line that refuses it."""
    try:
        return answer(meanings, question, key)
    except Refused as refusal:
        return [refusal.line()]


# ---- one session over a book of its own


class Book:
    """Layers with their keys, and how many commands were accepted."""

    def __init__(self, meanings: Meanings) -> None:
        self.meanings = meanings
        self.number = 0
        self.layers = Layers()
        self.keys: dict[str, int] = {}

    def submit(self, commands: Sequence[Any]) -> None:
        """Accepts commands at once, or is refused for the first that is refused after those before it."""
        self.layers = after_all(self.layers, commands)
        self.number += 1
        self.keys = {}
        for name in self.layers.names:
            self.keys[name] = self.meanings.key(self.layers.contents[name], self.keys)

    def reply(self, line: bytes) -> list[str]:
        """The lines of the reply to a line."""
        asked = read_line(line)
        if not isinstance(asked, Question):
            try:
                self.submit([asked])
            except RefusedAt as refusal:
                raise refusal.why from None
            return [f"ok {self.number}"]
        if asked.word == "SYNC":
            raise Refused(46)
        if asked.word == "LAYERS":
            return [f"layers {len(self.layers.names)}", *self.layers.lines()]
        if asked.word == "WAIT":
            key = self.keys.get(asked.name)
            if key is None or not self.meanings.is_derived(key):
                raise Refused(10 if key is None else 12)
            return [f"built {self.number}"]
        return answer(self.meanings, asked, self.keys.get(asked.name))

    def reply_to_batch(self, lines: list[bytes], size: int) -> list[str]:
        """The reply to as many lines as belong to a batch, or to those that are left of a script."""
        self.submit(commands_of(lines, size))
        return [f"ok {self.number}"]


def replies_of(script: bytes) -> list[list[str]]:
    """The reply, a list of lines, of each line of a script that has one, and of each batch."""
    book, lines = Book(Meanings()), lines_of(script)
    replies: list[list[str]] = []
    while lines:
        line, lines = lines[0], lines[1:]
        try:
            size = batch_size(line)
            if size is None:
                replies.append(book.reply(line))
            else:
                batch, lines = lines[:size], lines[size:]
                replies.append(book.reply_to_batch(batch, size))
        except (Refused, RefusedAt) as refusal:
            replies.append([refusal.line()])
    return replies


def split_replies(lines: list[str]) -> list[list[str]]:
    """Lines as replies, each with the lines that belong to it."""
    replies: list[list[str]] = []
    at = 0
    while at < len(lines):
        replies.append(lines[at : at + 1 + lines_after(lines[at])])
        at += len(replies[-1])
    return replies


def main() -> int:
    """Prints the replies of a script."""
    parser = Words(__doc__)
    parser.add_argument("script", type=pathlib.Path, metavar="SCRIPT")
    words = parser.parse_args()
    for reply in replies_of(words.script.read_bytes()):
        print("\n".join(reply))
    return 0


if __name__ == "__main__":
    sys.exit(main())
