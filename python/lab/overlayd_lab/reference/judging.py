"""Judges the replies of sessions that ran side by side over one book, by the plain model.

    python3 -m overlayd_lab.reference.judging OUTPUT SCRIPT..

OUTPUT is what the program wrote for the scripts. The numbers after `ok` give each accepted command its place in the
one history: each number from 1 on stands just once, and its command is accepted there. Every other reply is right at
some version of it that is no older than what the session saw, has all its own accepted commands, and none still to be
sent. EDGES and VERIFY may be pending only where no session has read that the layer was built, with nothing changed
since. Refusals of UNJUDGED are counted apart."""

import bisect
import collections
import itertools
import pathlib
import sys
from collections.abc import Callable, Iterable, Iterator, Sequence
from typing import Any

from overlayd.grid.limits import COLUMNS
from overlayd_lab.counting import Words
from overlayd_lab.reference import model

UNJUDGED = {30, 31, 35, 36, 40, 43, 44}

Batch = collections.namedtuple("Batch", "commands")  # commands that make one version, or none
CHANGES = (model.Put, model.Define, model.Drop, Batch)
REFUSALS = (model.Refused, model.RefusedAt)
# What a line or a batch asks: a command, a batch or a question of the model, or why it is refused.
Request = Any
# The lines of a reply.
Reply = list[str]


class Wrong(Exception):
    """What is wrong with a reply."""


def sections(output: str, sessions: int) -> list[list[Reply]]:
    """The replies of each session, as the program writes them one after the other."""
    lines = output.split("\n")
    if lines.pop() != "":
        raise Wrong("the output doesn't end with LF")
    if sessions == 1:
        return [model.split_replies(lines)]
    heads = [place for place, line in enumerate(lines) if line.startswith("# script ")]
    if [lines[place] for place in heads] != [f"# script {n + 1}" for n in range(sessions)] or heads[0] != 0:
        raise Wrong("the lines `# script N` aren't one for each script, in order")
    return [model.split_replies(lines[start + 1 : end]) for start, end in zip(heads, heads[1:] + [len(lines)])]


def read_or_refusal(line: bytes) -> Request:
    """What a line asks, or why it is refused."""
    try:
        return model.read_line(line)
    except model.Refused as refusal:
        return refusal


def requests_of(lines: list[bytes]) -> list[Request]:
    """What lines ask, a reply each: those of a batch are one request."""
    requests: list[Request] = []
    at = 0
    while at < len(lines):
        line, at = lines[at], at + 1
        try:
            size = model.batch_size(line)
            if size is not None:
                members, at = lines[at : at + size], at + size
                requests.append(Batch(tuple(model.commands_of(members, size))))
            else:
                requests.append(model.read_line(line))
        except REFUSALS as refusal:
            requests.append(refusal)
    return requests


def refusal_of(layers: Any, request: Request) -> str | None:
    """The line that refuses a command or a batch over some layers, or None."""
    if not isinstance(request, Batch):
        code = layers.refusal(request)
        return None if code is None else model.Refused(code).line()
    try:
        model.after_all(layers, request.commands)
        return None
    except model.RefusedAt as refusal:
        return refusal.line()


def code_of(reply: Reply) -> int | None:
    """The number of a refusal, None for another reply."""
    words = reply[0].split(" ")
    return int(words[1]) if words[0] == "error" else None


def number_of(reply: Reply) -> int:
    """The word of a reply and its number."""
    word, _, number = reply[0].partition(" ")
    if not number.isdigit():
        raise Wrong(f"`{reply[0]}` has no number")
    return int(number)


class History:
    """The versions that accepted commands make: version n is at n, version 0 is empty."""

    def __init__(self, meanings: Any) -> None:
        self.meanings = meanings
        self.versions = [model.Layers()]
        self.shapes = [0]  # the versions at which names or definitions change
        # By name: version and key.
        self.changes: dict[str, list[tuple[int, Any]]] = collections.defaultdict(lambda: [(0, None)])
        # By name: the versions that may touch its tiles.
        self.touched: dict[str, list[int]] = collections.defaultdict(lambda: [0])
        self.keys: dict[str, Any] = {}
        self.told_built: dict[str, list[int]] = collections.defaultdict(list)

    def renew(self, name: str, layers: Any, is_touched: bool) -> None:
        """Takes down the key of a name at the last version."""
        version = len(self.versions) - 1
        content = layers.contents.get(name)
        key = None if content is None else self.meanings.key(content, self.keys)
        if self.changes[name][-1][0] == version:
            self.changes[name].pop()
        if self.changes[name][-1][1] != key:
            self.changes[name].append((version, key))
        if is_touched and self.touched[name][-1] != version:
            self.touched[name].append(version)
        if key is None:
            self.keys.pop(name, None)
        else:
            self.keys[name] = key

    def add(self, request: Request) -> None:
        """The next version, that of a command or of a batch."""
        line = refusal_of(self.versions[-1], request)
        if line is not None:
            raise Wrong(f"version {len(self.versions)} is of what `{line}` refuses")
        self.versions.append(self.versions[-1])
        for command in request.commands if isinstance(request, Batch) else [request]:
            self.step(command)

    def step(self, command: Request) -> None:
        """Takes a command into the last version."""
        before = self.versions[-1]
        layers = self.versions[-1] = before.after(command)
        is_new_shape = not isinstance(command, model.Put) or command.name not in before.contents
        if is_new_shape and self.shapes[-1] != self.last():
            self.shapes.append(self.last())
        is_other = before.contents.get(command.name) != layers.contents.get(command.name)
        self.renew(command.name, layers, is_other)
        self.renew_those_behind(command.name, layers, is_other)

    def renew_those_behind(self, changed: str, layers: Any, is_other: bool) -> None:
        """The keys of all layers that reach one that was changed."""
        reaching = {changed}
        for name in layers.names:
            content = layers.contents[name]
            if model.is_tree(content) and not reaching.isdisjoint(model.leaves(content)):
                reaching.add(name)
                if name != changed:
                    self.renew(name, layers, is_other)

    def cut(self, last: int) -> None:
        """Takes back all versions after one."""
        del self.versions[last + 1 :], self.shapes[bisect.bisect_right(self.shapes, last) :]
        for name, changes in self.changes.items():
            del changes[bisect.bisect_right(changes, last, key=lambda change: change[0]) :]
            if changes[-1][1] is None:
                self.keys.pop(name, None)
            else:
                self.keys[name] = changes[-1][1]
        for touched in self.touched.values():
            del touched[bisect.bisect_right(touched, last) :]

    def last(self) -> int:
        """The number of the last version."""
        return len(self.versions) - 1

    def key_at(self, name: str, version: int) -> Any:
        """The key of a name at a version, None where no layer has it."""
        changes = self.changes[name]
        return changes[bisect.bisect_right(changes, version, key=lambda change: change[0]) - 1][1]

    def keys_between(self, name: str, low: int, high: int) -> Iterator[tuple[int, Any]]:
        """Each key that a name has from one version to another, with the first version at which it has it there."""
        changes = self.changes[name]
        place = bisect.bisect_right(changes, low, key=lambda change: change[0]) - 1
        while place < len(changes) and changes[place][0] <= high:
            yield max(low, changes[place][0]), changes[place][1]
            place += 1

    def shapes_between(self, low: int, high: int) -> Iterator[int]:
        """The first versions of each run in which names and definitions stay as they are."""
        yield low
        place = bisect.bisect_right(self.shapes, low)
        while place < len(self.shapes) and self.shapes[place] <= high:
            yield self.shapes[place]
            place += 1

    def built_until(self, name: str, version: int) -> int | None:
        """The first number at which the layer was reported built since it was touched last, or None."""
        touched = self.touched[name]
        place = bisect.bisect_right(touched, version)
        start = touched[place - 1]
        end = touched[place] if place < len(touched) else len(self.versions)
        numbers = self.told_built[name]
        first = bisect.bisect_left(numbers, start)
        return numbers[first] if first < len(numbers) and numbers[first] < end else None

    def runs_between(self, name: str, low: int, high: int) -> Iterator[int]:
        """The first versions of each run in which no tile of a layer is touched."""
        yield low
        touched = self.touched[name]
        place = bisect.bisect_right(touched, low)
        while place < len(touched) and touched[place] <= high:
            yield touched[place]
            place += 1


class Session:
    """One session: what it asked and was answered, and the least version that it has seen."""

    def __init__(self, history: History, asked: list[Request], replies: list[Reply], seen: int,
                 has_store: bool) -> None:
        self.history = history
        self.has_store = has_store
        self.asked = asked
        self.replies = replies
        self.seen = seen
        self.built: dict[str, int] = {}  # by layer: the number of this session's last `built`
        self.bounds = self.upper_bounds()

    def upper_bounds(self) -> list[int]:
        """For each reply the newest version at which it may stand: one below the session's next accepted command."""
        bounds: list[int] = []
        bound = self.history.last()
        for reply in reversed(self.replies):
            bounds.append(bound)
            if reply[0].startswith("ok "):
                bound = number_of(reply) - 1
        return bounds[::-1]

    def first(self, versions: Iterable[int], test: Callable[[int], bool], what: str) -> None:
        """Goes on to the first of some versions at which a test holds."""
        for version in versions:
            if test(version):
                self.seen = max(self.seen, version)
                return
        raise Wrong(what)

    def judge_command(self, command: Request, reply: Reply, high: int) -> None:
        """A command or a batch: accepted under a number, or refused as a version refuses it."""
        if reply[0].startswith("ok "):
            number = number_of(reply)
            if len(reply) != 1 or number <= self.seen:
                raise Wrong(f"version {self.seen} was seen before")
            self.seen = number
            return
        versions = self.history.versions
        tries = self.history.shapes_between(self.seen, high)
        self.first(tries, lambda v: [refusal_of(versions[v], command)] == reply, f"no version to {high} refuses it so")

    def exact(self, reply: Reply, refusal: Request) -> None:
        """Looks that a reply is this refusal."""
        if reply != [refusal.line()]:
            raise Wrong(f"not `{refusal.line()}`")

    def judge_number(self, word: str, reply: Reply, high: int) -> None:
        """`built N` or `durable N`."""
        number = number_of(reply)
        if not reply[0].startswith(word + " ") or len(reply) != 1 or not self.seen <= number <= high:
            raise Wrong(f"not {word} of a version from {self.seen} to {high}")
        self.seen = number

    def judge_wait(self, name: str, reply: Reply, high: int) -> None:
        """A WAIT: built, or refused as a version refuses it."""
        meanings = self.history.meanings
        code = code_of(reply)
        if code is None:
            self.judge_number("built", reply, high)
            key = self.history.key_at(name, self.seen)
            if key is None or not meanings.is_derived(key):
                raise Wrong("no derived layer then")
            self.built[name] = self.seen
            return
        self.exact(reply, model.Refused(10 if code == 10 else 12))
        tries = self.history.keys_between(name, self.seen, high)
        question = model.Question("VERIFY", name, (0,))
        fits = [v for v, key in tries if model.answer_or_refusal(meanings, question, key) == reply]
        self.first(fits, lambda v: True, f"no version to {high} refuses it so")

    def judge_layers(self, reply: Reply, high: int) -> None:
        """LAYERS: those of a version."""
        versions = self.history.versions
        first = f"layers {len(reply) - 1}"

        def is_list(version: int) -> bool:
            layers = versions[version]
            return len(layers.names) == len(reply) - 1 and layers.lines() == reply[1:]

        if reply[0] != first:
            raise Wrong(f"not `{first}`")
        self.first(range(self.seen, high + 1), is_list, f"no version from {self.seen} to {high} has these layers")

    def judge_pending(self, question: Request, reply: Reply, high: int) -> None:
        """A refusal of EDGES or VERIFY as pending."""
        self.exact(reply, model.Refused(21))
        history, name = self.history, question.name

        def may_be_pending(version: int) -> bool:
            key = history.key_at(name, version)
            if key is None or not history.meanings.is_derived(key) or not 0 <= question.numbers[0] < COLUMNS:
                return False
            built = history.built_until(name, version)
            return built is None or (version <= built and self.built.get(name, -1) != built)

        tries = history.runs_between(name, self.seen, high)
        self.first(tries, may_be_pending, f"built, and not touched to {high}")

    def judge_question(self, question: Request, reply: Reply, high: int) -> None:
        """Any other question: answered as at a version."""
        meanings = self.history.meanings
        tries = self.history.keys_between(question.name, self.seen, high)
        fits = (version for version, key in tries if model.answer_or_refusal(meanings, question, key) == reply)
        self.first(fits, lambda v: True, f"no version from {self.seen} to {high} answers so")

    def judge(self, place: int) -> bool:
        """Judges a reply; whether it could be judged."""
        asked, reply, high = self.asked[place], self.replies[place], self.bounds[place]
        if isinstance(asked, REFUSALS):
            self.exact(reply, asked)
        elif code_of(reply) in UNJUDGED:
            return False
        elif not isinstance(asked, model.Question):
            self.judge_command(asked, reply, high)
        elif asked.word == "SYNC" and not self.has_store:
            self.exact(reply, model.Refused(46))
        elif asked.word == "SYNC":
            self.judge_number("durable", reply, high)
        elif asked.word == "WAIT":
            self.judge_wait(asked.name, reply, high)
        elif asked.word == "LAYERS":
            self.judge_layers(reply, high)
        elif code_of(reply) == 21:
            self.judge_pending(asked, reply, high)
        else:
            self.judge_question(asked, reply, high)
        return True


class Judged:
    """What came of judging: the history, counts, and the lines that say what is wrong."""

    def __init__(self, history: History) -> None:
        self.history = history
        self.histories: list[History] = []  # all by which the replies are right, where sessions were cut off
        self.replies: collections.Counter[str] = collections.Counter()
        # The replies that can't be judged: session, place and number of the refusal.
        self.outside: list[tuple[Session, int, int]] = []
        self.sessions: list[Session] = []
        self.wrong: list[str] = []
        self.durable = 0


def accepted_of(asked: list[list[Request]], replies: list[list[Reply]]) -> dict[int, Request]:
    """The accepted commands of all sessions by their numbers."""
    accepted: dict[int, Request] = {}
    for requests, answers in zip(asked, replies):
        for request, reply in zip(requests, answers):
            if reply[0].startswith("ok "):
                number = number_of(reply)
                if number in accepted:
                    raise Wrong(f"two commands have the number {number}")
                if not isinstance(request, CHANGES):
                    raise Wrong(f"`ok {number}` is no reply to its line")
                accepted[number] = request
    return accepted


def history_of(accepted: dict[int, Request], meanings: Any) -> History:
    """The history of accepted commands, given by their numbers."""
    history = History(meanings)
    for number in range(1, len(accepted) + 1):
        if number not in accepted:
            raise Wrong(f"no command has the number {number}, and {len(accepted)} were accepted")
        history.add(accepted[number])
    return history


def cut_off(asked: list[list[Request]], replies: list[list[Reply]]) -> list[Request]:
    """The commands that may have been accepted though their sessions were cut off before the replies."""
    return [
        requests[len(answers)] for requests, answers in zip(asked, replies)
        if len(answers) < len(requests) and isinstance(requests[len(answers)], CHANGES)
    ]


def histories_with(accepted: dict[int, Request], unanswered: list[Request]) -> list[History]:
    """The histories of accepted commands, with those of the unanswered ones that fill its gaps, and all others that fit
    at its end, in any order: nobody knows which came first."""
    missing = [number for number in range(1, max(accepted, default=0)) if number not in accepted]
    histories: list[History] = []
    first: Wrong | None = None
    for order in itertools.permutations(unanswered):
        filled = accepted | dict(zip(missing, order))
        try:
            history = history_of(filled, model.Meanings())
        except Wrong as wrong:
            first = first or wrong
            continue
        for command in order[len(missing) :]:
            if refusal_of(history.versions[-1], command) is None:
                history.add(command)
        histories.append(history)
    if first and not histories:
        raise first
    return histories


def judge(scripts: list[bytes], output: str, before: Sequence[Request] = (), has_store: bool = True,
          is_cut: bool = False) -> Judged:
    """Judges the output of the program for these scripts, over the book that the accepted commands `before` left.

    Where is_cut, sessions may have ended before all their lines were answered."""
    replies = sections(output, len(scripts))
    asked = [requests_of(model.lines_of(script)) for script in scripts]
    for place, (requests, answers) in enumerate(zip(asked, replies)):
        if len(requests) < len(answers) or (len(requests) > len(answers) and not is_cut):
            raise Wrong(f"script {place + 1}: {len(answers)} replies for {len(requests)} lines")
    accepted = accepted_of(asked, replies)
    if any(number <= len(before) for number in accepted):
        raise Wrong(f"a command has a number that isn't above {len(before)}")
    accepted |= dict(enumerate(before, 1))
    histories = histories_with(accepted, cut_off(asked, replies))
    tried = [judged_by(history, asked, replies, before, has_store) for history in histories]
    right = [judged for judged in tried if not judged.wrong]
    judged = (right or tried)[0]
    judged.histories = [each.history for each in right]
    return judged


def judged_by(history: History, asked: list[list[Request]], replies: list[list[Reply]], before: Sequence[Request],
              has_store: bool) -> Judged:
    """What comes of judging all sessions by a history."""
    judged = Judged(history)
    take_down_built(history, asked, replies)
    for place, (requests, answers) in enumerate(zip(asked, replies)):
        session = Session(history, requests, answers, len(before), has_store)
        judged.sessions.append(session)
        judge_session(session, place + 1, judged)
    return judged


def take_down_built(history: History, asked: list[list[Request]], replies: list[list[Reply]]) -> None:
    """All numbers at which layers were reported built."""
    for requests, answers in zip(asked, replies):
        for request, reply in zip(requests, answers):
            if reply[0].startswith("built ") and isinstance(request, model.Question):
                history.told_built[request.name].append(number_of(reply))
    for numbers in history.told_built.values():
        numbers.sort()


def judge_session(session: Session, number: int, judged: Judged) -> None:
    """Judges the replies of a session."""
    for place, (request, reply) in enumerate(zip(session.asked, session.replies)):
        code = code_of(reply)
        kind = reply[0].split(" ")[0] if code is None else f"error {code}"
        judged.replies[kind] += 1
        if kind == "durable":
            judged.durable = max(judged.durable, number_of(reply))
        try:
            if not session.judge(place) and code is not None:
                judged.outside.append((session, place, code))
        except Wrong as fault:
            asked = request.line() if isinstance(request, REFUSALS) else request
            judged.wrong.append(f"script {number}, reply {place + 1}: {reply[:3]}: {fault}; asked {str(asked)[:200]}")


def main() -> int:
    """Judges an output."""
    parser = Words(__doc__)
    parser.add_argument("output", type=pathlib.Path, metavar="OUTPUT")
    parser.add_argument("scripts", type=pathlib.Path, nargs="+", metavar="SCRIPT")
    words = parser.parse_args()
    judged = judge([script.read_bytes() for script in words.scripts], words.output.read_text())
    print("\n".join(judged.wrong))
    print(f"{sum(judged.replies.values())} replies, {judged.history.last()} accepted, {len(judged.wrong)} wrong")
    return 1 if judged.wrong else 0


if __name__ == "__main__":
    sys.exit(main())
