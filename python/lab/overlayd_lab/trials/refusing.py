"""A module of growths.py and faults.py: judges what a run in which something is refused says, and what it leaves."""

import re
import subprocess
from collections.abc import Callable
from typing import Any

from overlayd_lab.reference import judging, model, read_store
from overlayd_lab.reference.judging import History, Judged, Session
from overlayd_lab.trials.refused_runs import Outcome, Runner, Scenario

FAULT_LINE = re.compile(r"error (\d+) [a-z #0-9]+\n")
# Judges the refusals that a run reports, whose sessions are judged before, where any ran.
Allows = Callable[[Outcome, "Judged | None"], None]
# A session, the place of a line in it, and the number by which that was refused.
Refusal = tuple[Any, int, int]


def judge_output(scenario: Scenario, outcome: Outcome, allows: Allows) -> Judged | None:
    """Judges the replies; the history and the greatest durable number (None where no session ran)."""
    if not outcome.output:
        if outcome.status != 1 or not FAULT_LINE.fullmatch(outcome.fault):
            raise judging.Wrong(f"no replies, status {outcome.status}, standard error {outcome.fault[:100]!r}")
        allows(outcome, None)
        return None
    has_store = scenario.before is not None
    is_cut = outcome.status == 1 and outcome.fault != ""
    judged = judging.judge(scenario.scripts, outcome.output, scenario.commands(), has_store, is_cut)
    if judged.wrong:
        raise judging.Wrong(judged.wrong[0])
    allows(outcome, judged)
    return judged


def is_silent(outcome: Outcome) -> bool:
    """Whether a run shows by its status alone that something was refused."""
    return outcome.status == 1 and outcome.fault == ""


def has_store(judged: Judged | None) -> bool:
    """Whether sessions ran over a store."""
    return judged is not None and judged.sessions[0].has_store


def word_of(session: Session, place: int) -> str:
    """The word of a question, none of a command."""
    return getattr(session.asked[place], "word", "")


def check_memory(refusals: list[Refusal]) -> None:
    """Looks that 40 is reported of no line that takes no memory: a LOCATE, or a SYNC without a store."""
    for session, place, code in refusals:
        word = word_of(session, place)
        if code == 40 and (word == "LOCATE" or word == "SYNC" and not session.has_store):
            raise judging.Wrong(f"40 is reported of a {word}, which takes no memory")


def refusals_of(outcome: Outcome, judged: Judged | None) -> tuple[list[Refusal], list[Refusal], int | None]:
    """The refusals that were reported: the lines that no SYNC asked, the SYNCs, and the number on standard error.

    Status 1 without a line says that the store has not the newest version, as `judge_store` sees."""
    if outcome.status == 0 and outcome.fault or not outcome.fault and is_silent(outcome) and not has_store(judged):
        raise judging.Wrong(f"status {outcome.status}, standard error {outcome.fault[:100]!r}")
    lines: list[Refusal] = []
    syncs: list[Refusal] = []
    for session, place, code in judged.outside if judged else []:
        (syncs if word_of(session, place) == "SYNC" else lines).append((session, place, code))
    check_memory(lines + syncs)
    line = FAULT_LINE.fullmatch(outcome.fault)
    fault = int(line[1]) if line else None
    if outcome.counts[1] == 0 and (lines or syncs or outcome.status == 1):
        raise judging.Wrong("nothing was refused, and a refusal is reported")
    return lines, syncs, fault


def only(codes: set[int], allowed: set[int]) -> None:
    """Looks that no other numbers are reported than those that may be."""
    if not set(codes) <= allowed:
        raise judging.Wrong(f"{sorted(codes)} are reported, {sorted(allowed)} may be")


def cut(judged: Judged | None) -> list[Session]:
    """The sessions that ended before all their lines were answered."""
    return [session for session in judged.sessions if len(session.replies) < len(session.asked)] if judged else []


def check_cut(outcome: Outcome, judged: Judged | None, fault: int | None) -> None:
    """Looks at what one refused growth may cut off: a session that had no memory to begin, which has no reply then
    (40), or none for a reply (49). A single session that has read a line has replies but for 49; of several something
    is printed but for 40."""
    sessions = cut(judged)
    if len(sessions) > 1:
        raise judging.Wrong(f"one growth cuts off {len(sessions)} sessions")
    if fault == 49 and judged and not sessions:
        raise judging.Wrong("49 is told, and each line is answered")
    if fault != 49 and any(session.replies for session in sessions):
        raise judging.Wrong(f"a session is cut off after a reply, and {fault} is reported")
    if judged is None and outcome.sessions == 1 and fault != 49 and not outcome.is_early:
        raise judging.Wrong(f"no replies, though the session had begun, and {fault} is reported")
    if judged is None and outcome.sessions > 1 and fault != 40:
        raise judging.Wrong(f"nothing is printed of {outcome.sessions} sessions, and {fault} is reported")


def replies_behind(session: Session, place: int, word: str) -> list[list[str]]:
    """The replies after a place that begin with a word."""
    return [reply for reply in session.replies[place + 1 :] if reply[0].startswith(word)]


def has_closed(outcome: Outcome, judged: Judged | None, fault: int | None) -> bool:
    """Whether the server may have closed while sessions ran: the thread of a later one was refused (40), so the last
    one has no reply. overlayd prints nothing then; before the sessions there is nobody who could be told."""
    last = judged.sessions[-1] if judged else None
    return outcome.is_live and fault == 40 and last is not None and bool(last.asked) and not last.replies


def may_tell_closing(session: Session, place: int) -> bool:
    """Whether 43 may be reported of a line: of a command, a WAIT, or a SYNC of a store."""
    word = word_of(session, place)
    return isinstance(session.asked[place], judging.CHANGES) or word == "WAIT" or word == "SYNC" and session.has_store


def check_closed(session: Session, place: int) -> None:
    """Looks that no command after a 43 is accepted, or refused by what stands after 43."""
    for asked, reply in zip(session.asked[place + 1 :], session.replies[place + 1 :]):
        if isinstance(asked, judging.CHANGES) and judging.code_of(reply) not in (40, 43):
            raise judging.Wrong(f"a command after 43 is answered by {reply[0]}")


def but_closing(outcome: Outcome, judged: Judged | None, refusals: list[Refusal], fault: int | None) -> list[Refusal]:
    """What was reported but for 43, where that is right."""
    others: list[Refusal] = []
    for session, place, code in refusals:
        if code == 43 and has_closed(outcome, judged, fault) and may_tell_closing(session, place):
            check_closed(session, place)
        else:
            others.append((session, place, code))
    return others


def one_growth(outcome: Outcome, judged: Judged | None) -> None:
    """What one refused growth may do: one line is answered by 40; or the store gets it, which each SYNC says
    until the next accepted command, and status 1 where none comes; or the run ends with it."""
    refusals, of_syncs, fault = refusals_of(outcome, judged)
    lines, syncs = (but_closing(outcome, judged, each, fault) for each in (refusals, of_syncs))
    only({code for _, _, code in lines + syncs}, {40})
    only(set() if fault is None else {fault}, {40, 49})
    check_cut(outcome, judged, fault)
    is_store = bool(syncs) or is_silent(outcome)
    if len(lines) + is_store + (fault is not None) > 1:
        raise judging.Wrong(
            f"one growth is reported by {len(lines)} lines, {len(syncs)} SYNCs and as {fault} at the end")
    for session, place, _ in syncs:
        for other, behind, _ in syncs:
            if other is session and behind > place and any(
                reply[0].startswith("ok ") for reply in session.replies[place:behind]
            ):
                raise judging.Wrong("a SYNC after an accepted command reports a growth before it")


def many_growths(outcome: Outcome, judged: Judged | None) -> None:
    """What growths may do that are refused again and again: whatever is reported is 40."""
    lines, syncs, fault = refusals_of(outcome, judged)
    only({code for _, _, code in but_closing(outcome, judged, lines + syncs, fault)}, {40})
    only(set() if fault is None else {fault}, {40, 49})


def device(outcome: Outcome, judged: Judged | None) -> None:
    """What calls of the device may do that fail: each SYNC says 30 from then on, or the run ends with it.

    A failure that is reported nowhere shows in the store: what a failed write or sync was to bring there is lost."""
    lines, syncs, fault = refusals_of(outcome, judged)
    only({code for _, _, code in lines}, set())
    only({code for _, _, code in syncs}, {30})
    only(set() if fault is None else {fault}, {30})
    if is_silent(outcome):
        raise judging.Wrong("status 1 without a line")
    if cut(judged):
        raise judging.Wrong("a session is cut off, though all its lines could be read")
    if judged is None and not outcome.is_early:
        raise judging.Wrong("no replies, though the store was opened before a call failed")
    if any(replies_behind(session, place, "durable ") for session, place, _ in syncs):
        raise judging.Wrong("durable is reported after a SYNC that reported 30")


def history_before(scenario: Scenario) -> History:
    """The history that the store of a scenario begins with."""
    return judging.history_of(dict(enumerate(scenario.commands(), 1)), model.Meanings())


def history_alone(scenario: Scenario) -> History:
    """The history that the first session makes by itself, where none of its lines is refused memory.

    A run without replies may have had it: the thread of the next session was refused."""
    history = history_before(scenario)
    for line in model.lines_of(scenario.scripts[0]):
        asked = judging.read_or_refusal(line)
        if isinstance(asked, (model.Put, model.Define, model.Drop)) and not history.versions[-1].refusal(asked):
            history.add(asked)
    return history


def check_lost(outcome: Outcome, made: int) -> None:
    """Looks whether the first session may have made so many versions, of which no reply was printed: where the thread
    of the next was refused; or, where it was the only one, the version of its first line, for whose reply it had no
    memory."""
    is_write = outcome.fault.startswith("error 49 ")
    if outcome.sessions > 1 and not outcome.fault.startswith("error 40 ") or outcome.sessions == 1 and not is_write:
        raise judging.Wrong(f"no replies, though sessions ran, and `{outcome.fault.strip()}` is reported as the reason")
    if is_write and made > 1:
        raise judging.Wrong("no replies, though more than one line was run")


def layers_told(lines: list[str]) -> list[str]:
    """The layers among the lines that say what a store holds."""
    return [line[len("layer ") :] for line in lines if line.startswith("layer ")]


def history_stored(judged: Judged, number: int, lines: list[str]) -> History:
    """The history by which the replies are right and whose version of a number has the layers of
    the store, if one is."""
    for history in judged.histories:
        if number <= history.last() and history.versions[number].lines() == layers_told(lines):
            return history
    return judged.history


def judge_content(runner: Runner, outcome: Outcome, history: History, number: int) -> None:
    """Looks whether a store has the layers of a version, and right tiles, and is opened by the program."""
    assert outcome.store is not None
    right = history.versions[number].lines()
    lines = read_store.summary(outcome.store)
    if layers_told(lines) != right:
        raise judging.Wrong(f"the store has other layers than those of version {number}")
    for (name, column), pieces in read_store.tiles_in(outcome.store).items():
        if pieces != history.meanings.tile(history.key_at(name, number), column):
            raise judging.Wrong(f"the store's tile {name} {column} is wrong")
    if runner.reopened(outcome.store) != (right, number):
        raise judging.Wrong("the program opens the store as another version")


def last_accepted(judged: Judged) -> int:
    """The greatest number that was reported as accepted, 0 where none was."""
    replies = [reply for session in judged.sessions for reply in session.replies]
    return max((judging.number_of(reply) for reply in replies if reply[0].startswith("ok ")), default=0)


def judge_store(runner: Runner, outcome: Outcome, judged: Judged | None) -> None:
    """Looks at the store that a run left: a version of the history, all that was reported durable, right tiles."""
    lines = read_store.summary(outcome.store) if outcome.store is not None else ["32"]
    if not lines[0].startswith("version"):
        if runner.prepared is None and judged is None and lines == ["32"]:
            return
        raise judging.Wrong(f"the store is refused by {lines[0]}")
    number, least = int(lines[0].split()[1]), len(runner.scenario.commands())
    history = history_stored(judged, number, lines) if judged else history_before(runner.scenario)
    if judged is None and number > least:
        outcome.is_lost = True  # what a session made is in the store, and its replies were not printed
        check_lost(outcome, number - least)
        history = history_alone(runner.scenario)
    least = max(least, judged.durable if judged else 0)
    if judged and outcome.counts[1] == 1 and outcome.fault.startswith("error 49 "):
        least = max(least, last_accepted(judged))  # a session was refused, so the store was not
    if not least <= number <= history.last():
        raise judging.Wrong(f"the store has version {number}; {least} was durable, {history.last()} the last")
    if judged and outcome.status == 0 and number != history.last():
        raise judging.Wrong(f"status 0, and the store has version {number} of {history.last()}")
    if is_silent(outcome) and number == history.last():
        raise judging.Wrong("status 1 without a line, and the store has the newest version")
    if outcome.is_lost and outcome.counts[1] > 1:
        return  # a line may have been refused too: which commands were accepted isn't known
    judge_content(runner, outcome, history, number)


def judge(runner: Runner, outcome: Outcome, allows: Allows) -> str | None:
    """What is wrong with a run, None where nothing is; `allows` judges the refusals that were reported."""
    if outcome.status is None:
        return f"did not end in {runner.seconds} s"
    if outcome.status not in (0, 1):
        return f"ended with status {outcome.status}; standard error {outcome.fault[:200]!r}"
    if outcome.fault and not FAULT_LINE.fullmatch(outcome.fault):
        return f"standard error {outcome.fault[:200]!r}"
    try:
        judged = judge_output(runner.scenario, outcome, allows)
        if runner.scenario.before is not None:
            judge_store(runner, outcome, judged)
    except (judging.Wrong, read_store.Damage, subprocess.TimeoutExpired) as fault:
        return f"status {outcome.status}: {fault}"
    return None
