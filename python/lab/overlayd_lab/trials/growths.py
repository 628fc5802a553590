"""Refuses each growth of the program in turn: the first, the second and so on, until a run meets no refusal.

python3 -m overlayd_lab.trials.growths PROGRAM [--live] [--step N] [--seconds N] [--every]

The program loads growths.c, which refuses a call for memory or a thread (it sees none of a static program). Each run
ends; its replies are the model's, but that one growth may be reported once (refusing.py); the store holds a version no
older than what was reported durable, and opens. Scripts that wait for nothing also run with all growths refused from
each one on. --step N takes each Nth, --every many at once. Counts differ by the threads' order. Status 1: a line is
wrong."""

import argparse
import pathlib
import sys
import tempfile
from collections.abc import Iterator

from overlayd_lab.counting import counted
from overlayd_lab.trials import refusal_tables, refused_runs, refusing
from overlayd_lab.trials.refusing import many_growths, one_growth


def spread(calls: int, step: int, each: int) -> list[dict[str, int]]:
    """The settings of some runs, somewhat more than there were calls: each growth of a step, and those after it."""
    return [{"FIRST": number, "EACH": each} for number in range(1, calls + refusal_tables.MARGIN, step)]


def tables(runner: refused_runs.Runner, calls: int, step: int,
           every: bool) -> Iterator[tuple[str, refusal_tables.Table]]:
    """The tables of runs of a scenario, each with what it refuses."""
    if step == 1:
        yield "one growth", refusal_tables.run_in_turn(runner, "REFUSE", {"EACH": 0}, calls, one_growth)
    else:
        yield "one growth", refusal_tables.run_all(runner, "REFUSE", spread(calls, step, 0), one_growth)
    for each in (2, 3, 100) if every else ():
        table = refusal_tables.run_all(runner, "REFUSE", spread(calls, 7 * step, each), many_growths, True)
        yield f"and each {each} after", table


def from_each_on(runner: refused_runs.Runner, calls: int) -> Iterator[tuple[str, refusal_tables.Table]]:
    """The table of runs of a scenario in which memory never comes back from a growth on. They end by themselves."""
    settings = [{"FIRST": number, "EACH": 1} for number in range(1, calls + refusal_tables.MARGIN)]
    yield "one growth, and all after", refusal_tables.run_all(runner, "REFUSE", settings, many_growths)


def refuse(words: argparse.Namespace, folder: pathlib.Path) -> tuple[int, int]:
    """Prints the table, and gives how many of its lines are right, and how many are not."""
    library = refused_runs.compiled("growths", folder)
    right = wrong = 0
    print(refusal_tables.HEAD)
    waiting = (refused_runs.MEMORY, refused_runs.CREATED, refused_runs.OPENED, refused_runs.STRIPS_CREATED)
    for scenario in (*waiting, refused_runs.QUIET_MEMORY, refused_runs.QUIET_CREATED):
        runner = refused_runs.runner_of(words, scenario, library, folder)
        runner.count_early("REFUSE")
        plain = [runner.run({}, "REFUSE") for _ in range(3)]
        faults = [fault for fault in (refusing.judge(runner, outcome, one_growth) for outcome in plain) if fault]
        calls = max(outcome.counts[0] for outcome in plain)
        if faults or not calls:
            print(f"{scenario.name}: with nothing refused: {faults or 'no growth was counted: is the program static?'}")
            return right, wrong + 1
        is_waiting = scenario in waiting
        found = tables(runner, calls, words.step, words.every) if is_waiting else from_each_on(runner, calls)
        for which, table in found:
            refusal_tables.print_table(runner, which, calls, table)
            right += not table.wrong
            wrong += bool(table.wrong)
    return right, wrong


def main() -> int:
    """Refuses growths."""
    parser = refused_runs.parser_of(__doc__)
    parser.add_argument("--step", type=int, default=1)
    parser.add_argument("--every", action="store_true", help="also refuses many growths of a run")
    words = parser.parse_args()
    with tempfile.TemporaryDirectory(prefix="growths") as place:
        return counted(*refuse(words, pathlib.Path(place)))


if __name__ == "__main__":
    sys.exit(main())
