"""Makes each call of the store's device fail in turn, on a real file.

python3 -m overlayd_lab.trials.faults PROGRAM [--live] [--seconds N]

The program loads faults.c, which lets a call on the store's file or folder fail, or that one and all after it: with
nothing done, half a write done, interrupted, or the device full. A sync that fails loses what was written since the
last one, or half of each write. Each run ends; its replies are the model's, but for 30 by SYNC; the store holds a
version no older than what was reported durable, and opens. A program that leaves out a sync is seen. Status 1: a line
of the table is wrong."""

import argparse
import pathlib
import signal
import sys
import tempfile

from overlayd_lab.counting import counted
from overlayd_lab.trials import refusal_tables, refused_runs, refusing

# What the shim leaves out of a right program, by the number that it is given.
LEFT_OUT = {1: "no sync of the store is made", 2: "no sync of the folder is made"}
KINDS = ["nothing done", "half a write", "half a write reported, or interrupted", "full"]


def is_found(words: argparse.Namespace, library: pathlib.Path, folder: pathlib.Path, left_out: int) -> bool:
    """Whether the shim ends a program that leaves out syncs."""
    runner = refused_runs.runner_of(words, refused_runs.CREATED, library, folder)
    status = runner.run({"LEAVE": left_out}, "FAIL").status
    print(f"| {refused_runs.CREATED.name} | {LEFT_OUT[left_out]} | ended by the shim: {status == -signal.SIGABRT} |")
    return status == -signal.SIGABRT


def fail(words: argparse.Namespace, folder: pathlib.Path) -> tuple[int, int]:
    """Prints the table, and gives how many of its lines are right, and how many are not."""
    library = refused_runs.compiled("faults", folder)
    print(refusal_tables.HEAD)
    found = [is_found(words, library, folder, number) for number in LEFT_OUT]
    right, wrong = sum(found), len(found) - sum(found)
    for scenario in (refused_runs.CREATED, refused_runs.OPENED):
        runner = refused_runs.runner_of(words, scenario, library, folder)
        runner.count_early("FAIL")
        plain = [runner.run({}, "FAIL") for _ in range(3)]
        faults = [fault for fault in (refusing.judge(runner, outcome, refusing.device) for outcome in plain) if fault]
        calls = max(outcome.counts[0] for outcome in plain)
        if faults or not calls:
            print(f"{scenario.name}: with nothing failing: {faults or 'no call was counted'}")
            return right, wrong + 1
        for kind, what in enumerate(KINDS):
            for rest in (0, 1):
                if kind == 2 and rest:
                    continue  # a call that is interrupted for ever is asked for ever
                table = refusal_tables.run_in_turn(runner, "FAIL", {"REST": rest, "KIND": kind}, calls, refusing.device)
                refusal_tables.print_table(runner, what + (", and all after" if rest else ""), calls, table)
                right += not table.wrong
                wrong += bool(table.wrong)
    return right, wrong


def main() -> int:
    """Fails calls."""
    words = refused_runs.parser_of(__doc__).parse_args()
    with tempfile.TemporaryDirectory(prefix="faults") as place:
        return counted(*fail(words, pathlib.Path(place)))


if __name__ == "__main__":
    sys.exit(main())
