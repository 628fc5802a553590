"""A module of growths.py and faults.py: many runs in which something is refused, and the table that counts them."""

import concurrent.futures
import os

from overlayd_lab.trials.refused_runs import Outcome, Runner
from overlayd_lab.trials.refusing import Allows, judge

# So many runs in a row have to meet no refusal, before it counts that each was tried: threads make calls more or fewer.
MARGIN = 20


class Table:
    """Counts of the runs of a scenario."""

    def __init__(self) -> None:
        self.runs = 0
        self.refused = 0
        self.failed = 0
        self.silent = 0
        self.lost = 0
        self.endless = 0
        self.unmet = 0  # how many of the last runs met no refusal
        self.wrong: list[str] = []

    def add(self, outcome: Outcome, fault: str | None, label: str, may_be_endless: bool) -> None:
        """Counts a run, with what is wrong with it."""
        self.runs += 1
        self.endless += outcome.status is None
        self.refused += outcome.counts[1] > 0
        self.unmet = 0 if outcome.counts[1] else self.unmet + 1
        self.failed += outcome.status == 1
        self.silent += outcome.status == 1 and not outcome.fault
        self.lost += outcome.is_lost
        if fault and not (outcome.status is None and may_be_endless):
            self.wrong.append(f"{label}: {fault}")


def run_all(runner: Runner, prefix: str, settings: list[dict[str, int]], allows: Allows, may_be_endless: bool = False,
            table: Table | None = None) -> Table:
    """Runs with each of some settings, a few side by side, and counts."""
    table = table or Table()

    def one(given: dict[str, int]) -> tuple[dict[str, int], Outcome, str | None]:
        outcome = runner.run(given, prefix)
        return given, outcome, judge(runner, outcome, allows)

    with concurrent.futures.ThreadPoolExecutor(os.cpu_count()) as pool:
        for given, outcome, fault in pool.map(one, settings):
            label = " ".join(f"{prefix}_{name}={value}" for name, value in given.items())
            table.add(outcome, fault, label, may_be_endless)
    return table


def run_in_turn(runner: Runner, prefix: str, given: dict[str, int], calls: int, allows: Allows) -> Table:
    """Runs with the first of about so many calls refused, then the second and so on, until runs in a row met none."""
    table, first, end = Table(), 1, calls + MARGIN + 1
    while table.unmet < MARGIN and first <= 4 * (calls + MARGIN):
        run_all(runner, prefix, [{"FIRST": number, **given} for number in range(first, end)], allows, table=table)
        first, end = end, end + MARGIN
    if table.unmet < MARGIN:
        table.wrong.append(f"{prefix}_FIRST={first - 1}: of the last {MARGIN} runs all but {table.unmet} met a refusal")
    return table


HEAD = "| Run | Which | Calls | Runs | Met in | Met by none of the last | Status 1 | of them without a line "
HEAD += "| replies lost | Did not end | Wrong |\n" + "|---" * 11 + "|"


def print_table(runner: Runner, which: str, calls: int, table: Table) -> None:
    """Prints the line of a table."""
    cells = [runner.scenario.name, which, calls, table.runs, table.refused, table.unmet]
    cells += [table.failed, table.silent, table.lost, table.endless, len(table.wrong)]
    print("| " + " | ".join(map(str, cells)) + " |", flush=True)
    for line in table.wrong[:10]:
        print("    " + line)
