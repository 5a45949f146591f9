"""Checks the baseline against the second interpreter: python3 bench/check.py

On the benchmark's rules with a few arguments, and on some hundred rules made by dice.
"""

import ctypes
import subprocess
import sys
import tempfile
from pathlib import Path

HERE = Path(__file__).resolve().parent
sys.path.insert(0, str(HERE.parent / "second"))

import calls
from dice import Dice
from make_runs import corner_rows, few_rows
from plan import body_offset, compile_rule
from rule import HEADER_SIZE
from rules import RULES, header, loop_mask
from stream import Run

ARGUMENTS = [0, -5, 1, 2, 50, 1999, 2000, 65534]
BUDGETS = (0, 1, 2000)
QUOTA = 4
DICE_RUNS = 400


def load_plain(folder):
    library = Path(folder) / "plain.so"
    subprocess.run(["gcc", "-std=c11", "-O2", "-Wall", "-Wextra", "-Werror", "-shared", "-fPIC",
                    HERE / "plain.c", "-o", library], check=True)
    return ctypes.CDLL(str(library)).plain_run


def run_plain(plain_run, run):
    rule = run.plan[:HEADER_SIZE] + run.plan[body_offset(run.plan[3]):]
    result, working = (ctypes.c_int * run.result_room)(), (ctypes.c_int * run.working_room)()
    values = (ctypes.c_int * len(run.values))(*run.values)
    rounds = plain_run(rule, len(rule), loop_mask(rule), run.rows, values, run.budgets, run.quota,
                       result, working)
    return rounds, list(result), list(working)


def run_second(run):
    result, working = [0] * run.result_room, [0] * run.working_room
    rounds = calls.run(run.plan, run.rows, run.values, run.budgets, run.quota, result, working)
    return rounds, result, working


def with_common(run):
    """The baseline has no budgets but a common one: of the rows' own the greatest."""
    return run if isinstance(run.budgets, int) else run._replace(budgets=max(run.budgets, default=0))


def bench_run(rule, budget):
    rows = len(ARGUMENTS)
    columns = loop_mask(rule).bit_count()
    return Run(rows, budget, QUOTA, rows * calls.record_size(QUOTA), rows * calls.line_size(columns),
               compile_rule(rule), ARGUMENTS)


def main():
    if (HERE / "rules.h").read_text() != header():
        sys.exit("bench/rules.h is not what bench/rules.py makes")
    dice = Dice(1)
    runs = [bench_run(rule, budget) for rule in RULES.values() for budget in BUDGETS]
    runs += [with_common(make(dice)) for make in (few_rows, corner_rows) for _ in range(DICE_RUNS // 2)]
    with tempfile.TemporaryDirectory() as folder:
        plain_run = load_plain(folder)
        for run in runs:
            if run_plain(plain_run, run) != run_second(run):
                sys.exit(f"plain.c differs on {run}")
    print(f"plain.c agrees on {len(runs)} runs")


if __name__ == "__main__":
    main()
