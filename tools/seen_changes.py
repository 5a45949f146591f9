#!/usr/bin/env python3
"""seen_changes.py: what the stored stream of crates/second_stream would show. Each change below puts the second interpreter wrong in one point that is easily missed;
counted are the stored answers that it then no longer gives. Fails if a change goes unseen."""
import shutil
import subprocess
import sys
import tempfile
from pathlib import Path

ROOT = Path(__file__).resolve().parent.parent
ROOM = "    need_room(rows * record_size(quota), result, 0)\n"
WORKING_ROOM = "    need_room(rows * line_size(len(loop)), working, 1)\n"
QUOTA_TOO_HIGH = "    if quota > MOST_LABELS:\n        raise Refusal(14, 0)\n"
LOOKED_AT = "    # A common budget is looked at even if no row has it.\n"
IN_TURN = "in enumerate([budgets] if is_common else budgets):\n"
BUDGET_TOO_HIGH = f"    for place, budget {IN_TURN}        if budget > MOST_ROUNDS:\n            raise Refusal(14, place)\n"
TOO_HIGH = QUOTA_TOO_HIGH + LOOKED_AT + BUDGET_TOO_HIGH
MISCOUNTED = "    if not is_common and len(budgets) != rows:\n        raise Refusal(13, 0)\n"
TOO_MANY = "    if rows > MOST_ROWS or"
USED_UP = "    if len(labels) == quota:\n        raise RowEnds(QUOTA_USED)\n"
TOO_LONG = "    if len(rule) > LONGEST_RULE:\n        raise Refusal(11, 0)\n"
CHECK = "    if int.from_bytes(page[CHECK_AT:], \"little\") != check_of(page, number):\n        raise Refusal(2, number)\n"
HELD = "    return page[PAYLOAD_AT"
FOUND = "    rule = payload_of(file)\n"
LABEL = "    label = evaluate(statement[1], store)\n"
OWN = "budgets[row]"
RAN = f"        outcome = run_row(rule, arguments, budgets if is_common else {OWN}, quota)\n"
LINE = "[row, outcome.next_block, outcome.rounds, *columns]"
RECORDED = "        records += record(outcome, quota)\n"
WORKED_OUT = "    return MEANING[tag](store, *parts)\n"
MOST = "        most_rounds = max(most_rounds, outcome.rounds)\n"


def right_first(*signs):
    """Arguments are worked out in order, so the right side comes first if it is the first argument."""
    return [(f"evaluate(x, store) {sign} evaluate(y, store)", f"(lambda b, a: a {sign} b)(evaluate(y, store), evaluate(x, store))")
            for sign in signs]


def other_place(place):
    """Another word in the place of the fault's, the fourth of a record."""
    return [(RECORDED, f"        words = record(outcome, quota)\n        words[3] = {place}\n        records += words\n")]


CHANGES = {
    "the right operand first": ("direct.py", right_first("+", "-", "*", "<", "==")),
    "a case works out both arms": ("direct.py", [(
        "    return evaluate(if_holds if evaluate(condition, store) else if_not, store)",
        "    holds, arms = evaluate(condition, store), [evaluate(if_not, store), evaluate(if_holds, store)]\n    return arms[holds]")]),
    "and, or always look right": ("direct.py", [("evaluate(x, store) and evaluate", "evaluate(x, store) & evaluate"),
                                                ("evaluate(x, store) or evaluate", "evaluate(x, store) | evaluate")]),
    "division rounds down": ("direct.py", [("return size if (x < 0) == (y < 0) else -size", "return x // y")]),
    "the quota before the value": ("direct.py", [(LABEL + USED_UP, USED_UP + LABEL)]),
    "a fault takes the labels": ("calls.py", [(RAN, RAN + "        if outcome.status in (2, 3):\n            outcome = outcome._replace(labels=[])\n")]),
    "a fault without its place": ("calls.py", other_place("0")),
    "a fault's place without the header": ("calls.py", other_place("max(0, words[3] - 4)")),
    "a fault's place by the outermost operator": ("direct.py", [(WORKED_OUT, (
        "    try:\n    " + WORKED_OUT + "    except RowEnds as end:\n"
        "        raise RowEnds(end.status, parts[0] if NEGATE <= tag <= REMAINDER else end.fault_offset)\n"))]),
    "a fault stops the batch": ("calls.py", [(MOST, MOST + (
        "        if outcome.status in (2, 3):\n            records += [0] * ((rows - row - 1) * record_size(quota))\n            break\n"))]),
    "one store for all labels": ("calls.py", [(RAN, RAN.replace("quota)", "max(0, quota - sum(records[2::record_size(quota)])))"))]),
    "the most rounds as a sum": ("calls.py", [(MOST, MOST.replace("max(most_rounds, outcome.rounds)", "most_rounds + outcome.rounds"))]),
    "an invented count of rounds": ("calls.py", [("[outcome.status, outcome.rounds,", "[outcome.status, len(outcome.labels),")]),
    "an invented count of labels": ("calls.py", [("outcome.rounds, len(outcome.labels),", "outcome.rounds, quota,")]),
    "a run writes nothing": ("calls.py", [("    put(records, result)\n    put(lines, working)\n", "")]),
    "running: 13 before 15": ("calls.py", [("    rule, loop = accept(plan)\n", "    if rows > MOST_ROWS:\n        raise Refusal(13, 0)\n    rule, loop = accept(plan)\n")]),
    "running: 14 before 13": ("calls.py", [(TOO_MANY, TOO_HIGH + TOO_MANY)]),
    "running: 13 for the budgets last": ("calls.py", [(MISCOUNTED + TOO_HIGH, TOO_HIGH + MISCOUNTED)]),
    "running: 14 for a budget before the quota": ("calls.py", [(TOO_HIGH, BUDGET_TOO_HIGH + QUOTA_TOO_HIGH)]),
    "running: 14 with no row's place": ("calls.py", [("raise Refusal(14, place)", "raise Refusal(14, 0)")]),
    "running: 14 with the highest row's place": ("calls.py", [(IN_TURN, "in reversed(list(enumerate([budgets] if is_common else budgets))):\n")]),
    "running: no 14 without rows": ("calls.py", [(IN_TURN, "in enumerate([budgets] * (rows > 0) if is_common else budgets):\n")]),
    "running: more budgets than rows": ("calls.py", [("len(budgets) != rows", "len(budgets) < rows")]),
    "the first row's budget for all": ("calls.py", [(OWN, "budgets[0]")]),
    "the greatest budget for all": ("calls.py", [(OWN, "max(budgets)")]),
    "a line without its rounds": ("calls.py", [(LINE, "[row, outcome.next_block, 0, *columns]")]),
    "a line with its rounds first": ("calls.py", [(LINE, "[row, outcome.rounds, outcome.next_block, *columns]")]),
    "running: 12 before 14": ("calls.py", [(TOO_HIGH, ROOM + WORKING_ROOM + TOO_HIGH)]),
    "running: the working buffer first": ("calls.py", [(ROOM + WORKING_ROOM, WORKING_ROOM + ROOM)]),
    "reading: 3 before 2": ("files.py", [(CHECK, ""), (HELD, CHECK + HELD)]),
    "reading: 12 before the rule": ("calls.py", [(FOUND, FOUND + "    need_room(len(rule), buffer, 0)\n")]),
    "writing: 11 last": ("calls.py", [(TOO_LONG + "    parse(rule)\n", "    parse(rule)\n" + TOO_LONG)]),
    "finding: no limits": ("calls.py", [("within_limits = rows <= MOST_ROWS and quota <= MOST_LABELS and columns <= MOST_COLUMNS", "within_limits = True")]),
    "finding: too short a result": ("calls.py", [("len(result) < rows * record_words", "len(result) < (row + 1) * record_words")]),
    "finding: a line that is cut": ("calls.py", [("len(working) // line_words)", "-(-len(working) // line_words))")]),
    "finding: a line past the rows": ("calls.py", [("min(rows, len(working) // line_words)", "len(working) // line_words")]),
    "finding: the last line": ("calls.py", [("in range(0, whole_lines * line_words, line_words)", "in reversed(range(0, whole_lines * line_words, line_words))")]),
}


def differing(folder, name, replacements):
    """How many stored answers differ under a change of this file."""
    file = folder / name
    text = whole = file.read_text()
    for old, new in replacements:
        assert text.count(old) == 1, old
        text = text.replace(old, new)
    file.write_text(text)
    with open(ROOT / "crates/second_stream/stdin", "rb") as stream:
        given = subprocess.run([sys.executable, folder / "answer.py"], stdin=stream, capture_output=True, check=True, text=True).stdout
    file.write_text(whole)
    stored = (ROOT / "crates/second_stream/stdout").read_text()
    return sum(a != b for a, b in zip(given.splitlines(), stored.splitlines(), strict=True))


def main():
    with tempfile.TemporaryDirectory() as parent:
        folder = Path(shutil.copytree(ROOT / "second", Path(parent) / "second"))
        counts = {change: differing(folder, *how) for change, how in CHANGES.items()}
    for change, count in counts.items():
        print(f"{count:5} {change}")
    sys.exit(not all(counts.values()))


main()
