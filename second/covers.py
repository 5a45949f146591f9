"""Counts what a stream and its answers exercise: python3 second/covers.py stream answers

Fails, and says what is missing, unless every reply of every call, every status, every kind of found
part, every kind of dead blocks in plans made, run and outdated, every kind of place of a fault by every
operator, every kind of budgets, and every kind of gotos back, cycles and wrong order bytes has come up.
"""

import sys
from collections import Counter

from budgets import KINDS as BUDGET_KINDS
from budgets import kinds_of_13, kinds_of_14, kinds_of_accepted
from calls import MOST_COLUMNS, MOST_LABELS, MOST_ROWS, line_size, record_size
from dead import KINDS, dead_kinds, old_plan
from direct import OUT_OF_RANGE, UNFINISHED, ZERO_DIVISOR
from faults import FAULTS, PLACES, fault_at
from files import payload_of
from orders import (BACK, BEHIND, CYCLES, GOOD, PLANS, RUNS, kinds_behind, kinds_of_cycle, kinds_of_good,
                    kinds_of_plan, kinds_of_run)
from plan import carried_rule, compile_rule, loop_width
from refusal import Refusal
from rule import OPERATORS, parse, tree_of
from stream import COMPILE, READ, WRITE, BadRequest, Bytes, Run, requests

NAMES = {READ: "read", WRITE: "write", COMPILE: "compile"}
REFUSALS = {
    "read": (*range(1, 11), 12, 16),
    "write": (*range(4, 13), 16),
    "compile": (*range(1, 11), 12, 16),
    "run": range(12, 16),
}
STATUSES = range(5)
FAULTED = (ZERO_DIVISOR, OUT_OF_RANGE)
FAULT_WORD = 3  # of a record
CLEAN_AFTER_FAULT = "run ok, a row without a fault after one with"
OLD_ROOM, OLD_RECORDS = "run refused 12 at 0, room for records before K4", "find empty, records as before K4"
OLD_WORKING, OLD_LINES = "run refused 12 at 1, room for lines before K10", "find empty, lines as before K10"
ROUNDS_WORD = 2  # of a line
OUTDATED, STILL_GOOD = "old plan refused 15", "old plan still good, dead block"


def wanted():
    names = [f"{call} ok" for call in REFUSALS]
    names += [f"{call} refused {number}" for call, numbers in REFUSALS.items() for number in numbers]
    names += ["run refused 12 at 0", "run refused 12 at 1"]
    names += [f"run status {status}" for status in STATUSES]
    names += [f"find {part}" for part in ("record", "record of a later row", "record of a fault", "line",
                                          "line of a later row", "line with rounds", "empty")]
    names += [OLD_ROOM, OLD_RECORDS, OLD_WORKING, OLD_LINES, CLEAN_AFTER_FAULT, *BUDGET_KINDS]
    names += [f"fault {status} at {tag:02x}" for status, tag in FAULTS]
    names += [f"fault at {tag:02x}, {place}" for place in PLACES for tag in OPERATORS]
    names += [f"{shown}, {kind}" for shown in ("compile ok", "run ok", OUTDATED) for kind in KINDS]
    names += [f"{shown}, {kind}" for shown in ("compile ok", "run ok") for kind in GOOD]
    names += [f"{call} refused 16, {kind}" for call in NAMES.values() for kind in CYCLES]
    names += [*BEHIND, *RUNS, *[f"run refused 15, {kind}" for kind in PLANS]]
    return names + [STILL_GOOD]


def seen_in(request, answer):
    """The names of what one answer shows."""
    if isinstance(request, Bytes):
        return seen_in_bytes(request, answer)
    if isinstance(request, Run):
        return seen_in_run(request, answer)
    return seen_in_find(request, answer)


def seen_in_find(request, answer):
    if answer == "-":
        return ["find empty", *seen_in_empty(request)]
    status = request.result[request.row * record_size(request.quota)]
    name = "find line" if status == UNFINISHED else "find record"
    names = [name, f"{name} of a later row"] if request.row else [name]
    if status == UNFINISHED and int(answer.split()[ROUNDS_WORD]):
        names.append("find line with rounds")
    has_offset = status in FAULTED and int(answer.split()[FAULT_WORD])
    return names + ["find record of a fault"] if has_offset else names


def seen_in_empty(find):
    """Whether nothing is missing but the fourth word of the records, or the third of the lines."""
    within_limits = find.rows <= MOST_ROWS and find.quota <= MOST_LABELS and find.columns <= MOST_COLUMNS
    if not within_limits or find.row >= find.rows:
        return []
    size = record_size(find.quota)
    if has_old_size(find.rows, size, len(find.result)):
        return [OLD_RECORDS]
    has_lines = has_old_size(find.rows, line_size(find.columns), len(find.working))
    old_numbers = find.working[::line_size(find.columns) - 1]
    has_records = len(find.result) >= find.rows * size
    return [OLD_LINES] if has_records and has_lines and find.row in old_numbers else []


def has_old_size(rows, size, room):
    """Whether the room is a word short for each record or line of that size."""
    return rows > 0 and room == rows * (size - 1)


def seen_in_bytes(request, answer):
    name = reply_name(NAMES[request.kind], answer)
    word, number, place, *_ = answer.split()
    if word == "refused" and int(number) in (*range(4, 12), 16):
        rule = request.data if request.kind == WRITE else payload_of(request.data)
        return [name, *seen_in_refused_rule(name, rule, int(number), int(place))]
    return [name, *with_kinds(name, payload_of(request.data))] if name == "compile ok" else [name]


def seen_in_refused_rule(name, rule, number, place):
    if number == 16:
        return [f"{name}, {kind}" for kind in kinds_of_cycle(tree_of(rule), place)]
    return kinds_behind(rule, number)


def with_kinds(shown, rule):
    return [f"{shown}, {kind}" for kind in (*dead_kinds(rule), *kinds_of_good(parse(rule)))]


def seen_in_run(request, answer):
    reply, result, _ = answer.split(" | ")
    if reply.startswith("refused"):
        return [reply_name("run", reply), *seen_in_refused(request, *map(int, reply.split()[1:]))]
    rule, size = carried_rule(request.plan), record_size(request.quota)
    words = result.split()
    records = [list(map(int, words[row * size:(row + 1) * size])) for row in range(request.rows)]
    names = ["run ok", *[f"run status {record[0]}" for record in records]]
    names += kinds_of_accepted(request, int(reply.split()[1]), records)
    kinds = seen_in_accepted(rule)
    names += kinds_of_run(request, records) if f"run ok, {BACK}" in kinds else []
    return names + kinds + seen_in_faults(parse(rule), records)


def seen_in_refused(run, number, place):
    if number == 12:
        return [f"run refused 12 at {place}", *seen_in_short(run, place)]
    if number == 13:
        return kinds_of_13(run)
    if number == 14:
        return kinds_of_14(run, place)
    return seen_in_outdated(run.plan) + kinds_of_plan(run.plan)


def seen_in_short(run, place):
    if place == 0:
        return [OLD_ROOM] if has_old_size(run.rows, record_size(run.quota), run.result_room) else []
    size = line_size(loop_width(run.plan))
    return [OLD_WORKING] if has_old_size(run.rows, size, run.working_room) else []


def seen_in_faults(tree, records):
    names, faults = [], 0
    for status, rounds, _, offset, *_ in records:
        if status in FAULTED:
            faults += 1
            names += seen_in_fault(status, fault_at(tree, offset, rounds))
        elif faults:
            names.append(CLEAN_AFTER_FAULT)
    return names


def seen_in_fault(status, fault):
    """Nothing for an offset with no operator, as no right answer gives."""
    if fault is None:
        return []
    by_place = [f"fault at {fault.tag:02x}, {place}" for place in fault.places]
    return [f"fault {status} at {fault.tag:02x}", *by_place]


def seen_in_outdated(plan):
    """Of what is no plan, only a plan from before K3 counts here, and only if K3 changed it."""
    rule = carried_rule(plan)
    try:
        outdated = plan == old_plan(rule) != compile_rule(rule)
    except Refusal:
        return []
    return [f"{OUTDATED}, {kind}" for kind in dead_kinds(rule)] if outdated else []


def seen_in_accepted(rule):
    """The kinds of dead blocks in a rule that ran, and whether its old plan would have run too."""
    names = with_kinds("run ok", rule)
    return names + [STILL_GOOD] if dead_kinds(rule) and old_plan(rule) == compile_rule(rule) else names


def reply_name(call, answer):
    word, number = answer.split()[:2]
    return f"{call} ok" if word == "ok" else f"{call} refused {number}"


def main():
    stream_path, answers_path = sys.argv[1:]
    counts = Counter()
    with open(stream_path, "rb") as stream, open(answers_path, encoding="ascii") as answers:
        try:
            for request, answer in zip(requests(stream.read()), answers):
                counts.update(seen_in(request, answer.rstrip("\n")))
        except BadRequest:
            pass  # a bad tail, answered with `end`, has nothing to count
    for name in wanted():
        print(f"{counts[name]:7} {name}")
    missing = [name for name in wanted() if not counts[name]]
    if missing:
        sys.exit("missing: " + ", ".join(missing))


if __name__ == "__main__":
    main()
