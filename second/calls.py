"""The five calls, on buffers that the caller brings: bytearrays for bytes, lists for words.

Each answers with a number (the size written, the most rounds) or raises a Refusal with no buffer
changed; the finder alone answers with a part, which may be empty.
"""

from direct import UNFINISHED, run_row
from files import pages_of, payload_of
from plan import accept, compile_rule
from refusal import Refusal
from rule import LONGEST_RULE, parse

MOST_ROWS = 256
MOST_ROUNDS = 65535
MOST_LABELS = 16
MOST_COLUMNS = 16


def read(file, buffer):
    rule = payload_of(file)
    parse(rule)
    return put(rule, buffer)


def write(rule, buffer):
    if len(rule) > LONGEST_RULE:
        raise Refusal(11, 0)
    parse(rule)
    return put(pages_of(rule), buffer)


def compile(file, buffer):
    return put(compile_rule(payload_of(file)), buffer)


def run(plan, rows, values, budgets, quota, result, working):
    """Budgets are a number that all rows have in common, or a list of the rows' own."""
    rule, loop = accept(plan)
    is_common = isinstance(budgets, int)
    if rows > MOST_ROWS or len(values) != rows * rule.arguments:
        raise Refusal(13, 0)
    if not is_common and len(budgets) != rows:
        raise Refusal(13, 0)
    if quota > MOST_LABELS:
        raise Refusal(14, 0)
    # A common budget is looked at even if no row has it.
    for place, budget in enumerate([budgets] if is_common else budgets):
        if budget > MOST_ROUNDS:
            raise Refusal(14, place)
    need_room(rows * record_size(quota), result, 0)
    need_room(rows * line_size(len(loop)), working, 1)
    records, lines, most_rounds = [], [], 0
    for row in range(rows):
        arguments = values[row * rule.arguments:(row + 1) * rule.arguments]
        outcome = run_row(rule, arguments, budgets if is_common else budgets[row], quota)
        records += record(outcome, quota)
        if outcome.status == UNFINISHED:
            columns = [outcome.store[variable] for variable in loop]
            lines += [row, outcome.next_block, outcome.rounds, *columns]
        most_rounds = max(most_rounds, outcome.rounds)
    lines += [0] * (rows * line_size(len(loop)) - len(lines))
    put(records, result)
    put(lines, working)
    return most_rounds


def find(rows, quota, columns, row, result, working):
    within_limits = rows <= MOST_ROWS and quota <= MOST_LABELS and columns <= MOST_COLUMNS
    record_words, line_words = record_size(quota), line_size(columns)
    if row >= rows or not within_limits or len(result) < rows * record_words:
        return []
    at = row * record_words
    if result[at] != UNFINISHED:
        return result[at:at + record_words]
    whole_lines = min(rows, len(working) // line_words)
    for at in range(0, whole_lines * line_words, line_words):
        if working[at] == row:
            return working[at:at + line_words]
    return []


def record(outcome, quota):
    unused = [0] * (quota - len(outcome.labels))
    head = [outcome.status, outcome.rounds, len(outcome.labels), outcome.fault_offset]
    return head + outcome.labels + unused


def record_size(quota):
    return 4 + quota


def line_size(columns):
    return 3 + columns


def need_room(size, buffer, place):
    if len(buffer) < size:
        raise Refusal(12, place)


def put(written, buffer):
    """Puts what is written at the front; what lies beyond it stays."""
    need_room(len(written), buffer, 0)
    buffer[:len(written)] = written
    return len(written)
