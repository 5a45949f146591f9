#!/usr/bin/env python3
"""Makes what crates/edge_cases is run on: its data/, and its stdout by the second interpreter.

usage: edge_cases.py CRATE      the cases are the calls of `case` in CRATE/src/main.rt

Where a fault's place is worked out by hand (FAULTS), the second interpreter has to say the same.
"""

import re
import struct
import sys
from pathlib import Path

sys.path.insert(0, str(Path(__file__).resolve().parent.parent / "second"))
import calls
from build import (add, assign, case, choose, divide, emit, goto, jump, less, multiply, negate, number, remainder, rule, stop,
                   subtract, variable)
from files import pages_of
from refusal import Refusal

PLAN_ROOM = 4642
RESULT_ROOM = calls.MOST_ROWS * calls.record_size(calls.MOST_LABELS)
WORKING_ROOM = calls.MOST_ROWS * calls.line_size(calls.MOST_COLUMNS)
LONGEST_FILE, LONGEST_BATCH = 4096, 12 + 4 * 256 * 16
LEAST, GREATEST = -2**31, 2**31 - 1
LABEL_COUNT = 2  # its place in a record

SUM = rule(2, 1, [
    emit(variable(0)) + goto(1),
    choose(less(variable(0), number(1)), goto(2), goto(3)),
    emit(variable(1)) + stop(),
    assign(1, add(variable(1), variable(0))) + assign(0, subtract(variable(0), number(1))) + jump(1),
])


def nested(depth):
    return variable(0) if depth == 1 else negate(nested(depth - 1))


def damaged(file, at):
    return file[:at] + bytes([file[at] ^ 1]) + file[at + 1:]


def moved(file):
    """A byte after the payload, and the check mended: only the filler is wrong."""
    page = bytearray(file)
    page[508] += 1
    page[510] += 1
    return bytes(page)


PAGES = {
    "empty": b"",
    "one_byte_short": pages_of(SUM)[:-1],
    "nine": bytes(9 * 512),
    "check": damaged(pages_of(rule(1, 0, [emit(number(7)) * 200 + stop()])), 512 + 511),
    "filler": moved(pages_of(SUM)),
    "header": pages_of(SUM[:2] + bytes([3]) + SUM[3:]),
    "tag": pages_of(rule(1, 0, [b"\x15"])),
    "variable": pages_of(rule(1, 0, [emit(variable(1)) + stop()])),
    "target": pages_of(rule(1, 0, [goto(1)])),
    "cycle": pages_of(rule(1, 0, [stop(), goto(2), goto(1)])),
    "deep": pages_of(rule(1, 0, [emit(nested(9)) + stop()])),
    "early": pages_of(SUM[:4]),
    "after": pages_of(SUM + stop()),
    "sum": pages_of(SUM),
    "goes_back": pages_of(rule(1, 1, [emit(variable(0)) + goto(2), emit(number(7)) + stop(), goto(1)])),
    "stops": pages_of(rule(16, 16, [stop()])),
    "divides": pages_of(rule(1, 1, [emit(variable(0)) + emit(divide(number(6), variable(0))) + stop()])),
}


def batch(rows, budget, quota, *values):
    return struct.pack(f"<3I{len(values)}i", rows, budget, quota, *values)


BATCHES = {
    "three": batch(3, 2, 4, 2, 0, -5),
    "eleven": bytes(11),
    "no_rows": batch(0, 2, 4),
    "thirteen": batch(0, 2, 4) + b"\0",
    "longest": batch(256, 1, 0, *[-1] * 4096),
    "too_long": batch(256, 1, 0, *[-1] * 4097),
    "one_value_short": batch(3, 2, 4, 2, 0),
    "too_many_rows": batch(257, 65536, 17, *range(257)),
    "too_high_quota": batch(1, 2, 17, 2),
    "too_high_budget": batch(1, 65536, 4, 2),
    "both_too_high": batch(2**32 - 1, 2**32 - 1, 2**32 - 1),
    "no_budget": batch(2, 0, 4, 2, LEAST),
    "no_quota": batch(2, 65535, 0, 2, 0),
    "faults": batch(4, 65535, 16, 3, 0, LEAST, -4),
}

X = variable(0)

# Where a rule faults: its blocks, a batch, and the lines to be printed (row, status, rounds, label count, the fault's place, labels).
# The offsets beside a rule are those of its tags. The header has 4 bytes; a number has 5, a variable, a goto and a jump 2, a set 2
# besides its expression, every other tag 1 besides its parts.
FAULTS = {
    # 4 emit, 5 add, 6 number, 11 negate, 12 divide, 13 number, 18 variable, 20 stop
    "inner_operand": (
        [emit(add(number(1), negate(divide(number(6), X)))) + stop()],
        batch(2, 1, 1, 0, 3),
        ["0 2 1 0 12", "1 1 1 1 0 -1", "rounds 1"]),
    # 4 emit, 5 case, 6 less, 7 variable, 9 number; 14 divide, 15 number, 20 variable; 22 add, 23 variable, 25 number; 30 stop
    "taken_arm": (
        [emit(case(less(X, number(1)), divide(number(6), X), add(X, number(GREATEST)))) + stop()],
        batch(3, 1, 1, 0, 1, -1),
        ["0 2 1 0 14", "1 3 1 0 22", "2 1 1 1 0 -6", "rounds 1"]),
    # 4 if, 5 less, 6 negate, 7 variable, 9 number, 14 goto, 16 stop; 17 emit
    "condition_of_if": (
        [choose(less(negate(X), number(0)), goto(1), stop()), emit(X) + stop()],
        batch(3, 1, 1, LEAST, 5, -5),
        ["0 3 1 0 6", "1 1 1 1 0 5", "2 1 1 0 0", "rounds 1"]),
    # 4 set, 6 add, 7 variable, 9 number; 14 emit, 15 remainder, 16 number, 21 variable; 23 stop
    "second_statement": (
        [assign(0, add(X, number(1))) + emit(remainder(number(6), X)) + stop()],
        batch(3, 1, 1, -1, GREATEST, 3),
        ["0 2 1 0 15", "1 3 1 0 6", "2 1 1 1 0 2", "rounds 1"]),
    # block 0: 4 emit, 5 variable, 7 goto; 1: 9 if, 10 less, 11 variable, 13 number, 18 goto, 20 jump;
    # 2: 22 emit, 23 divide, 24 number, 29 variable, 31 stop; 3: 32 emit, 33 multiply, 34 and 36 variable, 38 stop
    "block_of_four": (
        [emit(X) + goto(1), choose(less(X, number(1)), goto(2), jump(3)),
         emit(divide(number(6), X)) + stop(), emit(multiply(X, X)) + stop()],
        batch(3, 2, 2, 0, 46341, 46340),
        ["0 2 1 1 23 0", "1 3 2 1 33 46341", "2 1 2 2 0 46340 2147395600", "rounds 2"]),
}

PAGES |= {name: pages_of(rule(1, 1, blocks)) for name, (blocks, _, _) in FAULTS.items()}
BATCHES |= {name: rows for name, (_, rows, _) in FAULTS.items()}


def text(file, data):
    """What the program prints; it reads one byte more than the longest file and batch."""
    try:
        return "".join(lines(file[:LONGEST_FILE + 1], data[:LONGEST_BATCH + 1]))
    except Refusal as refusal:
        return f"{refusal}\n"


def lines(file, data):
    plan = bytearray(PLAN_ROOM)
    size = calls.compile(file, plan)
    if not 12 <= len(data) <= LONGEST_BATCH or len(data) % 4:
        raise Refusal(13, 0)
    rows, budget, quota, *values = struct.unpack(f"<3I{len(data) // 4 - 3}i", data)
    result, working = [0] * RESULT_ROOM, [0] * WORKING_ROOM
    most = calls.run(bytes(plan[:size]), rows, values, budget, quota, result, working)
    for row in range(rows):
        record = result[row * calls.record_size(quota):(row + 1) * calls.record_size(quota)]
        shown = record[:calls.record_size(record[LABEL_COUNT])]  # the zeros after the labels are not
        yield " ".join(map(str, [row, *shown])) + "\n"
    yield f"rounds {most}\n"


def main():
    crate = Path(sys.argv[1])
    cases = re.findall(r'case\(rt, "(\w+)\.pages", "(\w+)\.batch"\)', (crate / "src/main.rt").read_text())
    data = crate / "data"
    data.mkdir(exist_ok=True)
    for name, made in PAGES.items():
        (data / f"{name}.pages").write_bytes(made)
    for name, made in BATCHES.items():
        (data / f"{name}.batch").write_bytes(made)
    for name, (_, _, worked_out) in FAULTS.items():
        given = text(PAGES[name], BATCHES[name]).splitlines()
        assert (name, name) in cases and given == worked_out, (name, given, worked_out)
    answers = (text(PAGES.get(file, b""), BATCHES.get(batch, b"")) for file, batch in cases)
    (crate / "stdout").write_text("".join(answers))


main()
