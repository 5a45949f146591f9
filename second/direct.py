"""The direct run: one row at a time, all its variables in a list, no columns and no tables."""

from typing import NamedTuple

from rule import (ADD, AND, CASE, CONSTANT, DIVIDE, EMIT, EQUAL, GOTO, IF, JUMP, LESS, MULTIPLY, NEGATE,
                  NOT, OR, REMAINDER, SET, STOP, SUBTRACT, VARIABLE)

LEAST, GREATEST = -2**31, 2**31 - 1

UNFINISHED, STOPPED, ZERO_DIVISOR, OUT_OF_RANGE, QUOTA_USED = range(5)


class RowEnds(Exception):
    """Raised from any depth, as nothing of the row comes after it."""

    def __init__(self, status, fault_offset=0):
        self.status = status
        self.fault_offset = fault_offset


class Outcome(NamedTuple):
    status: int
    rounds: int
    fault_offset: int  # of the operator that faulted, in the rule; 0 if none did
    labels: list
    next_block: int  # where the next round would start; of meaning only while unfinished
    store: list


def run_row(rule, arguments, budget, quota):
    store = list(arguments) + [0] * (rule.variables - rule.arguments)
    labels = []
    block = 0
    for begun in range(1, budget + 1):
        try:
            block = run_round(rule, block, store, labels, quota)
        except RowEnds as end:
            return Outcome(end.status, begun, end.fault_offset, labels, block, store)
    return Outcome(UNFINISHED, budget, 0, labels, block, store)


def run_round(rule, block, store, labels, quota):
    """Runs from a block to the next taken jump, as the gotos form no cycle, and gives the jump's target."""
    while True:
        for statement in rule.blocks[block].statements:
            run_statement(statement, store, labels, quota)
        ending = rule.blocks[block].ending
        while ending[0] == IF:
            _, condition, if_holds, if_not = ending
            ending = if_holds if evaluate(condition, store) else if_not
        if ending[0] == STOP:
            raise RowEnds(STOPPED)
        block = ending[1]
        if ending[0] == JUMP:
            return block
        assert ending[0] == GOTO


def run_statement(statement, store, labels, quota):
    if statement[0] == SET:
        _, variable, expression = statement
        store[variable] = evaluate(expression, store)
        return
    assert statement[0] == EMIT
    # The value comes first: a fault in it goes before a quota used up.
    label = evaluate(statement[1], store)
    if len(labels) == quota:
        raise RowEnds(QUOTA_USED)
    labels.append(label)


def evaluate(node, store):
    """An expression's number, or whether a condition holds."""
    tag, *parts = node
    return MEANING[tag](store, *parts)


def in_range(offset, number):
    if not LEAST <= number <= GREATEST:
        raise RowEnds(OUT_OF_RANGE, offset)
    return number


def quotient(offset, x, y):
    """Rounded toward zero, where Python's own // rounds down; may be one too great for a value."""
    if y == 0:
        raise RowEnds(ZERO_DIVISOR, offset)
    size = abs(x) // abs(y)
    return size if (x < 0) == (y < 0) else -size


def remainder(offset, x, y):
    return x - y * quotient(offset, x, y)


def case(store, condition, if_holds, if_not):
    return evaluate(if_holds if evaluate(condition, store) else if_not, store)


# Python works out operands from the left, and the right side of and/or only if it is needed.
# An operator's offset, at, is told only of its own fault: one in an operand has been raised before.
MEANING = {
    CONSTANT: lambda store, number: number,
    VARIABLE: lambda store, variable: store[variable],
    NEGATE: lambda store, at, x: in_range(at, -evaluate(x, store)),
    ADD: lambda store, at, x, y: in_range(at, evaluate(x, store) + evaluate(y, store)),
    SUBTRACT: lambda store, at, x, y: in_range(at, evaluate(x, store) - evaluate(y, store)),
    MULTIPLY: lambda store, at, x, y: in_range(at, evaluate(x, store) * evaluate(y, store)),
    DIVIDE: lambda store, at, x, y: in_range(at, quotient(at, evaluate(x, store), evaluate(y, store))),
    REMAINDER: lambda store, at, x, y: in_range(at, remainder(at, evaluate(x, store), evaluate(y, store))),
    CASE: case,
    LESS: lambda store, x, y: evaluate(x, store) < evaluate(y, store),
    EQUAL: lambda store, x, y: evaluate(x, store) == evaluate(y, store),
    NOT: lambda store, x: not evaluate(x, store),
    AND: lambda store, x, y: evaluate(x, store) and evaluate(y, store),
    OR: lambda store, x, y: evaluate(x, store) or evaluate(y, store),
}
