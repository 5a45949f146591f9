"""Where a fault lies, seen from outside the calls: the operator at an offset, and the kinds of its place."""

from typing import NamedTuple

from direct import OUT_OF_RANGE, ZERO_DIVISOR
from rule import (ADD, AND, CASE, DIVIDE, EMIT, IF, MULTIPLY, NEGATE, NOT, OPERATORS, OR, REMAINDER, SET,
                  SUBTRACT)

# Which operator can fault in which way: a remainder is never out of range.
FAULTS = ((ZERO_DIVISOR, DIVIDE), (ZERO_DIVISOR, REMAINDER), (OUT_OF_RANGE, NEGATE), (OUT_OF_RANGE, ADD),
          (OUT_OF_RANGE, SUBTRACT), (OUT_OF_RANGE, MULTIPLY), (OUT_OF_RANGE, DIVIDE))

# Kinds of places by a tag around the operator and the part of that tag, from 0, in which it lies.
AROUND = {
    (SET, 0): "in a set",
    (EMIT, 0): "in an emit",
    (IF, 0): "condition of an if",
    (IF, 1): "if in an if",
    (IF, 2): "if in an if",
    (CASE, 0): "condition of a case",
    (CASE, 1): "first arm",
    (CASE, 2): "second arm",
    (NOT, 0): "under not",
    (AND, 0): "left of and/or",
    (OR, 0): "left of and/or",
    (AND, 1): "right of and",
    (OR, 1): "right of or",
    **{(operator, 0): "first operand" for operator in OPERATORS},
    **{(operator, 1): "second operand" for operator in OPERATORS},
}
LATER = ("later statement", "later block", "later round", "past byte 255")
PLACES = (*dict.fromkeys(AROUND.values()), *LATER)


class Fault(NamedTuple):
    tag: int
    places: set  # those of PLACES that it lies in


def fault_at(tree, offset, rounds):
    """The fault of a row that ended there in its last round; None if no operator has that offset."""
    for b, block in enumerate(tree.blocks):
        for s, step in enumerate([*block.statements, block.ending]):
            way = way_to(step, offset)
            if way:
                later = (0 < s < len(block.statements), b > 0, rounds > 1, offset > 255)
                places = {AROUND[pair] for pair in way if pair in AROUND}
                return Fault(way[-1][0], places.union(name for name, is_so in zip(LATER, later) if is_so))
    return None


def way_to(node, offset):
    """Pairs of a tag and its part, down to the operator with that offset; empty if it is elsewhere."""
    if node[0] in OPERATORS and node[1] == offset:
        return [(node[0], None)]
    inner = [part for part in node[1:] if isinstance(part, tuple)]
    for number, part in enumerate(inner):
        if rest := way_to(part, offset):
            return [(node[0], number), *rest]
    return []
