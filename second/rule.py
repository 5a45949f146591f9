"""The grammar of a rule: bytes in, a tree out, or a refusal with its place.

A node is a tuple: its tag, then its parts in the order of the bytes. A part is again a node, or a
plain number (a constant, a variable or a block). An operator, which may fault, has the offset of its
own tag as its first part.
"""

from typing import NamedTuple

from gotos import lowest_on_cycle
from refusal import Refusal

LONGEST_RULE = 4064
HEADER_SIZE = 4

CONSTANT, VARIABLE, NEGATE, ADD, SUBTRACT, MULTIPLY, DIVIDE, REMAINDER, CASE = range(0x01, 0x0A)
OPERATORS = range(NEGATE, CASE)
LESS, EQUAL, NOT, AND, OR = range(0x10, 0x15)
SET, EMIT = range(0x20, 0x22)
GOTO, JUMP, STOP, IF = range(0x30, 0x34)

TAGS = {
    "expression": range(CONSTANT, CASE + 1),
    "condition": range(LESS, OR + 1),
    "ending": range(GOTO, IF + 1),
    # What may come next in a block: one more statement, or its ending.
    "step": (SET, EMIT, GOTO, JUMP, STOP, IF),
}
DEEPEST = {"expression": 8, "condition": 8, "ending": 4, "step": 1}
VALUES = ("expression", "condition")

PARTS = {
    CONSTANT: ("constant",),
    VARIABLE: ("variable",),
    NEGATE: ("own offset", "expression"),
    ADD: ("own offset", "expression", "expression"),
    SUBTRACT: ("own offset", "expression", "expression"),
    MULTIPLY: ("own offset", "expression", "expression"),
    DIVIDE: ("own offset", "expression", "expression"),
    REMAINDER: ("own offset", "expression", "expression"),
    CASE: ("condition", "expression", "expression"),
    LESS: ("expression", "expression"),
    EQUAL: ("expression", "expression"),
    NOT: ("condition",),
    AND: ("condition", "condition"),
    OR: ("condition", "condition"),
    SET: ("variable", "expression"),
    EMIT: ("expression",),
    GOTO: ("goto target",),
    JUMP: ("block",),
    STOP: (),
    IF: ("condition", "ending", "ending"),
}


class Block(NamedTuple):
    start: int  # offset of its first byte in the rule
    statements: list
    ending: tuple


class Rule(NamedTuple):
    variables: int
    arguments: int
    blocks: list
    gotos: list  # for each block the set of blocks that its gotos name, whichever arm they stand in


def parse(rule):
    """The tree of a good rule; the limit on its length is the callers' own."""
    tree = tree_of(rule)
    lowest = lowest_on_cycle(tree.gotos)
    if lowest is not None:
        raise Refusal(16, lowest)
    return tree


def tree_of(rule):
    """The tree of a rule by its bytes alone, be there cycles of gotos or not."""
    check_header(rule)
    _, variables, arguments, count = rule[:HEADER_SIZE]
    reader = Reader(rule)
    blocks = [reader.block() for _ in range(count)]
    if reader.at < len(rule):
        raise Refusal(10, reader.at)
    return Rule(variables, arguments, blocks, reader.gotos)


def check_header(rule):
    if len(rule) < HEADER_SIZE:
        raise Refusal(9, len(rule))
    form, variables, arguments, blocks = rule[:HEADER_SIZE]
    allowed = (form == 1, 1 <= variables <= 16, arguments <= variables, 1 <= blocks <= 64)
    if not all(allowed):
        raise Refusal(4, allowed.index(False))


class Reader:
    """Walks over the bytes of a rule from the left, with a good header behind it."""

    def __init__(self, rule):
        self.rule = rule
        self.at = HEADER_SIZE
        self.gotos = []  # of the blocks begun so far
        self.leaves = {
            "own offset": self.own_offset,
            "constant": self.constant,
            "variable": self.variable,
            "goto target": self.goto_target,
            "block": self.block_number,
        }

    def block(self):
        self.gotos.append(set())
        start = self.at
        statements = []
        step = self.node("step", 1)
        while step[0] in (SET, EMIT):
            statements.append(step)
            step = self.node("step", 1)
        return Block(start, statements, step)

    def node(self, kind, depth):
        """The node whose tag is due here; the order of the three checks is the order of replies."""
        if self.at == len(self.rule):
            raise Refusal(9, len(self.rule))
        if depth > DEEPEST[kind]:
            raise Refusal(8, self.at)
        tag = self.rule[self.at]
        if tag not in TAGS[kind]:
            raise Refusal(5, self.at)
        self.at += 1
        return (tag, *[self.part(part, kind, depth) for part in PARTS[tag]])

    def part(self, kind, outer, depth):
        if kind in self.leaves:
            return self.leaves[kind]()
        # Each statement and each if starts its own count for what it works out.
        afresh = kind in VALUES and outer not in VALUES
        return self.node(kind, 1 if afresh else depth + 1)

    def take(self, count):
        if self.at + count > len(self.rule):
            raise Refusal(9, len(self.rule))
        self.at += count
        return self.rule[self.at - count:self.at]

    def own_offset(self):
        # Takes no byte: the tag was the last one read.
        return self.at - 1

    def constant(self):
        return int.from_bytes(self.take(4), "little", signed=True)

    def variable(self):
        return self.number_in(range(self.rule[1]), 6)

    def goto_target(self):
        target = self.block_number()
        self.gotos[-1].add(target)
        return target

    def block_number(self):
        return self.number_in(range(self.rule[3]), 7)

    def number_in(self, allowed, refusal):
        number = self.take(1)[0]
        if number not in allowed:
            raise Refusal(refusal, self.at - 1)
        return number
