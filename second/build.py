"""Rules as bytes: a function for each tag, so that a rule can be written down by hand or by dice."""

import rule as grammar


def tagged(tag):
    return lambda *parts: bytes([tag]) + b"".join(parts)


def number(value):
    return bytes([grammar.CONSTANT]) + value.to_bytes(4, "little", signed=True)


def variable(index):
    return bytes([grammar.VARIABLE, index])


negate = tagged(grammar.NEGATE)
add = tagged(grammar.ADD)
subtract = tagged(grammar.SUBTRACT)
multiply = tagged(grammar.MULTIPLY)
divide = tagged(grammar.DIVIDE)
remainder = tagged(grammar.REMAINDER)
case = tagged(grammar.CASE)
less = tagged(grammar.LESS)
equal = tagged(grammar.EQUAL)
negation = tagged(grammar.NOT)
both = tagged(grammar.AND)
either = tagged(grammar.OR)
emit = tagged(grammar.EMIT)
choose = tagged(grammar.IF)
stop = tagged(grammar.STOP)


def assign(index, expression):
    return bytes([grammar.SET, index]) + expression


def goto(block):
    return bytes([grammar.GOTO, block])


def jump(block):
    return bytes([grammar.JUMP, block])


def rule(variables, arguments, blocks):
    return bytes([1, variables, arguments, len(blocks)]) + b"".join(blocks)
