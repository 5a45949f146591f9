"""Rules made to fault: an operator in any kind of place, with calm things before it and more faults around.

Nothing here is deeper than two holders, of at most three levels each, around an operator on leaves.
"""

import build
from direct import GREATEST, LEAST
from make_rules import ARITHMETIC, COMPARISONS, turned
from rule import ADD, DIVIDE, HEADER_SIZE, LONGEST_RULE, MULTIPLY, NEGATE, REMAINDER, SUBTRACT

X, Y, OWN = range(3)  # two arguments, and a variable that starts at 0

ZERO, ONE, MINUS_ONE, LOWEST, HIGHEST = map(build.number, (0, 1, -1, LEAST, GREATEST))

# What faults whatever the row, by the tag that does.
SURE = {
    NEGATE: (build.negate(LOWEST),),
    ADD: (build.add(HIGHEST, ONE), build.add(MINUS_ONE, LOWEST)),
    SUBTRACT: (build.subtract(LOWEST, ONE), build.subtract(ZERO, LOWEST)),
    MULTIPLY: (build.multiply(HIGHEST, HIGHEST), build.multiply(LOWEST, MINUS_ONE)),
    DIVIDE: (build.divide(ONE, ZERO), build.divide(LOWEST, MINUS_ONE)),
    REMAINDER: (build.remainder(ONE, ZERO), build.remainder(build.variable(X), ZERO)),
}


def sure_fault(dice):
    return dice.pick(SURE[dice.pick(tuple(SURE))])


def row_fault(dice):
    """An operator that faults on some rows of corner values, or after a few rounds."""
    x, y = build.variable(dice.pick((X, Y, OWN))), build.variable(dice.pick((X, Y)))
    return build.negate(x) if dice.one_in(6) else dice.pick(ARITHMETIC)(x, y)


def calm(dice):
    """Cannot fault, though it may well be an operator."""
    small = build.number(dice.between(-9, 9))
    return dice.pick((small, build.variable(X), build.remainder(build.variable(Y), build.number(7)),
                      build.subtract(small, ONE)))


def holds(dice):
    return dice.pick((build.less(ZERO, ONE), build.equal(build.variable(X), build.variable(X))))


def fails(dice):
    return dice.pick((build.less(ONE, ZERO), build.less(build.variable(Y), build.variable(Y))))


def worse(dice):
    """For what comes after a fault or is never looked at: mostly one more fault."""
    return calm(dice) if dice.one_in(3) else sure_fault(dice)


def first_operand(dice, inner):
    return build.negate(inner) if dice.one_in(6) else dice.pick(ARITHMETIC)(inner, worse(dice))


def second_operand(dice, inner):
    return dice.pick(ARITHMETIC)(calm(dice), inner)


def first_arm(dice, inner):
    return build.case(holds(dice), inner, worse(dice))


def second_arm(dice, inner):
    return build.case(fails(dice), worse(dice), inner)


def case_condition(dice, inner):
    return build.case(condition_with(dice, inner), worse(dice), worse(dice))


HOLDERS = (first_operand, second_operand, first_arm, second_arm, case_condition, case_condition)


def held(dice, inner, times):
    for _ in range(times):
        inner = dice.pick(HOLDERS)(dice, inner)
    return inner


def condition_with(dice, inner):
    """A comparison with the expression on one side, alone or in a connective."""
    if dice.one_in(2):
        compared = dice.pick(COMPARISONS)(calm(dice), inner)
    else:
        compared = dice.pick(COMPARISONS)(inner, worse(dice))
    after = build.less(worse(dice), calm(dice))
    return dice.pick((compared, build.negation(compared), build.both(compared, after),
                      build.either(compared, after), build.both(holds(dice), compared),
                      build.either(fails(dice), compared)))


def faulting(dice, fault):
    """A rule in which the run comes to this expression, in a first block or a later one."""
    blocks = dice.between(1, 3)
    bodies = [lead(dice) + dice.pick((build.goto, build.jump))(block + 1) for block in range(blocks - 1)]
    bodies.append(lead(dice) + last_steps(dice, fault, blocks))
    rule = build.rule(3, 2, bodies)
    return lengthened(dice, rule) if dice.one_in(8) else rule


def lead(dice):
    """Statements before the fault; a label among them shows that those emitted stay."""
    steps = [(build.emit(calm(dice)), build.assign(OWN, calm(dice))) for _ in range(dice.below(3))]
    return b"".join(map(dice.pick, steps))


def last_steps(dice, fault, blocks):
    """The fault in a statement or in the ending, and where a row goes that gets past it."""
    ways = [build.stop(), build.jump(dice.below(blocks))]
    if dice.one_in(3):
        return build.emit(held(dice, fault, dice.below(3))) + dice.pick(ways)
    if dice.one_in(2):
        return build.assign(OWN, held(dice, fault, dice.below(3))) + dice.pick(ways)
    asks = build.choose(condition_with(dice, held(dice, fault, dice.below(2))), *turned(dice, ways))
    around = (build.choose(holds(dice), asks, build.stop()), build.choose(fails(dice), build.stop(), asks))
    return dice.pick((asks, *around))


def lengthened(dice, rule):
    """With many statements put first, so that the offset needs two bytes; now and then as many as can be."""
    filler = build.assign(OWN, build.number(dice.between(-9, 9)))
    most = (LONGEST_RULE - len(rule)) // len(filler)
    return rule[:HEADER_SIZE] + filler * (most if dice.one_in(5) else 40) + rule[HEADER_SIZE:]
