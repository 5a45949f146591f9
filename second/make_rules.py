"""Good rules by dice, in shapes that a blind choice of bytes would hardly ever hit.

Their gotos go forward; make_orders.py turns them.
"""

from typing import NamedTuple

import build
from direct import GREATEST, LEAST
from rule import HEADER_SIZE, LONGEST_RULE

CORNERS = (LEAST, LEAST + 1, -46341, -46340, -2, -1, 0, 1, 2, 46340, 46341, GREATEST - 1, GREATEST)
ARITHMETIC = (build.add, build.subtract, build.multiply, build.divide, build.remainder)
COMPARISONS = (build.less, build.equal)
VALUE_LEVELS = 8
ENDING_LEVELS = 4
# Lengths at which a file gets one more page, and the greatest of all.
EDGES = (507, 508, 509, 1016, 1017, 1524, 2033, LONGEST_RULE - 1, LONGEST_RULE, LONGEST_RULE)


class Place(NamedTuple):
    """What a piece of a rule must know of where it will stand."""
    variables: int
    block: int
    blocks: int


def number(dice):
    if dice.one_in(3):
        return dice.pick(CORNERS)
    return dice.between(LEAST, GREATEST) if dice.one_in(8) else dice.between(-9, 9)


def leaf(dice, place):
    if dice.one_in(3):
        return build.number(number(dice))
    return build.variable(dice.below(place.variables))


def expression(dice, place, levels):
    """An expression of at most so many levels."""
    if levels == 1 or dice.one_in(3):
        return leaf(dice, place)
    inner = levels - 1
    if inner > 1 and dice.one_in(5):
        return build.case(condition(dice, place, inner), expression(dice, place, inner),
                          expression(dice, place, inner))
    if dice.one_in(6):
        return build.negate(expression(dice, place, inner))
    return dice.pick(ARITHMETIC)(expression(dice, place, inner), expression(dice, place, inner))


def condition(dice, place, levels):
    """A condition of at most so many levels, two or more."""
    inner = levels - 1
    if inner == 1 or dice.one_in(2):
        return dice.pick(COMPARISONS)(expression(dice, place, inner), expression(dice, place, inner))
    if dice.one_in(3):
        return build.negation(condition(dice, place, inner))
    connective = dice.pick((build.both, build.either))
    return connective(condition(dice, place, inner), condition(dice, place, inner))


def deep_expression(dice, place, depth):
    """An expression with one tag at exactly this depth and none deeper."""
    if depth == 1:
        return leaf(dice, place)
    if depth > 2 and dice.one_in(3):
        return build.case(deep_condition(dice, place, depth - 1), leaf(dice, place), leaf(dice, place))
    if dice.one_in(3):
        return build.negate(deep_expression(dice, place, depth - 1))
    sides = [deep_expression(dice, place, depth - 1), leaf(dice, place)]
    return dice.pick(ARITHMETIC)(*turned(dice, sides))


def deep_condition(dice, place, depth):
    """The same for a condition; its depth is two or more."""
    if depth == 2 or dice.one_in(2):
        sides = [deep_expression(dice, place, depth - 1), leaf(dice, place)]
        return dice.pick(COMPARISONS)(*turned(dice, sides))
    if dice.one_in(3):
        return build.negation(deep_condition(dice, place, depth - 1))
    sides = [deep_condition(dice, place, depth - 1), condition(dice, place, 2)]
    return dice.pick((build.both, build.either))(*turned(dice, sides))


def deep_ending(dice, place, depth):
    """An ending with one tag at exactly this depth and none deeper."""
    if depth == 1:
        return ending(dice, place, 1)
    arms = [deep_ending(dice, place, depth - 1), ending(dice, place, 1)]
    return build.choose(condition(dice, place, 3), *turned(dice, arms))


def turned(dice, pair):
    return pair[::-1] if dice.one_in(2) else pair


def ending(dice, place, levels):
    if levels > 1 and dice.one_in(2):
        return build.choose(condition(dice, place, 3), ending(dice, place, levels - 1),
                            ending(dice, place, levels - 1))
    if place.block + 1 < place.blocks and dice.one_in(2):
        return build.goto(dice.between(place.block + 1, place.blocks - 1))
    return build.stop() if dice.one_in(3) else build.jump(dice.below(place.blocks))


def statement(dice, place):
    if dice.one_in(3):
        return build.emit(expression(dice, place, 3))
    return build.assign(dice.below(place.variables), expression(dice, place, 4))


def gentle(dice, target, variables):
    """A set that keeps its variable small, so that a loop lives for many rounds."""
    sides = [build.variable(dice.below(variables)), build.variable(dice.below(variables))]
    step = dice.pick((build.add, build.subtract))(*sides)
    return build.assign(target, build.remainder(step, build.number(dice.between(2, 999))))


def wild(dice):
    """Anything at all; mostly it faults early or jumps about."""
    variables, blocks = dice.between(1, 16), dice.between(1, 6)
    bodies = []
    for block in range(blocks):
        place = Place(variables, block, blocks)
        steps = [statement(dice, place) for _ in range(dice.below(4))]
        bodies.append(b"".join(steps) + ending(dice, place, 3))
    return build.rule(variables, dice.between(0, min(variables, 4)), bodies)


def countdown(dice):
    """A loop that ends after as many rounds as its first argument says."""
    variables = dice.between(2, 6)
    count, one = build.variable(0), build.number(1)
    work = [gentle(dice, dice.between(1, variables - 1), variables) for _ in range(dice.below(4))]
    if dice.one_in(3):
        work.append(build.emit(expression(dice, Place(variables, 2, 4), 2)))
    return build.rule(variables, dice.between(1, variables), [
        build.emit(count) + build.goto(1),
        build.choose(build.less(count, one), build.goto(3), build.goto(2)),
        b"".join(work) + build.assign(0, build.subtract(count, one)) + build.jump(1),
        build.emit(build.variable(variables - 1)) + build.stop(),
    ])


def tick(dice):
    """The cheapest loop that ends, for runs of very many rounds."""
    count, one = build.variable(0), build.number(1)
    return build.rule(1, 1, [
        build.choose(build.less(count, one), build.stop(), build.goto(1)),
        build.assign(0, build.subtract(count, one)) + build.jump(0),
    ])


def forever(dice):
    """A loop without a stop."""
    variables, blocks = dice.between(1, 5), dice.between(1, 3)
    bodies = []
    for block in range(blocks):
        place = Place(variables, block, blocks)
        work = b"".join(gentle(dice, dice.below(variables), variables) for _ in range(dice.below(3)))
        jumps = [build.jump(dice.below(blocks)), build.jump(dice.below(blocks))]
        two_ways = build.choose(build.less(leaf(dice, place), leaf(dice, place)), *jumps)
        bodies.append(work + (two_ways if dice.one_in(2) else jumps[0]))
    return build.rule(variables, dice.between(0, variables), bodies)


def wide(dice):
    """A loop without a stop that carries all of its many variables along."""
    variables = dice.between(12, 16)
    work = b""
    for index in range(variables):
        step = build.add(build.variable(index), build.variable(dice.below(variables)))
        work += build.assign(index, build.remainder(step, build.number(dice.between(2, 999))))
    return build.rule(variables, dice.between(0, 2), [work + build.jump(0)])


def crowded(dice):
    """As many blocks as there may be, or nearly."""
    variables, blocks = dice.between(1, 16), dice.between(61, 64)
    bodies = []
    for block in range(blocks):
        place = Place(variables, block, blocks)
        body = gentle(dice, dice.below(variables), variables) if dice.one_in(6) else b""
        # Mostly one step on, so that a round passes through many blocks.
        step_on = block + 1 < blocks and not dice.one_in(5)
        bodies.append(body + (build.goto(block + 1) if step_on else ending(dice, place, 2)))
    return build.rule(variables, dice.between(0, min(variables, 3)), bodies)


def deep(dice):
    """Nested as deep as may be, in every place that counts its own depth."""
    variables = dice.between(1, 4)
    place = Place(variables, 0, 2)
    first = (build.emit(deep_expression(dice, place, VALUE_LEVELS))
             + build.assign(0, deep_expression(dice, place, VALUE_LEVELS))
             + deep_ending(dice, place, ENDING_LEVELS))
    last = Place(variables, 1, 2)
    second = build.choose(deep_condition(dice, last, VALUE_LEVELS), ending(dice, last, 3), build.stop())
    return build.rule(variables, dice.between(0, variables), [first, second])


def with_dead(dice):
    """Living blocks in a row from block 0, and among them dead ones, which no living ending names."""
    variables, blocks = dice.between(2, 16), dice.between(2, 9)
    few = dice.between(1, variables)  # the living ones keep to these, so that the dead could widen a line
    living = [0] + [block for block in range(1, blocks) if dice.one_in(2)]
    idle = dice.one_in(6)  # dead blocks that change no set, so that the plan is as it always was
    bodies = []
    for block in range(blocks):
        place = Place(variables, block, blocks)
        if block not in living:
            bodies.append(build.stop() if idle else dead_body(dice, place, living))
            continue
        work = b"".join(gentle(dice, dice.below(few), few) for _ in range(dice.below(3)))
        bodies.append(work + living_ending(dice, place._replace(variables=few), living))
    return build.rule(variables, dice.between(0, min(few, 4)), bodies)


def living_ending(dice, place, living):
    """Leads to the next living block, now and then by an arm that is never taken."""
    later = [block for block in living if block > place.block]
    aside = dice.pick((build.stop(), build.jump(dice.pick(living)), build.jump(dice.pick(living))))
    if not later:
        return aside
    way_on = dice.pick((build.goto, build.goto, build.jump))(later[0])
    if dice.one_in(2):
        return way_on
    if dice.one_in(4):
        return build.choose(build.less(build.number(1), build.number(0)), way_on, aside)
    return build.choose(condition(dice, place, 2), *turned(dice, [way_on, aside]))


def dead_body(dice, place, living):
    """Reads what it likes, and leads to the dead, to the living, or nowhere."""
    steps = b"".join(statement(dice, place) for _ in range(dice.below(3)))
    arms = [dead_way(dice, place, living), dead_way(dice, place, living)]
    return steps + (build.choose(condition(dice, place, 2), *arms) if dice.one_in(3) else arms[0])


def dead_way(dice, place, living):
    dead = [block for block in range(place.blocks) if block not in living]
    later = range(place.block + 1, place.blocks)
    ways = [build.stop(), build.jump(dice.pick(living)), build.jump(dice.pick(dead))]
    if later:
        ways += [build.goto(dice.pick(later)), build.goto(later[0])]
    return dice.pick(ways)


def corner_sums(dice):
    """A few operators on two arguments, for rows of corner values."""
    emits = [build.emit(corner_sum(dice)) for _ in range(dice.between(1, 3))]
    return build.rule(2, 2, [b"".join(emits) + build.stop()])


def corner_sum(dice):
    """A plain operator, one with a different fault on each side, or a division behind a guard."""
    x, y, zero = build.variable(0), build.variable(1), build.number(0)
    plain = dice.pick(ARITHMETIC)(x, y)
    faults = turned(dice, [build.divide(x, zero), build.negate(build.number(LEAST))])
    first_fault = dice.pick((dice.pick(ARITHMETIC)(*faults),
                             build.case(dice.pick(COMPARISONS)(*faults), x, y)))
    is_zero, is_less = build.equal(y, zero), build.less(build.remainder(x, y), x)
    guarded = dice.pick((build.case(is_zero, build.negate(x), build.divide(x, y)),
                         build.case(build.both(build.negation(is_zero), is_less), x, y),
                         build.case(build.either(*turned(dice, [is_zero, is_less])), x, y)))
    return dice.pick((plain, plain, first_fault, guarded))


def stretched(dice, rule, length):
    """The rule with statements put before it, so that it has exactly this length."""
    variables = rule[1]
    padding = b""
    missing = length - len(rule)
    while missing - len(padding) >= 40:
        padding += gentle(dice, dice.below(variables), variables)
    # Pieces of four and five bytes make up every rest from 12 on.
    itself = build.variable(0)
    while (rest := missing - len(padding)) > 0:
        padding += build.assign(0, itself if rest % 5 else build.negate(itself))
    return rule[:HEADER_SIZE] + padding + rule[HEADER_SIZE:]
