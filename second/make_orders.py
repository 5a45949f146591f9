"""Rules whose gotos go back and forth: good ones, and ones whose gotos form cycles."""

import build
from columns import living_blocks
from make_faults import sure_fault
from make_rules import Place, condition, gentle, statement, turned, with_dead
from orders import MOST_BLOCKS
from renumber import renumbered, written
from rule import IF, parse

COUNT, ONE = build.variable(0), build.number(1)
DEEPEST_ENDING = 4


def chain(dice, rank, blocks):
    return [rank + 1]


def branches(dice, rank, blocks):
    """A tree: no two ways meet."""
    return [2 * rank + 1, 2 * rank + 2]


def diamonds(dice, rank, blocks):
    """One after the other: a block, two that it parts to, and the next one, in which these meet."""
    return ([rank + 1, rank + 2], [rank + 2], [rank + 1])[rank % 3]


def ladder(dice, rank, blocks):
    return [rank + 1, rank + 2]


def loose(dice, rank, blocks):
    return [dice.between(rank + 1, blocks) for _ in range(dice.below(4))]


WEAVES = (chain, branches, diamonds, ladder, loose, loose)


def woven(dice):
    """Blocks whose gotos go to higher ranks alone, under numbers that do not tell the rank."""
    blocks = dice.between(40, MOST_BLOCKS) if dice.one_in(12) else dice.between(2, 9)
    return mixed(dice, woven_by_rank(dice, dice.pick(WEAVES), blocks))


def woven_by_rank(dice, weave, blocks):
    variables = dice.between(1, 5)
    bodies = []
    for rank in range(blocks):
        place = Place(variables, rank, blocks)
        names = dice.pick((build.goto, build.goto, build.goto, build.jump))
        ways = [names(target) for target in weave(dice, rank, blocks) if target < blocks]
        bodies.append(work(dice, place) + spread(dice, place, ways or [last_way(dice, place)]))
    return build.rule(variables, dice.between(0, min(variables, 3)), bodies)


def work(dice, place):
    """A label that tells the block, a small change, or anything, which may fault; often nothing."""
    step = dice.weighted(((4, b""), (4, build.emit(build.number(place.block))), (1, build.emit(COUNT)),
                          (3, gentle(dice, dice.below(place.variables), place.variables)),
                          (1, statement(dice, place)), (1, build.emit(sure_fault(dice))),
                          (1, build.emit(build.divide(ONE, COUNT)))))
    return step + build.assign(0, build.subtract(COUNT, ONE)) if dice.one_in(4) else step


def last_way(dice, place):
    again = build.jump(dice.below(place.blocks))
    return dice.pick((build.stop(), again, build.choose(build.less(COUNT, ONE), build.stop(), again)))


def spread(dice, place, ways):
    """One ending with all these ways, and now and then a jump or a stop beside them."""
    if len(ways) < 3 and dice.one_in(4):
        ways = turned(dice, [dice.pick((build.stop(), build.jump(dice.below(place.blocks)))), *ways])
    ending = ways[0]
    for way in ways[1:]:
        ending = build.choose(condition(dice, place, 2), *turned(dice, [ending, way]))
    return ending


def mixed(dice, rule):
    """The rule under other numbers; mostly its entry stays the entry."""
    rest = list(range(1, rule[3]))
    rest = rest[::-1] if dice.one_in(3) else shuffled(dice, rest)
    numbers = [0, *rest]
    return renumbered(rule, shuffled(dice, numbers) if dice.one_in(5) else numbers)


def shuffled(dice, items):
    left, order = list(items), []
    while left:
        order.append(left.pop(dice.below(len(left))))
    return order


def closed_by_jump(dice):
    """A path of gotos whose last block jumps to its first: no cycle."""
    blocks, variables = dice.between(2, 8), dice.between(1, 4)
    path = shuffled(dice, range(blocks))[:dice.between(2, blocks)]
    ways = [(block, build.goto(target)) for block, target in zip(path, path[1:])]
    return with_ways(dice, idle(dice, variables, blocks), [*ways, (path[-1], build.jump(path[0]))])


def idle(dice, variables, blocks):
    """Blocks without a goto."""
    places = [Place(variables, block, blocks) for block in range(blocks)]
    return build.rule(variables, dice.between(0, min(variables, 2)),
                      [work(dice, place) + last_way(dice, place) for place in places])


def with_ways(dice, rule, ways):
    """The good rule with more ways, each at the end of its block: in an arm, or in place of the ending."""
    tree = parse(rule)
    same = range(rule[3])
    steps = [b"".join(written(node, same) for node in block.statements) for block in tree.blocks]
    endings = [(levels(block.ending), written(block.ending, same)) for block in tree.blocks]
    for block, way in ways:
        depth, ending = endings[block]
        if depth == DEEPEST_ENDING or dice.one_in(3):
            endings[block] = (1, way)
        else:
            asked = condition(dice, Place(tree.variables, block, rule[3]), 2)
            endings[block] = (depth + 1, build.choose(asked, *turned(dice, [ending, way])))
    bodies = [work + ending for work, (_, ending) in zip(steps, endings)]
    return build.rule(tree.variables, tree.arguments, bodies)


def levels(ending):
    return 1 + max(map(levels, ending[2:])) if ending[0] == IF else 1


def around(blocks):
    """The gotos of a cycle through these blocks."""
    return [(block, build.goto(target)) for block, target in zip(blocks, blocks[1:] + blocks[:1])]


def some_of(dice, blocks):
    """One, two, three, all or any number of these blocks, in any order."""
    length = dice.pick((1, 2, 3, len(blocks), len(blocks), dice.between(1, len(blocks))))
    return shuffled(dice, blocks)[:length]


def any_cycles(dice):
    """One or more cycles in a rule that was good, through any of its blocks, apart or not."""
    rule = woven(dice)
    ways = [way for _ in range(dice.pick((1, 1, 1, 2, 3))) for way in around(some_of(dice, range(rule[3])))]
    return with_ways(dice, rule, ways)


def lone_cycles(dice):
    """One cycle or two apart, among blocks without other gotos; low blocks lead there or lie between."""
    low, blocks, variables = dice.below(3), dice.between(5, 12), dice.between(1, 4)
    members = shuffled(dice, range(low, blocks))
    cut = dice.between(1, len(members) - 1)
    first, second = some_of(dice, members[:cut]), some_of(dice, members[cut:])
    ways = around(first) if dice.one_in(3) else around(first) + around(second)
    for block in range(low):
        ways += [(block, build.goto(first[0])), (second[0], build.goto(block))]
    return with_ways(dice, idle(dice, variables, blocks), ways)


def dead_cycle(dice):
    """A cycle through dead blocks alone; the gotos of living ones may still go back."""
    while True:
        rule = with_dead(dice)
        dead = sorted(set(range(rule[3])) - living_blocks(parse(rule)))
        if dead:
            return with_ways(dice, rule, around(some_of(dice, dead)))


def great_cycle(dice):
    """Through all of the most blocks there may be, or all but block 0."""
    first = dice.below(2)
    members = list(range(first, MOST_BLOCKS))
    members = members[::-1] if dice.one_in(2) else shuffled(dice, members)
    bodies = [build.stop()] * MOST_BLOCKS
    for block, way in around(members):
        bodies[block] = way
    return build.rule(1, 0, bodies)


def own_goto(dice):
    """The smallest cycle of all."""
    return build.rule(1, 0, [build.goto(0)])


def all_back(dice):
    """From block 0 to the last of the most blocks, and from there back one by one; cycles by no goto."""
    variables = dice.between(1, 3)
    places = [Place(variables, block, MOST_BLOCKS) for block in range(MOST_BLOCKS)]
    ways = [build.goto((block - 1) % MOST_BLOCKS) for block in range(MOST_BLOCKS)]
    ways[1] = last_way(dice, places[1])
    emits = [build.emit(build.number(block)) if dice.one_in(6) else b"" for block in range(MOST_BLOCKS)]
    return build.rule(variables, dice.below(2), [emit + way for emit, way in zip(emits, ways)])


def cyclic(dice):
    return dice.weighted(((4, any_cycles), (5, lone_cycles), (3, dead_cycle), (1, great_cycle)))(dice)
