"""Any good rule by dice, of all shapes, its blocks often under other numbers."""

from make_orders import closed_by_jump, mixed, woven
from make_rules import (EDGES, corner_sums, countdown, crowded, deep, forever, stretched, wide, wild,
                        with_dead)

SHAPES = ((6, wild), (8, countdown), (6, forever), (5, with_dead), (2, corner_sums), (2, deep), (1, crowded),
          (1, wide), (8, woven), (3, closed_by_jump))


def small_rule(dice):
    """A good rule of no shape's full size: none comes near the greatest length."""
    rule = dice.weighted(SHAPES)(dice)
    return mixed(dice, rule) if dice.one_in(4) else rule


def any_rule(dice):
    """A good rule; one in a few dozen is stretched to a length at an edge."""
    rule = small_rule(dice)
    length = dice.pick(EDGES)
    roomy = length - len(rule) >= 12
    return stretched(dice, rule, length) if roomy and dice.one_in(25) else rule
