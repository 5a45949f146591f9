"""Budgets by dice: one that all rows have in common or the rows' own, good and wrong."""

from calls import MOST_ROUNDS, MOST_ROWS

HUGE = 2**32 - 1
# Kept in 16 bits, most of these would be small and good.
TOO_HIGH = (MOST_ROUNDS + 1, MOST_ROUNDS + 1, MOST_ROUNDS + 4, 2**31, HUGE - 1, HUGE)
BESIDE = (0, 1, 2, MOST_ROUNDS - 1, MOST_ROUNDS, MOST_ROUNDS)  # good ones next to those


def some_budgets(dice, rows, choices):
    """Common ones somewhat oftener, as those put wrong are mostly own."""
    return own_budgets(dice, rows, choices) if dice.below(5) < 2 else dice.pick(choices)


def own_budgets(dice, rows, choices):
    return [dice.pick(choices) for _ in range(rows)]


def wrong_number(dice, run):
    """Budgets that are not as many as rows; a single one could pass for common, none for no limit."""
    own = listed(run)
    more = own + [dice.pick(BESIDE + TOO_HIGH)]
    lists = [own[:-1], own[:-1], more, more, own * 2, own[:1], []]
    return run._replace(budgets=dice.pick([wrong for wrong in lists if len(wrong) != run.rows]))


def listed(run):
    """The budgets as a list; of too many rows only some."""
    is_common = isinstance(run.budgets, int)
    return [run.budgets] * min(run.rows, MOST_ROWS) if is_common else run.budgets


def too_high(dice, run):
    """The common one, or some of the list, whatever its length; the rest of it often just good enough."""
    if isinstance(run.budgets, int) or not run.budgets:
        return run._replace(budgets=dice.pick(TOO_HIGH))
    count = len(run.budgets)
    budgets = own_budgets(dice, count, BESIDE) if dice.one_in(2) else list(run.budgets)
    one, other = dice.below(count), dice.below(count)
    for place in dice.pick(([0], [count - 1], [count // 2], [one], [one, other], [one, count - 1],
                            range(one, count))):
        budgets[place] = dice.pick(TOO_HIGH)
    return run._replace(budgets=budgets)
