"""Run requests: good ones, and good ones with one or two things put wrong."""

from calls import MOST_COLUMNS, MOST_LABELS, MOST_ROUNDS, MOST_ROWS, line_size, record_size
from dead import old_plan
from direct import LEAST, run_row
from faults import fault_at
from make_budgets import HUGE, listed, own_budgets, some_budgets, too_high, wrong_number
from make_any import any_rule, small_rule
from make_damage import bad_order, damaged_plan, overlong_plan
from make_faults import SURE, faulting, row_fault, sure_fault
from make_orders import all_back, cyclic, mixed, woven
from make_rules import CORNERS, corner_sums, forever, number, tick, with_dead
from orders import kinds_of_plan, wrong_plans
from plan import accept, carried_rule, compile_rule
from rule import parse
from stream import Run

WRAPS = 2**32 - record_size(0)  # a quota whose records would have a size that wraps to nothing


def good_run(dice):
    """Few rows and rounds mostly; the large kinds are rare, as they are long in stream and time."""
    make = dice.weighted(((100, few_rows), (30, corner_rows), (70, fault_rows), (20, ends_apart),
                          (80, woven_rows), (4, rows_all_back), (4, full_batch), (1, endless),
                          (1, endless_beside), (1, ends_late)))
    return make(dice)


def few_rows(dice):
    return few_rows_of(dice, any_rule(dice))


def few_rows_of(dice, rule):
    rows = dice.pick((0, 1, 1, 2, 3, 4, 5, 6))
    budgets = some_budgets(dice, rows, (0, 1, 2, 2, 3, 4, 6, 9, 13, 40))
    return roomy_run(dice, rule, rows, budgets, some_values(dice, rows * rule[2]))


def woven_rows(dice):
    return few_rows_of(dice, woven(dice))


def rows_all_back(dice):
    return few_rows_of(dice, all_back(dice))


def corner_rows(dice):
    rows = dice.between(1, 8)
    budgets = some_budgets(dice, rows, (1,))
    return roomy_run(dice, corner_sums(dice), rows, budgets, corner_pairs(dice, rows))


def fault_rows(dice):
    return fault_rows_of(dice, dice.pick((row_fault, sure_fault))(dice))


def fault_rows_of(dice, fault):
    rows = dice.between(1, 6)
    budgets = some_budgets(dice, rows, (1, 2, 3, 4, 5))
    rule = faulting(dice, fault)
    rule = mixed(dice, rule) if dice.one_in(3) else rule
    return roomy_run(dice, rule, rows, budgets, corner_pairs(dice, rows))


def sure_fault_run(tag, place):
    """A maker of runs whose first row faults by this tag in this kind of place: tries until one does."""
    def make(dice):
        while True:
            run = fault_rows_of(dice, dice.pick(SURE[tag]))
            tree = parse(carried_rule(run.plan))
            outcome = run_row(tree, run.values[:tree.arguments], listed(run)[0], run.quota)
            fault = fault_at(tree, outcome.fault_offset, outcome.rounds)
            if fault and fault.tag == tag and place in fault.places:
                return run
    return make


def corner_pairs(dice, rows):
    """Any two corner values for each row, and often the two pairs that division is known for."""
    values = []
    for _ in range(rows):
        pair = (dice.pick(CORNERS), dice.pick(CORNERS))
        values += dice.pick((pair, pair, (LEAST, -1), (dice.pick(CORNERS), 0)))
    return values


def full_batch(dice):
    rule = small_rule(dice)
    rows = dice.pick((MOST_ROWS, MOST_ROWS, 100))
    budgets = some_budgets(dice, rows, (0, 1, 2, 7))
    return roomy_run(dice, rule, rows, budgets, some_values(dice, rows * rule[2]))


def endless(dice):
    """The greatest budget, and a loop that uses it up."""
    rule = forever(dice)
    return roomy_run(dice, rule, 1, MOST_ROUNDS, [dice.between(0, 9) for _ in range(rule[2])])


def endless_beside(dice):
    """The same for one row, with others that have little to spend or nothing."""
    rule, budgets = forever(dice), [0, 3, MOST_ROUNDS, 0]
    return roomy_run(dice, rule, 4, budgets, [dice.between(0, 9) for _ in range(4 * rule[2])])


def ends_apart(dice):
    """Each row with a budget of its own, that is just enough, one too small, or far too large or small."""
    rows = dice.between(2, 7)
    values = [dice.between(0, 30) for _ in range(rows)]
    budgets = [dice.pick((value, value + 1, value + 1, value + 2, 0, 0, MOST_ROUNDS - 1, MOST_ROUNDS))
               for value in values]
    return roomy_run(dice, tick(dice), rows, budgets, values)


def ends_late(dice):
    """The greatest budget, and rows that end in its last round, one too late, and early."""
    return roomy_run(dice, tick(dice), 3, MOST_ROUNDS, [MOST_ROUNDS - 1, MOST_ROUNDS, dice.between(0, 9)])


def ends_late_apart(dice):
    """The two greatest budgets, and rows that end just within them and just not."""
    budgets = [MOST_ROUNDS, MOST_ROUNDS - 1, MOST_ROUNDS, MOST_ROUNDS, 0]
    values = [MOST_ROUNDS - 1, MOST_ROUNDS - 1, MOST_ROUNDS, 0, 0]
    return roomy_run(dice, tick(dice), len(budgets), budgets, values)


def with_budgets(rows, budgets):
    """A maker of runs with just these."""
    return lambda dice: roomy_run(dice, tick(dice), rows, budgets, some_values(dice, rows))


def old_run(dice):
    """A plan from before K3, with room for the widest lines, so that nothing else speaks against it."""
    rule = with_dead(dice)
    run = few_rows_of(dice, mixed(dice, rule) if dice.one_in(3) else rule)
    return run._replace(plan=old_plan(carried_rule(run.plan)),
                        working_room=run.rows * line_size(MOST_COLUMNS))


def misordered_run(dice):
    """A plan wrong in its order bytes alone, or of a rule with a cycle, with room for the widest lines."""
    rows, make = dice.below(4), dice.pick((cyclic, woven, woven, woven, any_rule))
    rule = make(dice)
    if make == woven and dice.one_in(4):
        plan = bad_order(dice, compile_rule(rule))
    else:
        plan = dice.pick(list(wrong_plans(rule).values()))
    return Run(rows, dice.pick((0, 1, 5)), 2, rows * record_size(2), rows * line_size(MOST_COLUMNS), plan,
               some_values(dice, rows * rule[2]))


def sure_misordered_run(kind):
    """A maker of runs with a plan that is wrong in this way: tries until one is."""
    def make(dice):
        while True:
            run = misordered_run(dice)
            if f"run refused 15, {kind}" in kinds_of_plan(run.plan):
                return run
    return make


def overlong_carried(dice):
    run = few_rows(dice)
    return run._replace(plan=overlong_plan(dice, run.plan))


def some_values(dice, count):
    """Small numbers, as the count-downs need, among all others."""
    return [number(dice) if dice.one_in(3) else dice.between(-2, 12) for _ in range(count)]


def roomy_run(dice, rule, rows, budgets, values):
    """A run with exactly the room it needs."""
    plan, quota = compile_rule(rule), dice.pick((0, 1, 2, 3, 4, 5, 16))
    _, loop = accept(plan)
    return Run(rows, budgets, quota, rows * record_size(quota), rows * line_size(len(loop)), plan, values)


def too_many_rows(dice, run):
    """With values and budgets that fit, and that do not; products that wrap to 0 are the cunning ones."""
    arguments = run.plan[2]
    rows = dice.pick((MOST_ROWS + 1, MOST_ROWS + 1, 300, HUGE, 2**31, 2**30, 2**28))
    fitting = rows * arguments % 2**32
    run = run._replace(rows=rows, values=[1] * fitting if fitting < 600 else run.values)
    return run if isinstance(run.budgets, int) or rows > 300 else run._replace(budgets=[1] * rows)


def wrong_values(dice, run):
    return run._replace(values=dice.pick((run.values + [0], run.values[:-1], [], run.values * 2)))


def quota_too_high(dice, run):
    return run._replace(quota=dice.pick((MOST_LABELS + 1, 2**31, WRAPS, HUGE)))


def small_result(dice, run):
    # One word less for each row is what records took before K4.
    missing = dice.pick((1, 1, 2, run.rows, run.rows, run.result_room))
    return run._replace(result_room=max(run.result_room - missing, 0))


def small_working(dice, run):
    # One word less for each row is what lines took before K10.
    missing = dice.pick((1, 1, 2, run.rows, run.rows, run.working_room))
    return run._replace(working_room=max(run.working_room - missing, 0))


def more_room(dice, run):
    """No fault at all: shows that the words beyond stay as they are."""
    return run._replace(result_room=run.result_room + dice.below(4),
                         working_room=run.working_room + dice.below(4))


def bad_plan(dice, run):
    return run._replace(plan=damaged_plan(dice, run.plan))


WRONGS = (too_many_rows, wrong_values, wrong_number, too_high, quota_too_high, small_result, small_working,
          bad_plan)
BESIDE_BUDGETS = (wrong_values, wrong_values, quota_too_high, quota_too_high, small_result, small_working,
                  bad_plan)


def wrong_budgets(dice):
    """Budgets put wrong, mostly a few rows' own, alone or with something that goes before it or after."""
    rule, rows = any_rule(dice), dice.pick((0, 1, 2, 3, 3, 4, 5, 6))
    choices = (0, 1, 2, MOST_ROUNDS)
    budgets = dice.pick(choices) if dice.one_in(5) else own_budgets(dice, rows, choices)
    run = roomy_run(dice, rule, rows, budgets, some_values(dice, rows * rule[2]))
    for wrong in dice.pick(((wrong_number,), (too_high,), (too_high,), (wrong_number, too_high))):
        run = wrong(dice, run)
    return dice.pick(BESIDE_BUDGETS)(dice, run) if dice.one_in(2) else run


def run_request(dice):
    """Two wrongs at once show which of them is answered."""
    if dice.one_in(5):
        return wrong_budgets(dice)
    if dice.one_in(7):
        return misordered_run(dice)
    run = old_run(dice) if dice.one_in(12) else good_run(dice)
    if dice.one_in(2):
        return more_room(dice, run) if dice.one_in(2) else run
    # The plan goes last, as the others look into it.
    chosen = sorted({dice.below(len(WRONGS)) for _ in range(dice.pick((1, 1, 2)))})
    for wrong in chosen:
        run = WRONGS[wrong](dice, run)
    return run
