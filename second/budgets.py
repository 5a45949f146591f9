"""What budgets a run had, seen from outside the calls: kinds of runs accepted, and refused 13 and 14."""

from calls import MOST_LABELS, MOST_ROUNDS, MOST_ROWS, line_size, record_size
from direct import UNFINISHED
from plan import loop_width
from stream import LARGEST

LARGE = 1000
NEAR_WRAP = 2**32 - 2

COMMON = ("common budget", "common budget, no rows")
OWN = ("own budgets", "own budgets, no rows", "own budgets that differ", "own budget 0 beside a large one",
       "own budget 65535 used up", "own budget 65535 left over", "ended in the last round of its own",
       "ended before the last round of its own", "unfinished under more than an ended row's own",
       "most rounds not of the last row", "most rounds below the greatest own")
NUMBER = ("too few budgets", "too many budgets", "no budgets for rows", "budgets for no rows",
          "one budget for several rows", "as many budgets as can be asked for",
          "number of budgets wrong, one too high", "number of budgets wrong, quota too high")
VALUES = ("values wrong, common budget too high", "values wrong, own budget too high")
QUOTA = ("quota, common budget good", "quota, own budgets good", "quota, common budget too high",
         "quota, own budget of row 0 too high", "quota, own budget of a later row too high")
COMMON_HIGH = ("common budget", "common budget, no rows", "common budget 65536", "common budget near 2^32")
OWN_HIGH = ("own budget of the first of several rows", "own budget of a middle row",
            "own budget of the last of several rows", "own budget of one row alone",
            "own budgets of several rows", "own budget 65536 after 65535", "own budget near 2^32",
            "own budget, result too short", "own budget, working too short")
ACCEPTED, NOT_FITTING, TOO_HIGH = "run ok", "run refused 13", "run refused 14"
KINDS = [f"{reply}, {kind}" for reply, kinds in ((ACCEPTED, COMMON + OWN), (NOT_FITTING, NUMBER + VALUES),
                                                  (TOO_HIGH, QUOTA + COMMON_HIGH + OWN_HIGH))
         for kind in kinds]


def kinds_of_accepted(run, most_rounds, records):
    """Those of KINDS that an accepted run shows by its records."""
    if is_common(run):
        return named(ACCEPTED, COMMON, (True, run.rows == 0))
    own = run.budgets
    rows = [(budget, record[0], record[1]) for budget, record in zip(own, records)]
    ended = [(budget, rounds) for budget, status, rounds in rows if status != UNFINISHED]
    left = [budget for budget, status, _ in rows if status == UNFINISHED]
    return named(ACCEPTED, OWN, (
        True,
        not own,
        len(set(own)) > 1,
        0 in own and max(own) >= LARGE,
        any(budget == rounds == MOST_ROUNDS for budget, _, rounds in rows),
        any(budget == MOST_ROUNDS > rounds for budget, _, rounds in rows),
        any(budget == rounds for budget, rounds in ended),
        any(budget > rounds for budget, rounds in ended),
        any(budget > other for budget in left for other, _ in ended),
        rows and rows[-1][2] < most_rounds,
        most_rounds < max(own, default=0)))


def kinds_of_13(run):
    """Counts a run in which the number of budgets or that of values is the one thing to refuse so."""
    values_fit = len(run.values) == run.rows * run.plan[2]
    number_fits = is_common(run) or len(run.budgets) == run.rows
    if run.rows > MOST_ROWS or values_fit == number_fits:
        return []
    high = bool(places_too_high(run))
    if number_fits:
        return named(NOT_FITTING, VALUES, (high and is_common(run), high and not is_common(run)))
    count = len(run.budgets)
    return named(NOT_FITTING, NUMBER, (0 < count < run.rows, count > run.rows > 0, count == 0, run.rows == 0,
                                       count == 1 < run.rows, count == LARGEST, high,
                                       run.quota > MOST_LABELS))


def kinds_of_14(run, place):
    high, common = places_too_high(run), is_common(run)
    if run.quota > MOST_LABELS:
        return named(TOO_HIGH, QUOTA, (common and not high, not common and not high, common and high,
                                       not common and 0 in high, not common and high and 0 not in high))
    if common:
        return named(TOO_HIGH, COMMON_HIGH, (True, run.rows == 0, run.budgets == MOST_ROUNDS + 1,
                                             run.budgets >= NEAR_WRAP))
    budget, last = run.budgets[place], run.rows - 1
    after_limit = place > 0 and run.budgets[place - 1] == MOST_ROUNDS
    return named(TOO_HIGH, OWN_HIGH, (
        place == 0 < last,
        0 < place < last,
        0 < place == last,
        len(high) == 1,
        len(high) > 1,
        after_limit and budget == MOST_ROUNDS + 1,
        budget >= NEAR_WRAP,
        run.result_room < run.rows * record_size(run.quota),
        run.working_room < run.rows * line_size(loop_width(run.plan))))


def is_common(run):
    return isinstance(run.budgets, int)


def places_too_high(run):
    budgets = [run.budgets] if is_common(run) else run.budgets
    return [place for place, budget in enumerate(budgets) if budget > MOST_ROUNDS]


def named(reply, kinds, shown):
    return [f"{reply}, {kind}" for kind, is_there in zip(kinds, shown, strict=True) if is_there]
