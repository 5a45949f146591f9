"""Makes a request stream from a seed: python3 second/generate.py SEED COUNT > stream"""

import sys

import calls
from calls import MOST_ROUNDS
from dice import Dice
from faults import PLACES
from files import pages_of
from make_any import any_rule, small_rule
from make_budgets import HUGE
from make_damage import damaged_file, damaged_rule, overlong_rule
from make_finds import find_request
from make_orders import all_back, cyclic, great_cycle, mixed, own_goto, woven
from make_rules import stretched, with_dead
from make_runs import (endless, endless_beside, ends_late, ends_late_apart, full_batch,
                       overlong_carried, rows_all_back, run_request, sure_fault_run, sure_misordered_run,
                       with_budgets)
from orders import PLANS, kinds_behind
from refusal import Refusal
from rule import LONGEST_RULE, OPERATORS
from stream import COMPILE, LARGEST, OWN, READ, RUN, WRITE, Bytes, encode, numbers


def read_request(dice):
    file = pages_of(cyclic(dice)) if dice.one_in(6) else some_file(dice)
    return with_room(dice, READ, calls.read, file)


def write_request(dice):
    if dice.one_in(8):
        return with_room(dice, WRITE, calls.write, cyclic(dice))
    rule = some_rule(dice)
    if dice.one_in(60):
        rule = overlong_rule(dice, rule)
    if dice.one_in(2):
        rule = damaged_rule(dice, rule)
    return with_room(dice, WRITE, calls.write, rule)


def compile_request(dice):
    # Only a plan shows what became of dead blocks and of gotos back, and few other files get as far as one.
    make = dice.pick((with_dead, shuffled_dead, woven, woven, cyclic))
    file = pages_of(make(dice)) if dice.one_in(2) else some_file(dice)
    return with_room(dice, COMPILE, calls.compile, file)


def shuffled_dead(dice):
    return mixed(dice, with_dead(dice))


def some_rule(dice):
    """A good one, or one with a cycle, which shows only if nothing else is wrong."""
    return cyclic(dice) if dice.one_in(7) else any_rule(dice)


def some_file(dice):
    """A good file, one with a damaged rule in sound pages, or one with damaged pages."""
    rule = some_rule(dice)
    if dice.one_in(3):
        return pages_of(damaged_rule(dice, rule))
    file = pages_of(rule)
    return damaged_file(dice, file) if dice.one_in(2) else file


def with_room(dice, kind, call, data):
    """Just enough room mostly, for what is refused a little: the answer shows all of it."""
    try:
        size = call(data, bytearray(LARGEST))
    except Refusal as refusal:
        # A cycle is found late, so that only a roomy buffer shows that nothing was written before.
        return Bytes(kind, 700 if refusal.number == 16 and dice.one_in(12) else dice.below(9), data)
    if dice.one_in(200):
        return Bytes(kind, LARGEST, data)
    rooms = ((6, size), (2, size + dice.below(9)), (2, size - 1), (1, dice.below(size)), (1, 0))
    return Bytes(kind, dice.weighted(rooms), data)


def bad_tail(dice):
    """A request that ends the stream: cut short, of no known kind or kind of budgets, or too large."""
    whole = encode(dice.weighted(REQUESTS)(dice))
    too_large = numbers(WRITE, LARGEST + 1, 0)
    no_budgets = numbers(RUN, 0, 2, *[0] * 6)
    many_budgets = numbers(RUN, 0, OWN, LARGEST + 1, *[0] * (LARGEST + 6))
    return dice.pick((whole[:-1], whole[:3], whole[:4], numbers(0), numbers(6), too_large, no_budgets,
                      many_budgets))


def longest(kind):
    """A maker of requests on a rule of the greatest length, with room for whatever comes of it."""
    def make(dice):
        rule = stretched(dice, small_rule(dice), LONGEST_RULE)
        return Bytes(kind, 5000, rule if kind == WRITE else pages_of(rule))
    return make


def roomy(kind, make):
    """A maker of requests on a rule made so, with room for whatever comes of it."""
    return lambda dice: Bytes(kind, 1300, make(dice) if kind == WRITE else pages_of(make(dice)))


def sure_behind(number):
    """A maker of requests on a rule refused so before its cycle is looked at: tries until one is."""
    def make(dice):
        while True:
            rule = overlong_rule(dice, cyclic(dice)) if number == 11 else damaged_rule(dice, cyclic(dice))
            kind = WRITE if number == 11 else dice.pick((READ, WRITE, COMPILE))
            if refusal_of(rule) == number and kinds_behind(rule, number):
                return Bytes(kind, dice.below(9), rule if kind == WRITE else pages_of(rule))
    return make


def refusal_of(rule):
    """The number with which the writer refuses a rule; None for a good one."""
    try:
        calls.write(rule, bytearray(LARGEST))
    except Refusal as refusal:
        return refusal.number
    return None


# What chance might leave out of a stream comes at its start.
OPENING = (longest(READ), longest(WRITE), longest(COMPILE), full_batch, endless, endless_beside, ends_late,
           ends_late_apart, overlong_carried,
           *[with_budgets(0, budgets) for budgets in (0, HUGE, [], [0])],
           with_budgets(3, [MOST_ROUNDS, MOST_ROUNDS + 1, MOST_ROUNDS]), with_budgets(2, [1] * LARGEST),
           *[roomy(kind, make) for kind in (READ, WRITE, COMPILE)
             for make in (all_back, great_cycle, own_goto)],
           rows_all_back, rows_all_back, *[sure_misordered_run(kind) for kind in PLANS],
           *[sure_behind(number) for number in range(4, 12)],
           *[sure_fault_run(tag, place) for place in PLACES for tag in OPERATORS])
REQUESTS = ((3, read_request), (4, write_request), (3, compile_request), (9, run_request), (6, find_request))


def stream(seed, count):
    """Even seeds get a bad tail, as that cannot be tried more than once in a stream."""
    dice = Dice(seed)
    for turn in range(count):
        make = OPENING[turn] if turn < len(OPENING) else dice.weighted(REQUESTS)
        yield encode(make(dice))
    if seed % 2 == 0:
        yield bad_tail(dice)


def main():
    seed, count = map(int, sys.argv[1:])
    for request in stream(seed, count):
        sys.stdout.buffer.write(request)


if __name__ == "__main__":
    main()
