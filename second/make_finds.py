"""Find requests: on the buffers of real runs, on those with a few words changed, and on junk."""

import calls
from calls import MOST_COLUMNS, MOST_LABELS, MOST_ROWS, line_size, record_size
from make_budgets import HUGE
from make_rules import number
from make_runs import WRAPS, ends_apart, fault_rows, few_rows
from stream import Find


def good_find(dice):
    """Asks for a row of a run just made."""
    make = dice.pick((few_rows, few_rows, fault_rows, ends_apart))
    run = make(dice)
    while run.rows == 0:
        run = make(dice)
    result, working = [0] * run.result_room, [0] * run.working_room
    calls.run(run.plan, run.rows, run.values, run.budgets, run.quota, result, working)
    columns = run.working_room // run.rows - line_size(0)
    return Find(run.rows, run.quota, columns, dice.below(run.rows), result, working)


def with_status(find, status):
    at = find.row * record_size(find.quota)
    return find._replace(result=find.result[:at] + [status] + find.result[at + 1:])


def with_line_number(find, line, number):
    at = line * line_size(find.columns)
    return find._replace(working=find.working[:at] + [number] + find.working[at + 1:])


def row_too_high(dice, find):
    return find._replace(row=dice.pick((find.rows, find.rows + 1, MOST_ROWS, 2**31, HUGE)))


def too_many_rows(dice, find):
    """One too many, with all its records there, and counts that wrap to nothing when multiplied."""
    if dice.one_in(3):
        return find._replace(rows=MOST_ROWS + 1, quota=0, result=[1] * (MOST_ROWS + 1) * record_size(0))
    return find._replace(rows=dice.pick((MOST_ROWS + 1, 2**30, 2**31, HUGE)))


def quota_too_high(dice, find):
    quota = dice.pick((MOST_LABELS + 1, 2**31, WRAPS, HUGE))
    enough = find.rows * record_size(quota)
    return find._replace(quota=quota, result=[1] * enough if enough < 200 else find.result)


def too_many_columns(dice, find):
    """Empty even for a row whose record would do."""
    return find._replace(columns=dice.pick((MOST_COLUMNS + 1, 2**31, 2**32 - line_size(0), HUGE)))


def short_result(dice, find):
    kept = len(find.result) - dice.pick((1, 1, dice.between(1, len(find.result))))
    return find._replace(result=find.result[:kept])


def old_result(dice, find):
    """As long as all records were before K4: a word too short for each row."""
    return find._replace(result=find.result[:find.rows * (record_size(find.quota) - 1)])


def old_lines(dice, find):
    """The last row, unfinished as all before it, with lines as before K10: without their third word."""
    size, lines = line_size(find.columns), []
    for row in range(find.rows):
        _, block, _, *columns = find.working[row * size:(row + 1) * size]
        lines += [row, block, *columns]
    return with_status(find._replace(row=find.rows - 1, working=lines), 0)


def no_rows(dice, find):
    return find._replace(rows=0, row=0)


def no_line(dice, find):
    """Unfinished, and its number on no line."""
    find = with_status(find, 0)
    for line in range(find.rows):
        find = with_line_number(find, line, dice.pick((-1, find.row + 256, find.row - 2**31, find.row + 1)))
    return find


def line_cut_off(dice, find):
    """The only line with the number is the last one, and not whole."""
    last = find.rows - 1
    find = with_line_number(no_line(dice, find), last, find.row)
    return find._replace(working=find.working[:-dice.between(1, line_size(find.columns))])


def short_working(dice, find):
    """Fewer lines than rows is no fault, as long as the one asked for is there."""
    return find._replace(working=find.working[:dice.below(len(find.working))])


def line_beyond_count(dice, find):
    """The number is on a whole line, but after as many lines as there are rows."""
    find = no_line(dice, find)
    return find._replace(working=find.working + [find.row] * line_size(find.columns))


def two_lines(dice, find):
    """The first of two lines with one number is the one to give."""
    lines = [dice.below(find.rows), dice.below(find.rows)]
    find = with_status(find, 0)
    for line in lines:
        find = with_line_number(find, line, find.row)
    return find


def odd_status(dice, find):
    """Any status but 0 gives the record, be there such a status or not."""
    return with_status(find, dice.pick((-1, 5, 256, 65536, -2**31, 2**31 - 1, number(dice))))


def other_columns(dice, find):
    """Lines read at another width than they were written."""
    return find._replace(columns=dice.between(0, MOST_COLUMNS))


def longer_buffers(dice, find):
    return find._replace(result=find.result + [7] * dice.below(5),
                         working=find.working + [find.row] * dice.below(5))


def junk(dice, find):
    few = [0, 0, 0, 1, 1, 2, 3, -1]
    return find._replace(quota=dice.below(3), columns=dice.below(4),
                         result=[dice.pick(few) for _ in range(len(find.result))],
                         working=[dice.pick(few) for _ in range(len(find.working))])


CHANGES = (row_too_high, too_many_rows, quota_too_high, too_many_columns, short_result, old_result, old_lines,
           no_rows, no_line, line_cut_off, short_working, line_beyond_count, two_lines, odd_status,
           other_columns, longer_buffers, junk)


def find_request(dice):
    find = good_find(dice)
    return find if dice.one_in(3) else dice.pick(CHANGES)(dice, find)
