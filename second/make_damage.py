"""Rules, files and plans gone wrong, each in a way that some reply number is there for.

Now and then a damage does no harm; then the answer is simply that of a good one.
"""

import struct

import build
from files import CHECK_AT, PAGE_SIZE, PAYLOAD_AT, PAYLOAD_SIZE, pages_of, sealed
from gotos import goes_back
from make_rules import (ENDING_LEVELS, VALUE_LEVELS, Place, condition, deep_condition, deep_ending,
                        deep_expression, expression, stretched)
from plan import ENTRY_SIZE, body_offset, carried_rule, compile_rule
from refusal import Refusal
from rule import HEADER_SIZE, LONGEST_RULE, parse, tree_of

# The bytes next to the four runs of tags, where a careless comparison lets one through.
NEAR_TAGS = (0x00, 0x0A, 0x0F, 0x15, 0x1F, 0x22, 0x2F, 0x34, 0xFF)


def changed(dice, data):
    at = dice.below(len(data))
    return replaced(data, at, data[at] ^ dice.between(1, 255))


def replaced(data, at, byte):
    return data[:at] + bytes([byte]) + data[at + 1:]


def cut(dice, data):
    return data[:dice.below(len(data))]


def inserted(dice, data):
    at = dice.below(len(data) + 1)
    return data[:at] + bytes([dice.below(256)]) + data[at:]


def removed(dice, data):
    at = dice.below(len(data))
    return data[:at] + data[at + 1:]


def lengthened(dice, data):
    return data + bytes(dice.below(256) for _ in range(dice.between(1, 3)))


def bad_header(dice, rule):
    """One header value just outside its limits or far off; a second one now and then."""
    bad = ((0, 2, 255), (0, 17, 255), (min(rule[1] + 1, 255), 255), (0, 65, 255))
    at = dice.below(HEADER_SIZE)
    rule = replaced(rule, at, dice.pick(bad[at]))
    return bad_header(dice, rule) if dice.one_in(4) else rule


def fewer_variables(dice, rule):
    """Leaves the rule naming variables it no longer has."""
    least = max(rule[2], 1)
    return replaced(rule, 1, dice.between(least, max(least, rule[1] - 1)))


def other_block_count(dice, rule):
    return replaced(rule, 3, dice.between(1, 64))


def bad_block(dice, rule):
    """The rule with one more block, and that one wrong."""
    block, blocks = min(rule[3], 63), min(rule[3] + 1, 64)
    place = Place(rule[1], block, blocks)
    make = dice.pick((bad_variable, bad_target, bad_depth, bad_tag))
    return replaced(rule, 3, blocks) + make(dice, place) + build.stop()


def bad_variable(dice, place):
    index = dice.pick((place.variables, place.variables + 1, 255))
    fine = expression(dice, place, 3)
    return dice.pick((build.emit(build.add(fine, build.variable(index))), build.assign(index, fine),
                      build.choose(build.less(build.variable(index), fine), build.stop(), build.stop())))


def bad_target(dice, place):
    """A number with no block, or a goto to its own block, which is a cycle."""
    ending = dice.pick((build.goto(place.blocks), build.goto(place.blocks), build.goto(255),
                        build.jump(place.blocks), build.jump(255), build.goto(place.block)))
    if dice.one_in(2):
        return ending
    return build.choose(condition(dice, place, 3), build.stop(), ending)


def bad_depth(dice, place):
    """A value or an ending that is too deep."""
    # With one level more the tag too deep is an expression's; a condition has one below itself.
    too_deep = VALUE_LEVELS + dice.between(1, 2)
    return dice.pick((lambda: build.emit(deep_expression(dice, place, too_deep)),
                      lambda: build.assign(0, deep_expression(dice, place, too_deep)),
                      lambda: build.choose(deep_condition(dice, place, too_deep)),
                      lambda: deep_ending(dice, place, ENDING_LEVELS + 1)))()


def bad_tag(dice, place):
    """A tag that is none, or one of another kind than is due."""
    none, fine = bytes([dice.pick(NEAR_TAGS)]), expression(dice, place, 2)
    question = condition(dice, place, 2)
    return dice.pick((none, build.emit(none), build.emit(build.add(fine, none)), build.choose(none),
                      build.emit(question), build.choose(fine), build.emit(build.negate(build.stop())),
                      build.choose(question, build.emit(fine)), build.choose(question, none),
                      build.emit(build.case(fine)), fine, question))


def worse_at_the_place(dice, rule):
    """For a rule already refused: the end, or any other byte, at the very place of the refusal."""
    try:
        parse(rule)
    except Refusal as refusal:
        if HEADER_SIZE <= refusal.place < len(rule):
            if dice.one_in(2):
                return rule[:refusal.place]
            return replaced(rule, refusal.place, dice.pick(NEAR_TAGS))
    return rule


RULE_DAMAGES = ((2, changed), (2, cut), (1, inserted), (1, removed), (2, lengthened), (2, bad_header),
                (1, fewer_variables), (1, other_block_count), (8, bad_block))


def damaged_rule(dice, rule):
    rule = dice.weighted(RULE_DAMAGES)(dice, rule)
    return worse_at_the_place(dice, rule) if dice.one_in(3) else rule


def overlong_rule(dice, rule):
    """One that only its length speaks against."""
    return stretched(dice, rule, dice.pick((LONGEST_RULE + 1, LONGEST_RULE + 2, LONGEST_RULE + 300)))


def with_page(file, number, page):
    return file[:number * PAGE_SIZE] + page + file[(number + 1) * PAGE_SIZE:]


def pick_page(dice, file):
    number = dice.below(len(file) // PAGE_SIZE)
    return number, file[number * PAGE_SIZE:(number + 1) * PAGE_SIZE]


def bad_check(dice, file):
    """A byte changed and the check left as it was, or the check itself changed."""
    number, page = pick_page(dice, file)
    at = dice.pick((CHECK_AT, CHECK_AT + 1, 0, CHECK_AT - 1, dice.below(PAGE_SIZE)))
    return with_page(file, number, replaced(page, at, page[at] ^ dice.between(1, 255)))


def bad_length(dice, file):
    """A payload length that does not fit, under a check that does."""
    number, page = pick_page(dice, file)
    length = int.from_bytes(page[:PAYLOAD_AT], "little")
    wrong = dice.pick((0, PAYLOAD_SIZE - 1, PAYLOAD_SIZE + 1, PAYLOAD_SIZE + 2, 65535, max(length - 1, 0),
                       length + 256, length + 1))
    page = (wrong % 2**16).to_bytes(2, "little") + page[PAYLOAD_AT:]
    return with_page(file, number, sealed(page, number))


def bad_filler(dice, file):
    """A byte after the payload of the last page; its last one is easily forgotten."""
    number = len(file) // PAGE_SIZE - 1
    page = file[number * PAGE_SIZE:]
    first = PAYLOAD_AT + int.from_bytes(page[:PAYLOAD_AT], "little")
    if first >= CHECK_AT:
        return bad_length(dice, file)
    at = dice.pick((first, CHECK_AT - 1, dice.between(first, CHECK_AT - 1)))
    return with_page(file, number, sealed(replaced(page, at, dice.between(1, 255)), number))


def bad_size(dice, file):
    return dice.pick((b"", file[:-1], file[:dice.below(len(file))], file + b"\0",
                      file + bytes(PAGE_SIZE - 1)))


def empty_page(dice, file):
    """A last page with nothing in it, in place of the last one or after it."""
    kept = dice.pick((file, file[:-PAGE_SIZE]))
    empty = bytes(PAGE_SIZE)
    return kept + dice.pick((empty, sealed(empty, len(kept) // PAGE_SIZE)))


def other_order(dice, file):
    """The first page last; its check holds its number."""
    return file[PAGE_SIZE:] + file[:PAGE_SIZE]


def nine_pages(dice, file):
    return pages_of(bytes(PAYLOAD_SIZE * 8 + 1))


FILE_DAMAGES = ((6, bad_check), (6, bad_length), (6, bad_filler), (3, bad_size), (3, empty_page),
                (2, other_order))


def damaged_file(dice, file):
    if dice.one_in(60):
        return nine_pages(dice, file)
    file = dice.weighted(FILE_DAMAGES)(dice, file)
    whole = file and len(file) % PAGE_SIZE == 0
    return damaged_file(dice, file) if whole and dice.one_in(4) else file


def bad_loop_mask(dice, plan):
    return flipped(plan, HEADER_SIZE, 1 << dice.below(16))


def bad_entry(dice, plan):
    """One number of one block's entry: offset, inputs, outputs or the flag."""
    # A plan of that many blocks would have its body where this one has the entry.
    entry_at = body_offset(dice.below(plan[3]))
    field = dice.below(ENTRY_SIZE // 2)
    return flipped(plan, entry_at + 2 * field, 1 << dice.pick((0, dice.below(16), dice.below(16))))


def flipped(plan, at, bits):
    (number,) = struct.unpack_from("<H", plan, at)
    return plan[:at] + struct.pack("<H", number ^ bits) + plan[at + 2:]


def bad_body(dice, plan):
    at = dice.between(body_offset(plan[3]), len(plan) - 1)
    return replaced(plan, at, dice.below(256))


def bad_order(dice, plan):
    """Two order bytes in each other's place, often neighbours, or one changed; of other plans the body."""
    at, count = body_offset(plan[3]), plan[3]
    if not goes_back(tree_of(carried_rule(plan)).gotos):
        return bad_body(dice, plan)
    if dice.one_in(4):
        byte = dice.pick((0, count - 1, count, 255, dice.below(count)))
        return replaced(plan, at + dice.below(count), byte)
    first, step = dice.below(count - 1), dice.pick((1, 1, 1, dice.between(1, count - 1)))
    other = at + min(first + step, count - 1)
    return replaced(replaced(plan, at + first, plan[other]), other, plan[at + first])


def bad_plan_header(dice, plan):
    return replaced(plan, dice.below(HEADER_SIZE), dice.pick((0, 1, 2, 16, 17, 64, 65, 255)))


def short_plan(dice, plan):
    """Cut anywhere, with the ends of its parts among the places."""
    body_at = body_offset(plan[3])
    return plan[:dice.pick((0, 3, 4, 5, 6, body_at - 1, body_at, body_at + plan[3], len(plan) - 1,
                            dice.below(len(plan))))]


def overlong_plan(dice, plan):
    """Right in all but the length of the rule it carries."""
    return compile_rule(overlong_rule(dice, carried_rule(plan)))


PLAN_DAMAGES = ((4, bad_loop_mask), (10, bad_entry), (4, bad_body), (8, bad_order), (2, bad_plan_header),
                (3, short_plan), (2, lengthened))


def damaged_plan(dice, plan):
    if dice.one_in(50):
        return overlong_plan(dice, plan)
    return dice.weighted(PLAN_DAMAGES)(dice, plan)
