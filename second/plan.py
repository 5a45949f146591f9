"""Plans: compiling a rule to its bytes, and telling a plan from anything else."""

import struct

from columns import columns
from gotos import evaluation_order, goes_back
from refusal import Refusal
from rule import HEADER_SIZE, LONGEST_RULE, parse

LOOP_MASK_SIZE = 2
ENTRY_SIZE = 8  # offset, inputs, outputs, in J: for each block


def compile_rule(rule):
    """The plan of a rule, or the refusal of its grammar."""
    tree = parse(rule)
    return plan_of(rule, tree, columns(tree))


def plan_of(rule, tree, found):
    order = bytes(evaluation_order(tree.gotos)) if goes_back(tree.gotos) else b""
    return assembled(rule, tree, found, order, body_offset(len(tree.blocks)) + len(order))


def assembled(rule, tree, found, order, body_at):
    """The parts of a plan put together, whether or not that order and that offset belong to it."""
    plan = rule[:HEADER_SIZE] + struct.pack("<H", mask(found.loop))
    for number, block in enumerate(tree.blocks):
        plan += struct.pack("<HHHH", body_at + block.start - HEADER_SIZE, mask(found.inputs[number]),
                            mask(found.outputs[number]), number in found.jump_targets)
    return plan + order + rule[HEADER_SIZE:]


def accept(plan):
    """The tree and the loop columns of a plan; the rule it carries decides, by compiling anew.

    Both places in which that rule may begin are tried: which one it was shows in what it compiles to.
    """
    for order_bytes in (0, block_count(plan)):
        rule = rule_behind(plan, order_bytes)
        try:
            tree = parse(rule)
        except Refusal:
            continue
        found = columns(tree)
        if len(rule) <= LONGEST_RULE and plan == plan_of(rule, tree, found):
            return tree, sorted(found.loop)
    raise Refusal(15, 0)


def rule_behind(plan, order_bytes):
    """What would be the rule if that many order bytes stood before it, of a plan or anything else."""
    return plan[:HEADER_SIZE] + plan[body_offset(block_count(plan)) + order_bytes:]


def carried_rule(plan):
    """The rule in a plan, by where its first entry says that it begins."""
    blocks = block_count(plan)
    first_body = int.from_bytes(plan[body_offset(0):body_offset(0) + 2], "little")
    return rule_behind(plan, blocks if first_body == body_offset(blocks) + blocks else 0)


def block_count(plan):
    return plan[3] if len(plan) >= HEADER_SIZE else 0


def loop_width(plan):
    """How many columns a plan's lines have, by the mask it begins with."""
    return int.from_bytes(plan[HEADER_SIZE:HEADER_SIZE + LOOP_MASK_SIZE], "little").bit_count()


def body_offset(blocks):
    """Where the body would begin without order bytes."""
    return HEADER_SIZE + LOOP_MASK_SIZE + ENTRY_SIZE * blocks


def mask(variables):
    return sum(1 << variable for variable in variables)
