"""Which variables each block takes in and hands on: the smallest sets that satisfy the rules."""

from typing import NamedTuple

from rule import GOTO, JUMP, SET, VARIABLE


class Columns(NamedTuple):
    inputs: list  # a set of variables for each block
    outputs: list
    jump_targets: set  # J: the blocks at which a round can start
    loop: set  # LC: the columns of the LOOP table


def columns(rule):
    return columns_counting(rule, living_blocks(rule))


def living_blocks(rule):
    """Block 0, and every block that a chain of gotos and jumps in endings leads to from it."""
    living, unseen = {0}, [0]
    while unseen:
        new = named(rule.blocks[unseen.pop()].ending, (GOTO, JUMP)) - living
        living |= new
        unseen += new
    return living


def columns_counting(rule, counted):
    """The sets when only these blocks bring in what they read and name; the others stay empty."""
    targets = named_by_endings(rule, counted, (GOTO, JUMP))
    jump_targets = {0}.union(*named_by_endings(rule, counted, (JUMP,)))
    free = [free_variables(block) if b in counted else set() for b, block in enumerate(rule.blocks)]
    bound = [{statement[1] for statement in block.statements if statement[0] == SET}
             for block in rule.blocks]
    inputs = [set(names) for names in free]
    # The sets only grow, and only by what they must hold: where they come to rest is the smallest.
    while True:
        outputs = [set().union(*[inputs[target] for target in names]) for names in targets]
        grown = [free[b] | (outputs[b] - bound[b]) for b in range(len(free))]
        loop = set().union(*[grown[b] for b in jump_targets])
        for b in jump_targets:
            grown[b] = loop
        if grown == inputs:
            return Columns(inputs, outputs, jump_targets, loop)
        inputs = grown


def named_by_endings(rule, counted, tags):
    """For each block the blocks its ending names behind those tags."""
    return [named(block.ending, tags) if b in counted else set() for b, block in enumerate(rule.blocks)]


def free_variables(block):
    """Variables read before the block has set them on the way."""
    free, already_set = set(), set()
    for statement in block.statements:
        # Reading goes before setting, within one statement too.
        free |= named(statement, (VARIABLE,)) - already_set
        if statement[0] == SET:
            already_set.add(statement[1])
    return free | (named(block.ending, (VARIABLE,)) - already_set)


def named(node, tags):
    """The numbers behind those tags (all with one number), anywhere in the node."""
    if node[0] in tags:
        return {node[1]}
    return set().union(*[named(part, tags) for part in node[1:] if isinstance(part, tuple)])
