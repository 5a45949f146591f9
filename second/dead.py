"""Dead blocks, seen from outside the calls: what kinds a rule has, and its plan from before K3."""

from columns import columns, columns_counting, living_blocks, named
from plan import plan_of
from rule import GOTO, JUMP, parse

# What dead blocks a rule has, and what they no longer do: jump to a living block that nothing else jumps
# to, widen the lines, or change no more than the masks in their own entries.
KINDS = ("dead block", "dead chain", "dead into living", "dead cycle", "out of J", "narrower", "masks alone")


def old_columns(tree):
    """The sets of document 01 before K3, in which every block counts."""
    return columns_counting(tree, range(len(tree.blocks)))


def old_plan(rule):
    tree = parse(rule)
    return plan_of(rule, tree, old_columns(tree))


def dead_kinds(rule):
    """Those of KINDS that a good rule shows; none if all its blocks are living."""
    tree = parse(rule)
    living = living_blocks(tree)
    dead = set(range(len(tree.blocks))) - living
    targets = {b: named(tree.blocks[b].ending, (GOTO, JUMP)) for b in dead}
    before, now = old_columns(tree), columns(tree)
    shown = (dead,
             any(targets[b] & dead - {b} for b in dead),
             any(targets[b] & living for b in dead),
             has_cycle(targets),
             before.jump_targets & living - now.jump_targets,
             before.loop - now.loop,
             before != now and before.jump_targets == now.jump_targets and before.loop == now.loop)
    return [kind for kind, is_there in zip(KINDS, shown) if is_there]


def has_cycle(targets):
    """Takes away the blocks that lead to none of the rest, again and again; what stays holds a cycle."""
    left = set(targets)
    while ends := {b for b in left if not targets[b] & left}:
        left -= ends
    return bool(left)
