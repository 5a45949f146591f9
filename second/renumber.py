"""A good rule's blocks under other numbers, with all that name them."""

import build
from rule import PARTS, parse


def renumbered(rule, numbers):
    """The rule in which each block b has the number numbers[b]."""
    tree = parse(rule)
    bodies = [b""] * len(numbers)
    for block, number in zip(tree.blocks, numbers, strict=True):
        bodies[number] = b"".join(written(node, numbers) for node in (*block.statements, block.ending))
    return build.rule(tree.variables, tree.arguments, bodies)


def written(node, numbers):
    tag, *parts = node
    return bytes([tag]) + b"".join(written_part(kind, part, numbers) for kind, part in zip(PARTS[tag], parts))


def written_part(kind, part, numbers):
    if kind == "own offset":
        return b""
    if kind == "constant":
        return part.to_bytes(4, "little", signed=True)
    if kind == "variable":
        return bytes([part])
    return bytes([numbers[part]]) if kind in ("goto target", "block") else written(part, numbers)
