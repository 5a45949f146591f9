"""What the gotos of a rule form, each block's given as the set of blocks they name: cycles, or an order."""


def lowest_on_cycle(gotos):
    """The lowest block from which a path of gotos leads back to it; None if there is none."""
    for start in range(len(gotos)):
        if comes_back(gotos, start, start, set()):
            return start
    return None


def comes_back(gotos, start, here, passed):
    """Whether a path goes on from here to start over higher blocks, none of which was passed before.

    Higher ones do: a path back over a lower block would have been found from that one.
    """
    for target in sorted(gotos[here]):
        if target == start:
            return True
        if target > start and target not in passed:
            passed.add(target)
            if comes_back(gotos, start, target, passed):
                return True
    return False


def goes_back(gotos):
    return any(target < block for block, targets in enumerate(gotos) for target in targets)


def evaluation_order(gotos):
    """All blocks, each after those whose gotos name it; the lowest first among those that may come."""
    order = []
    while len(order) < len(gotos):
        left = [block for block in range(len(gotos)) if block not in order]
        awaited = set().union(*[gotos[block] for block in left])
        order.append(next(block for block in left if block not in awaited))
    return order
