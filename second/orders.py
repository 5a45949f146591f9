"""Gotos in any order, seen from outside the calls: kinds of good rules and of cycles, and plans gone wrong in
their order bytes."""

from columns import columns, living_blocks, named
from direct import UNFINISHED
from gotos import evaluation_order, goes_back, lowest_on_cycle
from plan import assembled, body_offset, plan_of, rule_behind
from refusal import Refusal
from rule import HEADER_SIZE, IF, JUMP, Reader, check_header, tree_of

MOST_BLOCKS = 64

BACK = "a goto back"
GOOD = (BACK, "a living goto back", "a goto back to block 0", "a goto back in an arm",
        "dead gotos back alone", "ways that part and meet", "a cycle closed by a jump",
        "64 blocks, 62 going back by one",
        "first ready first differs", "layers differ", "dead gotos uncounted differ", "jumps counted differ")
CYCLES = ("of 1 block", "of 2 blocks", "of 3 blocks", "of more blocks", "of 63 or 64 blocks", "several apart",
          "not with block 0", "a lower block leads to it", "a lower block between two", "dead blocks alone",
          "living blocks alone", "in an arm", "in a whole ending")
BEHIND = [f"refused {number}, a cycle in the rest" for number in range(4, 12)]
RUNS = [f"run ok, {BACK}, {shown}" for shown in ("status 0", "status 1", "status 2", "status 3", "status 4",
                                                "common budget", "own budgets", "budget 0", "later round",
                                                "quota 0", "quota 16", "labels before a fault")]
NO_ORDER, NOT_DUE, IN_TURN = "order bytes left out", "order bytes where none belong", "by number"
WITHOUT_OFFSETS, WITH_OFFSETS = "offsets that leave them out", "left out, offsets that count them"
SWAPPED, FITTING = "two swapped", "another order that respects the gotos"
PLANS = (NO_ORDER, NOT_DUE, IN_TURN, WITHOUT_OFFSETS, WITH_OFFSETS, SWAPPED, FITTING, "backwards",
         "first ready first", "layers", "dead gotos uncounted", "jumps counted", "first missing",
         "last missing", "last missing, offsets fit", "one more before", "one more after",
         "one more after, offsets fit",
         "cycle, no order bytes", "cycle, by number", "cycle, what can be ordered first")


def reach(ways, start):
    """All blocks that ways lead to from the start, in one step or more."""
    found, unseen = set(), [start]
    while unseen:
        new = ways[unseen.pop()] - found
        found |= new
        unseen += new
    return found


def queued_order(gotos):
    """First ready first, in place of lowest first."""
    awaited = [sum(block in targets for targets in gotos) for block in range(len(gotos))]
    order = [block for block in range(len(gotos)) if not awaited[block]]
    for block in order:  # grows on the way
        for target in sorted(gotos[block]):
            awaited[target] -= 1
            if not awaited[target]:
                order.append(target)
    return order


def layered_order(gotos):
    """All that are ready at once, then all that have become so."""
    order = []
    while left := [block for block in range(len(gotos)) if block not in order]:
        awaited = set().union(*[gotos[block] for block in left])
        order += [block for block in left if block not in awaited]
    return order


def living_gotos(tree):
    living = living_blocks(tree)
    return [targets if block in living else set() for block, targets in enumerate(tree.gotos)]


def all_ways(tree):
    return [targets | named(block.ending, (JUMP,)) for block, targets in zip(tree.blocks, tree.gotos)]


def other_orders(tree):
    """Orders that a good rule might be given by mistake."""
    orders = {IN_TURN: range(len(tree.blocks)), "backwards": evaluation_order(tree.gotos)[::-1],
              "first ready first": queued_order(tree.gotos), "layers": layered_order(tree.gotos),
              "dead gotos uncounted": evaluation_order(living_gotos(tree))}
    if lowest_on_cycle(all_ways(tree)) is None:
        orders["jumps counted"] = evaluation_order(all_ways(tree))
    return {kind: bytes(order) for kind, order in orders.items()}


def wrong_plans(rule):
    """By kind, plans of a rule that are wrong in the order bytes or the offsets alone."""
    tree = tree_of(rule)
    found, plain_at = columns(tree), body_offset(len(tree.blocks))
    plans = cyclic_orders(tree) if lowest_on_cycle(tree.gotos) is not None else mistaken_orders(tree)
    return {kind: assembled(rule, tree, found, order, plain_at + counted)
            for kind, (order, counted) in plans.items()}


def cyclic_orders(tree):
    """For a rule with a cycle, which has no plan: order bytes, and how many of them the offsets count."""
    count, first = len(tree.blocks), []
    while ready := [b for b in range(count) if b not in first
                    and not any(b in tree.gotos[other] for other in range(count) if other not in first)]:
        first.append(ready[0])
    rest = [block for block in range(count) if block not in first]
    return {"cycle, no order bytes": (b"", 0), "cycle, by number": (bytes(range(count)), count),
            "cycle, what can be ordered first": (bytes(first + rest), count)}


def mistaken_orders(tree):
    """The same for a rule that has a plan."""
    right, count = bytes(evaluation_order(tree.gotos)), len(tree.blocks)
    if not goes_back(tree.gotos):
        return {NOT_DUE: (right, count)}
    orders = {kind: (order, count) for kind, order in other_orders(tree).items() if order != right}
    return orders | {
        NO_ORDER: (b"", 0), WITHOUT_OFFSETS: (right, 0), WITH_OFFSETS: (b"", count),
        "first missing": (right[1:], count), "last missing": (right[:-1], count),
        "last missing, offsets fit": (right[:-1], count - 1), "one more before": (b"\0" + right, count),
        "one more after": (right + right[-1:], count),
        "one more after, offsets fit": (right + bytes([count]), count + 1)}


def kinds_of_plan(plan):
    """Those of PLANS that something refused as no plan shows."""
    if len(plan) < HEADER_SIZE:
        return []
    kinds = []
    for order_bytes in {0, plan[3] - 1, plan[3], plan[3] + 1}:
        rule = rule_behind(plan, order_bytes)
        try:
            kinds += [kind for kind, wrong in wrong_plans(rule).items() if wrong == plan]
            kinds += kinds_of_order(plan, rule) if order_bytes == plan[3] else []
        except Refusal:
            continue
    return [f"run refused 15, {kind}" for kind in kinds]


def kinds_of_order(plan, rule):
    """Whether all is right but the order, and that has all blocks."""
    tree = tree_of(rule)
    if lowest_on_cycle(tree.gotos) is not None or not goes_back(tree.gotos):
        return []
    at, right = body_offset(plan[3]), plan_of(rule, tree, columns(tree))
    given, due = plan[at:at + plan[3]], right[at:at + plan[3]]
    if plan != right[:at] + given + right[at + plan[3]:] or sorted(given) != sorted(due):
        return []
    kinds = [SWAPPED] if sum(one != other for one, other in zip(given, due)) == 2 else []
    return kinds + [FITTING] if respects(given, tree.gotos) and given != due else kinds


def respects(order, gotos):
    place = {block: at for at, block in enumerate(order)}
    return all(place[block] < place[target] for block, targets in enumerate(gotos) for target in targets)


def kinds_of_good(tree):
    """Those of GOOD that an accepted rule shows; none if no goto goes back."""
    gotos, right = tree.gotos, bytes(evaluation_order(tree.gotos))
    if not goes_back(gotos):
        return []
    living = living_gotos(tree)
    back = [(block, target) for block, targets in enumerate(gotos) for target in targets if target < block]
    orders = other_orders(tree)
    shown = (True, goes_back(living), any(target == 0 for _, target in back),
             any(tree.blocks[block].ending[0] == IF for block, _ in back), not goes_back(living),
             any(parts_and_meets(gotos, block) for block in range(len(gotos))),
             lowest_on_cycle(all_ways(tree)) is not None,
             sum(block == target + 1 for block, target in back) >= MOST_BLOCKS - 2,
             orders["first ready first"] != right, orders["layers"] != right,
             orders["dead gotos uncounted"] != right, orders.get("jumps counted", right) != right)
    return [kind for kind, is_there in zip(GOOD, shown, strict=True) if is_there]


def parts_and_meets(gotos, block):
    ends = [{target} | reach(gotos, target) for target in gotos[block]]
    return any(one & other for at, one in enumerate(ends) for other in ends[:at])


def kinds_of_cycle(tree, lowest):
    """Those of CYCLES that a rule refused 16 there shows."""
    gotos, living = tree.gotos, living_blocks(tree)
    cycle = shortest_cycle(gotos, lowest)
    length, beside = len(cycle), without(gotos, set(cycle))
    ways = [reach(gotos, block) for block in range(len(gotos))]
    on_cycles = {block for block in range(len(gotos)) if block in ways[block]}
    leading = {block for block in range(lowest) if lowest in ways[block]}
    between = {block for block in range(lowest) if ways[block] & on_cycles
               and any(block in ways[other] for other in on_cycles)}
    in_arm = [tree.blocks[block].ending[0] == IF for block in cycle]
    shown = (length == 1, length == 2, length == 3, length > 3, length >= MOST_BLOCKS - 1,
             lowest_on_cycle(beside) is not None, lowest > 0, leading, between, not on_cycles & living,
             on_cycles <= living, all(in_arm), not any(in_arm))
    return [kind for kind, is_there in zip(CYCLES, shown, strict=True) if is_there]


def shortest_cycle(gotos, block):
    """The blocks of a shortest path of gotos from a block back to it."""
    paths = [[block]]
    reached = set()
    while True:
        longer = []
        for path in paths:
            for target in sorted(gotos[path[-1]] - reached):
                if target == block:
                    return path
                reached.add(target)
                longer.append([*path, target])
        paths = longer


def without(gotos, blocks):
    return [set() if block in blocks else targets - blocks for block, targets in enumerate(gotos)]


def kinds_behind(rule, number):
    """Whether a rule refused with this number, 4 to 11, has a cycle that did not come to be looked at."""
    if number == 4:
        rule = b"\x01" + rule[1:]
    gotos = gotos_read(rule)
    return [f"refused {number}, a cycle in the rest"] if lowest_on_cycle(gotos) is not None else []


def gotos_read(rule):
    """The gotos in what can be read of a rule; blocks that are not reached have none."""
    try:
        check_header(rule)
    except Refusal:
        return []
    reader = Reader(rule)
    try:
        for _ in range(rule[3]):
            reader.block()
    except Refusal:
        pass
    return reader.gotos + [set()] * (rule[3] - len(reader.gotos))


def kinds_of_run(run, records):
    """Those of RUNS that an accepted run of a rule with a goto back shows by its records."""
    own = isinstance(run.budgets, list)
    shown = {f"status {record[0]}" for record in records}
    shown |= {"own budgets" if own else "common budget", f"quota {run.quota}"}
    for status, rounds, labels, offset, *_ in records:
        shown |= {"budget 0"} if status == UNFINISHED and rounds == 0 else set()
        shown |= {"later round"} if rounds > 1 else set()
        shown |= {"labels before a fault"} if labels and offset else set()
    return [name for name in (f"run ok, {BACK}, {kind}" for kind in sorted(shown)) if name in RUNS]
