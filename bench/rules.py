"""The benchmark's rules, as a C header: python3 bench/rules.py > bench/rules.h

Each takes one argument, the number of times its loop is to go round, and for any argument up to
65,534 it stops without a fault.
"""

import sys
from pathlib import Path

sys.path.insert(0, str(Path(__file__).resolve().parent.parent / "second"))

from build import (add, assign, both, case, choose, divide, either, emit, equal, goto, jump, less,
                   multiply, negate, number, remainder, rule, stop, subtract, variable)
from columns import columns
from plan import mask
from rule import parse

COUNT = variable(0)
COUNT_DOWN = assign(0, subtract(COUNT, number(1)))
COUNT_IS_UP = less(COUNT, number(1))


def count_down():
    """Rule R of the scope: next to no work in a round."""
    total = variable(1)
    return rule(2, 1, [
        emit(COUNT) + goto(1),
        choose(COUNT_IS_UP, goto(2), goto(3)),
        emit(total) + stop(),
        assign(1, add(total, COUNT)) + COUNT_DOWN + jump(1),
    ])


def arithmetic():
    """Long expressions and few blocks; the remainders keep every value small."""
    x, y, z = variable(1), variable(2), variable(3)
    mixed = subtract(add(multiply(x, number(31)), multiply(y, number(17))),
                     divide(multiply(z, COUNT), number(7)))
    turned = add(negate(divide(multiply(y, x), number(3))),
                 remainder(multiply(COUNT, number(13)), number(1009)))
    larger = case(less(x, y), subtract(y, x), add(x, number(5)))
    return rule(4, 1, [
        choose(COUNT_IS_UP, goto(2), goto(1)),
        assign(1, remainder(mixed, number(9973)))
        + assign(2, remainder(turned, number(7919)))
        + assign(3, remainder(add(multiply(larger, number(3)), z), number(997)))
        + COUNT_DOWN + jump(0),
        emit(x) + emit(y) + emit(z) + stop(),
    ])


def branches():
    """64 blocks: a round goes through most of them by gotos and ifs, then jumps back."""
    x, last = variable(1), 63
    blocks = [choose(COUNT_IS_UP, goto(last), goto(1))]
    for block in range(1, last - 1):
        on, over = goto(block + 1), goto(min(block + 2, last - 1))
        is_low = less(remainder(add(x, COUNT), number(block + 2)), number(block // 2 + 1))
        is_odd = equal(remainder(COUNT, number(2)), number(1))
        kinds = (assign(1, add(x, number(block))) + on,
                 choose(is_low, on, over),
                 choose(both(is_low, is_odd), over, choose(either(is_odd, is_low), on, over)))
        blocks.append(kinds[block % 3])
    blocks.append(assign(1, remainder(x, number(10007))) + COUNT_DOWN + jump(0))
    blocks.append(emit(x) + stop())
    return rule(2, 1, blocks)


def wide():
    """16 variables, all of which every round reads and hands on to the next."""
    steps = b""
    for index in range(1, 15):
        total = add(add(variable(index), variable(index + 1)), number(index))
        steps += assign(index, remainder(total, number(1000 + index)))
    steps += assign(15, remainder(add(variable(15), COUNT), number(4093)))
    return rule(16, 1, [
        choose(COUNT_IS_UP, goto(2), goto(1)),
        steps + COUNT_DOWN + jump(0),
        emit(variable(1)) + emit(variable(15)) + stop(),
    ])


RULES = {make.__name__: make() for make in (count_down, arithmetic, branches, wide)}


def loop_mask(rule_bytes):
    return mask(columns(parse(rule_bytes)).loop)


def header():
    lines = ["/* Made by bench/rules.py; each rule takes one argument, the rounds it is to run. */",
             "#ifndef RULES_H", "#define RULES_H", ""]
    for name, rule_bytes in RULES.items():
        lines.append(f"static const unsigned char {name}[] = {{")
        for at in range(0, len(rule_bytes), 16):
            lines.append("    " + " ".join(f"0x{byte:02X}," for byte in rule_bytes[at:at + 16]))
        lines += ["};", ""]
    lines += ["struct bench_rule {", "    const char *name;", "    const unsigned char *bytes;",
              "    unsigned len;", "    unsigned lc_mask;", "};", "",
              "static const struct bench_rule bench_rules[] = {"]
    for name, rule_bytes in RULES.items():
        lines.append(f'    {{"{name}", {name}, sizeof {name}, 0x{loop_mask(rule_bytes):04X}}},')
    return "\n".join(lines + ["};", "", "#endif", ""])


if __name__ == "__main__":
    print(header(), end="")
