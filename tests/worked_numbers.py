"""Compares the worked numbers with an independent interpreter, and steps each tick in many random orders.

The same numbers, under the same names, are proved of the definitions by `worked_numbers` of crates/rules.
Then the interpreter makes each of five slips: each has to change the worked numbers that a table names, and no other.
"""
import random
import re
import sys
from pathlib import Path
from reference import Machine, Program, SLIPS, STORES_FOR_COPIES, ORDER_OF_ARRIVAL, PAST_ARMS_COUNTED, OUTERMOST_ABORT, FLAT_JOINS

STATED = Path(__file__).resolve().parent.parent / "crates" / "rules" / "specs" / "Worked.antt"


def number(n):
    return bytes([0x40]) + n.to_bytes(4, "little", signed=True)


def expression(code):
    return bytes([len(code)]) + code


def two(n):
    return n.to_bytes(2, "little")


def nothing():
    return bytes([0])


def sets(n, v=0):
    return bytes([1, v]) + expression(number(n))


def assign(code, v=0):
    return bytes([1, v]) + expression(code)


def pause():
    return bytes([2])


def loop(bound, code, block):
    return bytes([4, bound]) + expression(code) + two(len(block)) + block


def par(first, second):
    return bytes([5]) + two(len(first)) + two(len(second)) + first + second


def abort(weak, immediate, code, block):
    return bytes([6, weak + 2 * immediate]) + expression(code) + two(len(block)) + block


def variable(kind, policy, operator, initial, low, high):
    return bytes([kind, policy, operator, 0]) + b"".join(n.to_bytes(4, "little", signed=True) for n in (initial, low, high))


def program(variables, block):
    return bytes([len(variables)]) + b"".join(variables) + block


def output(policy, operator, initial, high):
    return variable(3, policy, operator, initial, 0, high)


def two_arms(policy, operator, x, y):
    return program([output(policy, operator, 0, 100)], par(sets(x) + pause(), sets(y)))


def dosing(weak, immediate, n):
    return program([output(0, 0, 1, 50)],
                   abort(weak, immediate, number(n) + b"\x41\x00\x47", sets(7) + pause() + sets(9) + pause())
                   + assign(b"\x41\x00" + number(1) + b"\x42"))


WIDE = variable(3, 0, 0, 0, -100, 100)


def classic(weak, immediate):
    return program([variable(2, 0, 0, 0, -100, 100)],
                   sets(1) + abort(weak, immediate, number(0) + b"\x41\x00\x47",
                                   par(sets(2) + pause() + sets(3) + pause() + sets(4), sets(5) + pause() + sets(6) + pause() + sets(7))))


def equals(n):
    return b"\x41\x00" + number(n) + b"\x48"


NESTED_ABORTS = program([variable(1, 0, 0, 1, -100, 100)],
                        abort(1, 1, equals(1), sets(2) + abort(0, 1, equals(2), sets(3) + pause() + sets(4)) + sets(5) + pause() + sets(6)))

NESTED_WEAK_ABORTS = program([output(0, 0, 0, 100)], abort(1, 1, number(1), abort(1, 1, number(1), pause()) + sets(5) + pause()))

LEFT_ARMS = program([output(0, 3, 0, 100)], par(sets(30), sets(80)))


def nested_loops(n):
    return program([], loop(255, number(1), loop(n, number(1), b"")))


# name, program, the steps and the rate of each tick
TABLE = [
    ("empty_steps", bytes([0]), [(1, 0)]),
    ("pause_steps", bytes([0, 2]), [(1, 0), (1, 0)]),
    ("loop_steps", program([], loop(3, number(1), nothing())), [(8, 0)]),
    ("longest_steps", nested_loops(233), [(59927, 0)]),
    ("all_sum", two_arms(0, 0, 30, 80), [(5, 100), (2, 100)]),
    ("past_arm", two_arms(0, 0, 30, 40), [(5, 70), (2, 70)]),
    ("left_first_arm_first", LEFT_ARMS, [(6, 30)]),
    ("left_second_arm_first", LEFT_ARMS, [(6, 30)]),
    ("new_least", two_arms(1, 1, 30, 0), [(5, 30)]),
    ("mod_least", two_arms(2, 1, 30, 0), [(5, 0)]),
    ("strong", dosing(0, 0, 5), [(3, 7), (2, 8)]),
    ("weak", dosing(1, 0, 5), [(3, 7), (4, 10)]),
    ("strong_immediate", dosing(0, 1, 0), [(3, 2)]),
    ("weak_immediate", dosing(1, 1, 0), [(5, 8)]),
    ("left_nested", program([WIDE], par(par(sets(80), sets(30)), sets(-20))), [(10, 80)]),
    ("right_nested", program([WIDE], par(sets(80), par(sets(30), sets(-20)))), [(10, 90)]),
    ("classic_strong", classic(0, 0), [(7, 7), (1, 7)]),
    ("classic_weak", classic(1, 0), [(7, 7), (5, 9)]),
    ("classic_strong_immediate", classic(0, 1), [(3, 1)]),
    ("classic_weak_immediate", classic(1, 1), [(8, 7)]),
    ("nested_aborts_rate", NESTED_ABORTS, [(6, 5)]),
    ("nested_weak_aborts_rate", NESTED_WEAK_ABORTS, [(6, 5)]),
]

# name, program, tick length, whether a tick may be so long
LENGTHS = [
    ("empty_length", bytes([0]), 1, True),
    ("pause_length", bytes([0, 2]), 2, True),
    ("longest_accepted", nested_loops(233), 59927, True),
    ("too_long", nested_loops(234), 60182, False),
]

# The worked numbers that are stated of an order of steps by the threads' numbers; the others are of the left-to-right run.
ORDERS = {"left_first_arm_first": [0, 1, 1, 2, 2, 0], "left_second_arm_first": [0, 2, 2, 1, 1, 0]}

# The worked numbers that each slip changes, and what it makes of them.
CHANGED = {
    STORES_FOR_COPIES: {"weak": [(3, 7), (4, 8)], "weak_immediate": [(5, 2)],
                        "classic_strong_immediate": [(7, 7)], "classic_weak_immediate": [(7, 7)]},
    ORDER_OF_ARRIVAL: {"left_second_arm_first": [(6, 80)]},
    PAST_ARMS_COUNTED: {"past_arm": [(5, 70), (2, 100)]},
    OUTERMOST_ABORT: {"nested_weak_aborts_rate": [(4, 0)]},
    FLAT_JOINS: {"left_nested": [(10, 90)]},
}


def ticks(machine, count, pick):
    found = []
    for _ in range(count):
        steps = machine.tick(pick=pick)
        found.append((steps, machine.stores[0] if machine.stores else 0))
    return found


def as_stated(name):
    """Picks the threads in the order that the worked number is stated of."""
    if name not in ORDERS:
        return min
    threads = iter(ORDERS[name])
    return lambda ready: next(threads)


def orders(name):
    """The stated order, and where it is quick many others."""
    yield as_stated(name)
    if name != "longest_steps":
        yield max
        for n in range(20):
            yield random.Random(n).choice


def number_problems():
    """Worked numbers that the interpreter does not give."""
    for name, data, expected in TABLE:
        for pick in orders(name):
            found = ticks(Machine(data), len(expected), pick)
            if found != expected:
                yield f"{name}: {found} instead of {expected}"
                break
    for name, data, length, accepted in LENGTHS:
        p = Program(data)
        if (p.length(), p.accepted()) != (length, accepted):
            yield f"{name}: {p.length()}, accepted: {p.accepted()}"
    over = Machine(classic(0, 0))
    ticks(over, 2, min)
    if over.state[0][0] != "ended":
        yield "classic_strong_over: main is not ended"


def stated_problems():
    """Worked numbers of the theorem that differ from those of the tables or are missing in them."""
    ours = {name: expected for name, _, expected in TABLE}
    ours.update((name, length) for name, _, length, _ in LENGTHS)
    stated = {}
    for name, left, right in re.findall(r"^  pub ([a-z0-9_]+) : (.*) ≡ (.*)$", STATED.read_text(encoding="utf-8"), re.M):
        if left.startswith("tick"):
            stated[name] = int(right) if right.isdigit() else [(int(a), int(b)) for a, b in re.findall(r"\((\d+), pos (\d+)\)", right)]
    for name in sorted(set(ours) | set(stated)):
        if ours.get(name) != stated.get(name):
            yield f"{name}: {ours.get(name)} here, {stated.get(name)} in the theorem"


def slip_problems(slip):
    """Differences between the worked numbers that a slip changes and those that it should change."""
    changed = {}
    for name, data, expected in TABLE:
        found = ticks(Machine(data, slip), len(expected), as_stated(name))
        if found != expected:
            changed[name] = found
    print(f"slip '{slip}' changes: {', '.join(changed) or 'no worked number'}")
    if not changed or changed != CHANGED[slip]:
        yield f"slip '{slip}': {changed} instead of {CHANGED[slip]}"


def main():
    problems = list(number_problems()) + list(stated_problems())
    for slip in SLIPS:
        problems += slip_problems(slip)
    for problem in problems:
        print(problem)
    print(f"worked numbers: {len(TABLE) + len(LENGTHS)} compared, {len(SLIPS)} slips tried, {len(problems)} failed")
    return 1 if problems else 0


if __name__ == "__main__":
    sys.exit(main())
