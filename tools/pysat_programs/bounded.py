#!/usr/bin/env python3
"""Bounded model checking by PySAT, step by step in one solver: when does a counter of four bits,
which may stop at each step, show 11?"""
from pysat.solvers import Cadical153

BITS = 4
TARGET = 11


def bit(step, number):
    return 1 + step * (2 * BITS) + number


def carry(step, number):
    return bit(step, BITS) + number


def transition(step):
    """The clauses by which the counter of the next step is this one's, or one more."""
    for number in range(BITS):
        now, goes, then = bit(step, number), carry(step, number), bit(step + 1, number)
        yield from ([-then, now, goes], [-then, -now, -goes], [then, -now, goes],
                    [then, now, -goes])
        if number + 1 < BITS:
            after = carry(step, number + 1)
            yield from ([-after, now], [-after, goes], [after, -now, -goes])


def is_target(step):
    return [bit(step, number) if TARGET >> number & 1 else -bit(step, number)
            for number in range(BITS)]


solver = Cadical153(bootstrap_with=[[-bit(0, number)] for number in range(BITS)], use_timer=True)
step = 0
while not solver.solve(assumptions=is_target(step)):
    assert set(solver.get_core()) <= set(is_target(step))
    solver.append_formula(transition(step))
    step += 1
true = set(solver.get_model())
values = [sum(1 << number for number in range(BITS) if bit(at, number) in true)
          for at in range(step + 1)]
print("step %d: %s" % (step, " ".join(map(str, values))))
print("%d variables" % solver.nof_vars())
solver.delete()
