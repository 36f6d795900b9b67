#!/usr/bin/env python3
"""Inputs of `par` at the limits of its memory, and some that it refuses: inputs.py NAME prints tests/inputs/NAME.txt,
and inputs.py NAME answers what `par` must print for it, by reference.py.
"""
import samples
import worked

E_INPUT = samples.e()


def refused_exercise():
    """Input E with a map byte that is none."""
    return worked.replaced(E_INPUT, 12, 13, b'9')


def widest():
    """Sixteen positions and labels, 64 rules that turn a state, eight goals that none meets."""
    turn = (1, [16 + i for i in range(16)], [16 + (i + 1) % 16 for i in range(16)])
    return samples.text([16, 16, 1, 64, 8], [0] * 16, [turn] * 64, [[15] * 16] * 8, [(list(range(16)), 64, 100, 50)])


def largest_table():
    """16,384 abstract states, 64 rules that change a label."""
    kept = [samples.DASH] * 13
    rules = [(1, kept + [0], kept + [1])] * 32 + [(2, [0] + kept, [1] + kept)] * 32
    return samples.text([14, 2, 2, 64, 1], [0, 1], rules, [[1] * 14], [([0] + [1] * 12 + [0], 8, 100, 100)])


INPUTS = {
    'empty': lambda: b'',
    'empty_line': lambda: b'\n',
    'refused_head': lambda: b'0303020600\n',
    'refused_exercise': refused_exercise,
    'unended': lambda: E_INPUT[:-1],
    'longest': lambda: E_INPUT.ljust(32768, b'0'),
    'too_long': lambda: E_INPUT.ljust(32769, b'0'),
    'widest': widest,
    'largest_table': largest_table,
}

if __name__ == '__main__':
    samples.main('tests/inputs.py', INPUTS)
