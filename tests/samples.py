#!/usr/bin/env python3
"""The sample exercises: samples.py NAME prints samples/NAME.txt, and samples.py NAME answers what `par` must print for
it, by reference.py.

NAME is e, tiles, pancake or slots.
"""
import sys

import reference
import usage
import worked

# The first variable, and the dash.
VARIABLE, DASH = 0x10, 0xFF


def text(head, mapped, rules, goals, queries):
    """An exercise and its queries, one frame or query a line."""
    frames = [head, mapped, *([cost, *left, *right] for cost, left, right in rules), *goals]
    return worked.text_of(sum(map(list, frames), [])) + b''.join(worked.query_line(*query) for query in queries)


def exchange(n, source, target, cost):
    """What stands at the source moves to the target, which is empty (label 0), and leaves the source empty."""
    left, right = [DASH] * n, [DASH] * n
    left[source], left[target] = VARIABLE, 0
    right[source], right[target] = 0, VARIABLE
    return cost, left, right


def e():
    """Input E of document 01, with its queries."""
    moves = [(0, 1, 1), (1, 0, 1), (1, 2, 1), (2, 1, 1), (0, 2, 3), (2, 0, 3)]
    swaps = [exchange(3, *move) for move in moves]
    limits = [(8, 100, 100), (8, 100, 9), (8, 4, 100), (2, 100, 100), (65, 100, 100)]
    queries = [([1, 2, 0], *limit) for limit in limits] + [([2, 1, 0], 8, 100, 100)]
    return text([3, 3, 2, 6, 1], [0, 1, 1], swaps, [[2, 1, 0]], queries)


def tiles():
    """Eight tiles that slide on three by three places. The table tells odd tiles from even ones; the empty place
    counts as an even tile."""
    pairs = [(i, j) for i in range(9) for j in range(9) if i // 3 == j // 3 and abs(i - j) == 1 or abs(i - j) == 3]
    rules = [exchange(9, a, b, 1) for a, b in pairs]
    starts = ['102345678', '324061785', '165304728', '130624857', '108632754']
    queries = [(list(map(int, start)), 40, 40, 100000) for start in starts]
    return text([9, 9, 2, len(rules), 1], [label % 2 for label in range(9)], rules, [list(range(9))], queries)


def pancake():
    """Eight discs of which the first ones are turned over, at a cost of their number."""
    n = 8
    names = [VARIABLE + i for i in range(n)]
    rules = [(k, names[:k] + [DASH] * (n - k), names[:k][::-1] + [DASH] * (n - k)) for k in range(2, n + 1)]
    starts = [[1, 0, 2, 3, 4, 5, 6, 7], [3, 2, 1, 0, 7, 6, 5, 4], [2, 0, 3, 1, 4, 6, 5, 7]]
    queries = [(start, 20, 60, 100000) for start in starts] + [(starts[1], 20, 10, 100000)]
    return text([n, n, 3, len(rules), 1], [0, 1, 2, 0, 1, 2, 0, 1], rules, [list(range(n))], queries)


def slots():
    """Seven slots in a row and four kinds of load, with a step to the next slot at cost 1 and over one slot at cost 3;
    two orders are accepted."""
    n = 7
    steps = [(i, i + reach, cost) for reach, cost in ((1, 1), (2, 3)) for i in range(n - reach)]
    rules = [exchange(n, a, b, cost) for i, j, cost in steps for a, b in ((i, j), (j, i))]
    goals = [[1, 1, 2, 2, 3, 0, 0], [1, 2, 3, DASH, DASH, DASH, 0]]
    starts = [[0, 1, 0, 1, 2, 2, 3], [1, 0, 2, 1, 3, 0, 2], [2, 1, 1, 0, 2, 3, 0]]
    queries = [(start, 64, 60, 200000) for start in starts] + [(starts[2], 64, 60, 20), (starts[2], 64, 9, 200000)]
    return text([n, 4, 3, len(rules), len(goals)], [0, 1, 2, 2], rules, goals, queries)


SAMPLES = {'e': e, 'tiles': tiles, 'pancake': pancake, 'slots': slots}


def main(script, makers):
    """Prints an input by its name, or with 'answers' what `par` must print for it."""
    name, words = usage.named(f'{script} NAME [answers]', makers, [[], ['answers']])
    made = makers[name]()
    sys.stdout.buffer.write(reference.par(made) if words else made)


if __name__ == '__main__':
    main('tests/samples.py', SAMPLES)
