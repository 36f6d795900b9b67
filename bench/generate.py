#!/usr/bin/env python3
"""Writes C code for one exercise: generate.py NAME reads the lines of the exercise and prints a file with its search.

A state is one word, four bits a position, as in tuned.c. What that engine keeps of each rule in memory is written out
here: which labels it tests, what it makes of a word, and what it adds to the rank. search.h is the rest of the search.
"""
import collections
import sys

DASH = 0xFF

# The most entries of a table that tells what a rule adds to the rank, and how often rules are written out at most.
MOST_CHANGES = 256
MOST_TRIES = 192

Exercise = collections.namedtuple('Exercise', 'block positions abstract_labels map rules goals')
Rule = collections.namedtuple('Rule', 'number cost left right')

# A rule whose constants are not all tested yet, and the labels, by position, that are left to test.
Pending = collections.namedtuple('Pending', 'rule constants')


def is_label(term):
    return term < 0x10


def is_variable(term):
    return 0x10 <= term < 0x20


def read_exercise(text):
    """The lines are those of an accepted exercise with at least one rule: nothing of this is checked."""
    frames = [bytes.fromhex(line) for line in text.split()]
    positions, _, abstract_labels, rules, _ = frames[0]
    sides = [(frame[0], frame[1:1 + positions], frame[1 + positions:]) for frame in frames[2:2 + rules]]
    numbered = [Rule(number, *side) for number, side in enumerate(sides)]
    return Exercise(b''.join(frames), positions, abstract_labels, frames[1], numbered, frames[2 + rules:])


def source_of(left, term, i):
    """The position of the old state that gives its label to position i by this term, which is no constant."""
    return left.index(term) if is_variable(term) else i


# ---- words ----


def literal(number):
    return f'0x{number:X}' if number < 2 ** 31 else f'UINT64_C(0x{number:X})'


def label_at(i, label):
    return label << 4 * i


def add_turn(turns, source, target):
    """Labels that move are kept by distance: how many bits the word is turned left, and a mask of their new places."""
    bits = 4 * (target - source) % 64
    turns[bits] = turns.get(bits, 0) | label_at(target, 15)


def word_with(labels):
    return sum(label_at(i, label) for i, label in labels.items())


def constants_test(constants):
    mask = word_with({i: 15 for i in constants})
    return f'(word & {literal(mask)}) == {literal(word_with(constants))}'


def constants_of(terms):
    return {i: term for i, term in enumerate(terms) if is_label(term)}


def tie_tests(terms):
    """The tests that positions with the same variable have equal labels."""
    turns = {}
    for i, term in enumerate(terms):
        if not is_label(term) and source_of(terms, term, i) != i:
            add_turn(turns, source_of(terms, term, i), i)
    return [f'((turned(word, {bits}) ^ word) & {literal(mask)}) == 0' for bits, mask in turns.items()]


def goal_test(terms):
    constants = constants_of(terms)
    if len(constants) == len(terms):
        return f'word == {literal(word_with(constants))}'
    return f'({" && ".join([constants_test(constants)] + tie_tests(terms))})'


def next_word(rule):
    """What a rule makes of the word."""
    keep, write, turns = 0, 0, {}
    for i, term in enumerate(rule.right):
        if is_label(term):
            write |= label_at(i, term)
        elif source_of(rule.left, term, i) == i:
            keep |= label_at(i, 15)
        else:
            add_turn(turns, source_of(rule.left, term, i), i)
    parts = [f'(word & {literal(keep)})'] if keep else []
    parts += [literal(write)] if write or not (keep or turns) else []
    parts += [f'(turned(word, {bits}) & {literal(mask)})' for bits, mask in turns.items()]
    return ' | '.join(parts)


# ---- ranks: what a rule adds to the rank is told by the digits of the rank itself ----


def weight_of(exercise, i):
    """What a digit at position i counts in the rank."""
    return exercise.abstract_labels ** (exercise.positions - 1 - i)


def rank_change(exercise, rule):
    """What a rule adds to the rank: a constant, and how much the digit at each position counts."""
    constant, factors = 0, [0] * exercise.positions
    for i in range(exercise.positions):
        if rule.right[i] == DASH:
            continue
        weight = weight_of(exercise, i)
        for term, counted in ((rule.right[i], weight), (rule.left[i], -weight)):
            if is_label(term):
                constant += counted * exercise.map[term]
            else:
                factors[source_of(rule.left, term, i)] += counted
    return constant, factors


def digit_runs(exercise, factors):
    """The positions whose digits count, in runs that are short enough for a table."""
    runs = []
    for i in range(exercise.positions):
        if factors[i] == 0:
            continue
        if runs and exercise.abstract_labels ** (i - runs[-1][0] + 1) <= MOST_CHANGES:
            runs[-1][1] = i
        else:
            runs.append([i, i])
    return runs


def digits_text(exercise, first, last):
    """The number that the digits at these positions make."""
    divisor = weight_of(exercise, last)
    count = exercise.abstract_labels ** (last - first + 1)
    return 'rank' + (f' / {divisor}' if divisor > 1 else '') + (f' % {count}' if first > 0 else '')


def run_changes(exercise, factors, first, last):
    """What a run adds for each number that its digits can make."""
    changes = [0]
    for i in range(first, last + 1):
        changes = [change + factors[i] * digit for change in changes for digit in range(exercise.abstract_labels)]
    return changes


def signed(number):
    return f' - {-number}' if number < 0 else f' + {number}'


def next_rank(exercise, rule, tables):
    """The rank after a rule: one digit is multiplied, a run of digits looked up in a table, which `tables` gets."""
    constant, factors = rank_change(exercise, rule)
    text = 'rank'
    for first, last in digit_runs(exercise, factors):
        digits = digits_text(exercise, first, last)
        if first == last:
            factor = factors[first]
            text += f' {"-" if factor < 0 else "+"} {digits} * {abs(factor)}'
        else:
            changes = [change + constant for change in run_changes(exercise, factors, first, last)]
            constant = 0
            name = f'change_{rule.number}_{first}'
            tables.append(f'static const int16_t {name}[] = {{{", ".join(map(str, changes))}}};')
            text += f' + {name}[{digits}]'
    return text + (signed(constant) if constant else '')


# ---- the tests of all rules, as a tree ----


def count_runs(pending, i):
    """How many tests of position i there are as long as only rules that follow each other share one."""
    tested = [i in p.constants for p in pending]
    return sum(now and not before for before, now in zip([False] + tested, tested))


def count_front(pending, i):
    """How many rules at the front test position i."""
    return next((k for k, p in enumerate(pending) if i not in p.constants), len(pending))


def by_label(pending, i):
    """The rules that remain for each label that some rule asks for at position i, and for any other label."""
    labels = sorted({p.constants[i] for p in pending if i in p.constants})
    cases = [(x, [without(p, {i}) for p in pending if p.constants.get(i, x) == x]) for x in labels]
    return cases, [p for p in pending if i not in p.constants]


def without(pending, positions):
    return Pending(pending.rule, {i: x for i, x in pending.constants.items() if i not in positions})


def indented(lines):
    return ['  ' + line for line in lines]


def choice(i, cases, others):
    """Lines that go by the label at position i, from the lines for each label and for the others."""
    if len(cases) == 1:
        label, lines = cases[0]
        behind = ['} else {'] + indented(others) if others else []
        return [f'if ({constants_test({i: label})}) {{'] + indented(lines) + behind + ['}']
    result = [f'switch (word >> {4 * i} & 15) {{']
    for label, lines in cases:
        result += [f'  case {label}:'] + indented(indented(lines + ['break;']))
    return result + ['  default:'] + indented(indented(others + ['break;'])) + ['}']


def count_tries(cases, others):
    return sum(len(case) for _, case in cases) + len(others)


def shared_position(pending, most):
    """The position that is tested most often, if that is more than once and all may share the test of it; else None.

    They may where the rules that do not test it can be written out for each of its labels."""
    i = max({i for p in pending for i in p.constants}, key=lambda i: (count_runs(pending, i), -i))
    return i if count_runs(pending, i) > 1 and count_tries(*by_label(pending, i)) <= most else None


def decide_all(pending, i, most, tries):
    """Lines that try the rules behind one test of position i; what may be written out is shared by size."""
    cases, others = by_label(pending, i)
    share = most / count_tries(cases, others)
    decided = [(label, decide(case, share * len(case), tries)) for label, case in cases]
    return choice(i, decided, decide(others, share * len(others), tries))


def decide_front(pending, tries):
    """How many rules at the front share a test, and lines that try them."""
    i = max(pending[0].constants, key=lambda i: (count_front(pending, i), -i))
    count = count_front(pending, i)
    front = pending[:count]
    cases, _ = by_label(front, i)
    if len(cases) > 1:
        return count, choice(i, [(label, decide(case, len(case), tries)) for label, case in cases], [])
    shared = dict(set.intersection(*(set(p.constants.items()) for p in front)))
    rest = [without(p, shared) for p in front]
    return count, [f'if ({constants_test(shared)}) {{'] + indented(decide(rest, count, tries)) + ['}']


def decide(pending, most, tries):
    """Lines that try the rules whose constants agree, in rising number; rules are written out `most` times at most."""
    lines = []
    while pending:
        if not pending[0].constants:
            count, more = 1, tries[pending[0].rule.number]
        else:
            i = shared_position(pending, most)
            if i is not None:
                return lines + decide_all(pending, i, most, tries)
            count, more = decide_front(pending, tries)
        lines += more
        pending, most = pending[count:], most - count
    return lines


# ---- the file ----


def rooms(exercise, kind=''):
    """Lines that work out what an estimate must be below, for each cost that a rule has."""
    costs = sorted({rule.cost for rule in exercise.rules})
    return [f'{kind}room_{cost} = room_after(least - cost, {cost});' for cost in costs]


def try_lines(exercise, rule, tables):
    """Lines that try a rule whose constants agree: its figure first, and only then its state."""
    visit = f'visit({next_word(rule)}, next, cost + {rule.cost}, least, path + 1)'
    inner = [f'least = {visit};', f'if (least == ENDED) return end_after(path, {rule.number});'] + rooms(exercise)
    lines = [f'next = {next_rank(exercise, rule, tables)};', f'if (table[next] < room_{rule.cost}) {{']
    lines += indented(inner) + ['}']
    ties = tie_tests(rule.left)
    return [f'if ({" && ".join(ties)}) {{'] + indented(lines) + ['}'] if ties else lines


def function(head, lines):
    return ['', f'static {head} {{'] + indented(lines) + ['}']


def extend_function(exercise, tables):
    tries = [try_lines(exercise, rule, tables) for rule in exercise.rules]
    pending = [Pending(rule, constants_of(rule.left)) for rule in exercise.rules]
    begin = ['const uint32_t *const table = search.table;', 'uint64_t next;'] + rooms(exercise, 'uint32_t ')
    begin += ['*path = word;', '++*same_hash;']
    handed = 'uint64_t word, uint64_t rank, uint64_t cost, uint64_t least, uint64_t *path, uint8_t *same_hash'
    end = ['--*same_hash;', 'return least;']
    return function(f'uint64_t extend({handed})', begin + decide(pending, MOST_TRIES, tries) + end)


def start_functions(exercise):
    positions = range(exercise.positions)
    word = ' | '.join(f'(uint64_t)start[{i}] << {4 * i}' for i in positions)
    rank = ' + '.join(f'map[start[{i}]] * {weight_of(exercise, i)}u' for i in positions)
    table = f'static const uint8_t map[] = {{{", ".join(map(str, exercise.map))}}};'
    goals = [goal_test(terms) for terms in exercise.goals]
    numbers = [f'if ({goal}) return {number};' for number, goal in enumerate(goals)] + ['return NO_GOAL;']
    return (function('inline bool meets_goal(uint64_t word)', [f'return {" || ".join(goals)};'])
            + function('uint32_t met_goal(uint64_t word)', numbers)
            + function('uint64_t word_of(const uint8_t *start)', [f'return {word};'])
            + function('uint32_t rank_of(const uint8_t *start)', [table, f'return {rank};']))


def code(name, exercise):
    tables = []
    extend = extend_function(exercise, tables)
    lines = [f"/* The search of the exercise '{name}', written by generate.py. */", '#include "search.h"', '']
    lines += [f'static const uint8_t block[] = {{{", ".join(map(str, exercise.block))}}};'] + tables
    lines += start_functions(exercise) + extend
    lines += ['', f'const struct generated generated_{name} = {{block, sizeof block, find}};']
    return '\n'.join(lines) + '\n'


if __name__ == '__main__':
    if len(sys.argv) != 2 or not sys.argv[1].isidentifier():
        sys.stderr.write('usage: bench/generate.py NAME < LINES, where LINES are those of an exercise and NAME is a'
                         ' word for its code, as target/bench/print_exercises prints them\n')
        sys.exit(2)
    sys.stdout.write(code(sys.argv[1], read_exercise(sys.stdin.read())))
