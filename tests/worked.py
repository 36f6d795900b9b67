#!/usr/bin/env python3
"""Worked exercises, as lines that each hold a call, what it is handed and what must come of it by the reading of
reference.py.

worked.py NAME prints them; its output is kept as tests/vectors/NAME.txt. A line is

    CALL ARGUMENT .. = ANSWER [BUFFER]

where BUFFER is what the buffer, the last argument, holds afterwards, and arguments stand in the order of the calls:
block, further maps where the call takes some, subject, limits (queries hold both), table, buffer. Bytes are pairs of
hexadecimal digits, parts of them joined by '+', PAIR*COUNT for a run; entries of a table are decimal numbers joined by
',', ENTRY*COUNT for a run; '-' stands for none. Lines with '#' say what follows. worked.py fill_order_input prints what
the program fill_order reads, worked.py fill_order what it must print; likewise match_parts_input and match_parts; and
worked.py two_maps and worked.py many_starts what the samples of these names must print.
"""
import functools
import itertools
from random import Random

import reference
import usage


def runs(values):
    return [(value, len(list(group))) for value, group in itertools.groupby(values)]


def packed_bytes(values):
    """Bytes as text, with runs of more than eight told by their count."""
    parts, plain = [], ''
    for value, count in runs(values):
        if count <= 8:
            plain += f'{value:02X}' * count
        else:
            parts += [plain, f'{value:02X}*{count}']
            plain = ''
    return '+'.join(part for part in [*parts, plain] if part) or '-'


def packed_entries(values):
    return ','.join(str(value) if count == 1 else f'{value}*{count}' for value, count in runs(values)) or '-'


def shown(answer):
    """An answer of reference.py in words."""
    if isinstance(answer, bool):
        return 'yes' if answer else 'no'
    if isinstance(answer, int):
        return f'refused {answer}' if answer else 'accepted'
    if isinstance(answer, str):
        words = {'done': 'yes', 'does not apply': 'no', 'found': 'yes', 'none further': 'no', 'filled': 'accepted'}
        return words[answer]
    word, *numbers = answer
    return ' '.join([word.replace(' ', '-'), *map(str, numbers)])


def line(call, arguments, answer, *after):
    print(call, *arguments, '=', shown(answer), *after)
    return answer


def check_block(block):
    return line('check_block', [packed_bytes(block)], reference.check_block(block))


def apply_rule(block, rule, state, out):
    answer, after = reference.apply_rule(block, rule, state, out)
    arguments = [packed_bytes(block), rule, packed_bytes(state), packed_bytes(out)]
    return line('apply_rule', arguments, answer, packed_bytes(after)), after


def test_goals(block, state):
    return line('test_goals', [packed_bytes(block), packed_bytes(state)], reference.test_goals(block, state))


def relabel_block(block, out):
    answer, after = reference.relabel_block(block, out)
    return line('relabel_block', [packed_bytes(block), packed_bytes(out)], answer, packed_bytes(after)), after


def step_back(block, rule, state, earlier, out):
    answer, after = reference.step_back(block, rule, state, earlier, out)
    arguments = [packed_bytes(block), rule, packed_bytes(state)]
    if earlier is None:
        call = 'first_predecessor'
    else:
        call = 'next_predecessor'
        arguments.append(packed_bytes(earlier))
    return line(call, [*arguments, packed_bytes(out)], answer, packed_bytes(after)), after


def reversible(block, rule):
    return line('test_reversible', [packed_bytes(block), rule], reference.reversible(block, rule))


def replay(block, start, rules, out):
    answer, after = reference.replay(block, start, rules, out)
    arguments = [packed_bytes(part) for part in (block, start, rules, out)]
    return line('replay_run', arguments, answer, packed_bytes(after)), after


def variants(block, maps, table):
    """The exercise under its own map and under each further one, as blocks, each with its part of the table: calls with
    these and without further maps are another way to what calls with maps must give."""
    width, rest, found = 1 + block[1], list(table), []
    for record in [block[2:3] + block[5 : 4 + width]] + [maps[at : at + width] for at in range(0, len(maps), width)]:
        variant = reference.remapped(block, record)
        size = record[0] ** block[0]
        found.append((variant, rest[:size]))
        rest = rest[size:]
    return found


def fill_table(block, table, maps=()):
    answer, after = reference.fill_table(block, maps, table)
    if maps and answer == 'filled':
        singles = [reference.fill_table(variant, [], part)[1] for variant, part in variants(block, maps, table)]
        assert after[: len(sum(singles, []))] == sum(singles, [])
    arguments = [packed_bytes(block), packed_bytes(maps), packed_entries(table)]
    return line('fill_table', arguments, answer, packed_entries(after)), after


def test_table(block, table, maps=()):
    answer = reference.test_table(block, maps, table)
    if maps and isinstance(answer, bool):
        assert answer == all(reference.test_table(variant, [], part) for variant, part in variants(block, maps, table))
    return line('test_table', [packed_bytes(block), packed_bytes(maps), packed_entries(table)], answer)


def look_up(block, state, table, maps=()):
    answer = reference.look_up(block, maps, state, table)
    if maps and isinstance(answer, tuple):
        singles = [reference.look_up(variant, [], state, part) for variant, part in variants(block, maps, table)]
        assert answer == max(singles)
    arguments = [packed_bytes(block), packed_bytes(maps), packed_bytes(state), packed_entries(table)]
    return line('look_up_estimate', arguments, answer)


def read_exercise(text, out):
    answer, after = reference.read_exercise(text, out)
    return line('read_exercise', [packed_bytes(text), packed_bytes(out)], answer, packed_bytes(after)), after


def par(data):
    print('par', packed_bytes(data), '=', packed_bytes(reference.par(data)))


def title(words):
    print('#', words)


# Input E's block, as the document prints its lines.
INPUT_E = """
0303020601 000101 011000FF0010FF 010010FF1000FF 01FF1000FF0010 01FF0010FF1000 0310FF0000FF10 0300FF1010FF00 020100
"""
E = list(bytes.fromhex(''.join(INPUT_E.split())))


def zeros(n, labels, abstracts, rules, goals):
    """Checks a block that has this head and zeros behind it."""
    length = labels + rules * (1 + 2 * n) + goals * n
    return check_block([n, labels, abstracts, rules, goals] + [0] * length)


def heads_around(x):
    """Each number of a head around its limits."""
    heads = [(x, 2, 1, 0, 1), (15 + x, 2, 1, 0, 1), (1, x, 1, 0, 1), (1, 15 + x, 1, 0, 1), (1, 2, x, 0, 1)]
    return heads + [(1, 2, 1 + x, 0, 1), (1, 2, 1, 63 + x, 1), (1, 2, 1, 0, x), (1, 2, 1, 0, 7 + x)]


def faulty(faults):
    """Input E with each fault of the set."""
    block = list(E)
    changes = {'head': (4, 9), 'map': (5, 2), 'term': (52, 3), 'variable': (12, 17)}
    for fault in faults & changes.keys():
        place, byte = changes[fault]
        block[place] = byte
    return block + [0] * ('length' in faults)


def subset(number, names):
    return {name for i, name in enumerate(names) if number >> i & 1}


def blocks():
    title('n from 1 to 16, K from 1 to 16')
    for n, k in itertools.product(range(1, 17), range(1, 17)):
        zeros(n, 16, k, 0, 1)
    title('K = 2 and L = 2: n = 14, n = 15')
    for n in (14, 15):
        zeros(n, 2, 2, 0, 1)
    title('n, L, K, R, G around their limits')
    for x in range(3):
        for head in heads_around(x):
            zeros(*head)
    places = [("each byte as input E's first left term", 9), ('as its first right term', 12)]
    places += [('as its first goal term', 50), ('as its first cost', 8), ('as its first map byte', 5)]
    for heading, place in places:
        title(heading)
        for byte in range(256):
            check_block(E[:place] + [byte] + E[place + 1 :])
    title('input E with every set of faults 3, 4, 5, 6, 7')
    for k in range(32):
        check_block(faulty(subset(k, ['head', 'length', 'map', 'term', 'variable'])))
    title('input E cut to each length, and one byte longer')
    for length in range(len(E) + 2):
        check_block((E + [0])[:length])
    title('input E relabelled, into 56, 52 and 51 bytes; then with fault 5 into 51')
    for room, faults in [(56, set()), (52, set()), (51, set()), (51, {'map'})]:
        relabel_block(faulty(faults), [170] * room)


def rules():
    def application(rule, faults):
        state = [1, 2, 3 if 'state' in faults else 0]
        apply_rule(faulty(faults), 6 if 'rule' in faults else rule, state, [170] * (2 if 'buffer' in faults else 5))

    title('each rule of input E on <1,2,0>')
    for rule in range(7):
        application(rule, set())
    title('rule 2 with every set of faults 7, 8, 9, 11')
    for k in range(16):
        application(2, subset(k, ['variable', 'state', 'rule', 'buffer']))
    title('the goal of input E on <2,1,0>, <1,1,0>, <3,1,0>, two and four labels; then with fault 7')
    states = [[2, 1, 0], [1, 1, 0], [3, 1, 0], [2, 1], [2, 1, 0, 0]]
    for state in states:
        test_goals(E, state)
    for state in (states[0], states[2]):
        test_goals(faulty({'variable'}), state)


def block_of(n, labels, rules, goals=None, mapped=None):
    """A block. A rule is a cost and two sides, a goal one: labels as hexadecimal digits, variables as letters, dashes.

    There is one abstract label, or as many as labels where the map is given; the goal is one of dashes where none is
    given.
    """

    def terms(side):
        return [255 if term == '-' else '0123456789abcdefABCDEFGHIJKLMNOP'.index(term) for term in side]

    goals = goals or ['-' * n]
    out = [n, labels, labels if mapped else 1, len(rules), len(goals), *(mapped or [0] * labels)]
    for cost, left, right in rules:
        out += [cost, *terms(left), *terms(right)]
    return out + [byte for goal in goals for byte in terms(goal)]


def counter(bits, cost, goal, direction=1):
    """Counts up at a cost a step: 0 1 .. 1 at the end become 1 0 .. 0. Where the direction is -1 the last position
    comes first."""
    rules = []
    for ones in range(bits):
        kept = '-' * (bits - 1 - ones)
        left, right = kept + '0' + '1' * ones, kept + '1' + '0' * ones
        rules.append((cost, left[::direction], right[::direction]))
    return block_of(bits, 2, rules, [goal], [0, 1])


# 64 steps of cost 255 from all zeros to the goal.
DEEP = counter(7, 255, '1000000')


def cycles():
    """Cycles at no cost: one has a way to the goal, the other has none."""
    steps = [(0, '0', '1'), (0, '1', '2'), (0, '2', '0'), (5, '2', '3'), (0, '4', '5'), (0, '5', '4')]
    return block_of(1, 6, steps, ['3'], list(range(6)))


def step_back_from(block, rule, *states):
    """All predecessors of each state, and then that there is none further."""
    for state in states:
        earlier, value = None, 'found'
        while value == 'found':
            value, out = step_back(block, rule, state, earlier, [170] * 7)
            earlier = out[: len(state)]


def step_back_after(block, rule, state, *earlier):
    for text in earlier:
        step_back(block, rule, state, list(map(int, text)), [170] * 7)


def all_reversible(block, rules):
    for rule in range(rules + 1):
        reversible(block, rule)


def printed_predecessors():
    example = block_of(6, 8, [(1, 'AA1-BC', '2---CB')])
    title('<A,A,1,-,B,C> to <2,-,-,-,C,B>, back from <2,4,1,7,6,5>')
    step_back_from(example, 0, [2, 4, 1, 7, 6, 5])
    title('back from <1,4,1,7,6,5>, <2,4,0,7,6,5> and <2,2,1,0,0,0>')
    step_back_from(example, 0, [1, 4, 1, 7, 6, 5], [2, 4, 0, 7, 6, 5], [2, 2, 1, 0, 0, 0])
    six = block_of(4, 6, [(1, 'AA--', '-2--'), (1, 'AA--', '--A-')])
    title('<A,A,-,-> to <-,2,-,-> and <A,A,-,-> to <-,-,A,->, reversible and not')
    all_reversible(six, 2)
    title('the first rule back from <4,2,0,5> and <4,3,0,5>')
    step_back_from(six, 0, [4, 2, 0, 5], [4, 3, 0, 5])
    title('the second rule back from <1,1,1,5>')
    step_back_from(six, 1, [1, 1, 1, 5])
    title('after <0,0,0,0>, <1,1,2,4>, <1,1,3,0>, <1,1,5,4>, <1,1,5,5>, <1,2,0,0>, <5,5,5,5>')
    step_back_after(six, 1, [1, 1, 1, 5], '0000', '1124', '1130', '1154', '1155', '1200', '5555')


def small_predecessors():
    one = block_of(2, 1, [(1, 'A-', '0-'), (1, '--', '00')])
    title('one label: <A,-> to <0,->, <-,-> to <0,0>, not reversible by form')
    all_reversible(one, 2)
    title('yet <0,0> has one predecessor')
    step_back_from(one, 0, [0, 0])
    step_back_from(one, 1, [0, 0])
    title('twelve rules, reversible and not')
    forms = 'A--0-- AA-0-- A--0A- AB-BA- 0--1-- ---0-- ABBAAB AB1AA0 AAA00A AAA01- AAA011 ------'
    twelve = block_of(3, 2, [(1, form[:3], form[3:]) for form in forms.split()])
    all_reversible(twelve, 12)
    title('rule 10, <A,A,A> to <0,1,1>, back from <0,1,1>; then after <0,0,1>, <0,1,0>')
    step_back_from(twelve, 10, [0, 1, 1])
    step_back_after(twelve, 10, [0, 1, 1], '001', '010')


def faulty_step_back(faults, earlier):
    if earlier and 'earlier' in faults:
        earlier = [3, *earlier[1:]]
    state = [1, 0, 3 if 'state' in faults else 2]
    out = [170] * (2 if 'buffer' in faults else 5)
    step_back(faulty(faults), 6 if 'rule' in faults else 2, state, earlier, out)


def faulty_predecessors():
    title("rule 2 back from <1,0,2>, 'first', with every set of faults 7, 8, 9, 11")
    for k in range(16):
        faulty_step_back(subset(k, ['variable', 'state', 'rule', 'buffer']), None)
    title('rule 2 back from <1,0,2> after <1,0,0>, with every set of faults 7, 8, 8 of the earlier state, 9, 11')
    for k in range(32):
        faulty_step_back(subset(k, ['variable', 'state', 'earlier', 'rule', 'buffer']), [1, 0, 0])
    title('the state with two, three, four labels, and the earlier state with none, two, three, four')
    for count, earlier in itertools.product((2, 3, 4), (0, 2, 3, 4)):
        step_back(E, 2, [1, 0, 2, 0][:count], [1, 0, 0, 0][:earlier], [170] * 5)
    title('rule 2 reversible, with every set of faults 7, 9')
    for k in range(4):
        faults = subset(k, ['variable', 'rule'])
        reversible(faulty(faults), 6 if 'rule' in faults else 2)


def predecessors():
    printed_predecessors()
    small_predecessors()
    faulty_predecessors()


def replays():
    def replay_all(block, start, *lists):
        for rules in lists:
            replay(block, start, rules, [170] * 5)

    title('input E from <1,2,0>: 2 0 5, 4 1 3, the empty list, 2 0 0, 0, 4 5 4 5 4 2')
    replay_all(E, [1, 2, 0], [2, 0, 5], [4, 1, 3], [], [2, 0, 0], [0], [4, 5, 4, 5, 4, 2])
    title('with an absent number: 6, 2 6, 2 0 0 6, 255')
    replay_all(E, [1, 2, 0], [6], [2, 6], [2, 0, 0, 6], [255])
    turns = [0, 1] * 2049

    def long(length, at, number):
        replay_all(E, [1, 0, 2], (turns[:at] + [number] + turns[at + 1 :])[:length])

    title('0 1 in turn from <1,0,2>: 4,095, 4,096 and 4,097 numbers')
    for length in (4095, 4096, 4097):
        long(length, 0, 0)
    title('4,096 numbers, stuck at the last, and the last absent')
    long(4096, 4095, 0)
    long(4096, 4095, 6)
    title('4,097 numbers, stuck at index 3, and the last absent')
    long(4097, 3, 0)
    long(4097, 4096, 6)
    title('4,096 rules of cost 255')
    replay_all(block_of(1, 1, [(255, '-', '-')]), [0], [0] * 4096)
    title('2 0 5 from <1,2,0>, with every set of faults 7, 8, 9, 10, 11')
    for k in range(32):
        faults = subset(k, ['variable', 'state', 'rule', 'limit', 'buffer'])
        last = [6 if 'rule' in faults else 5]
        rules = [2, 0] + last + ([0] * 4093 + last if 'limit' in faults else [])
        out = [170] * (2 if 'buffer' in faults else 5)
        replay(faulty(faults), [1, 2, 3 if 'state' in faults else 0], rules, out)


# What stands in a table before it is filled.
UNWRITTEN = 0xAAAAAAAA

# Input E's table, as the document prints it.
E_TABLE = [reference.MARK if entry == 'M' else int(entry) for entry in 'M M M 2 M 1 0 M'.split()]
assert reference.fill_table(E, [], [UNWRITTEN] * 8) == ('filled', E_TABLE)


def fill_and_test(block):
    """The fill; the test, then with each element raised, lowered, marked, 0 and large."""
    mark = reference.MARK
    _, table = fill_table(block, [UNWRITTEN] * 10)
    test_table(block, table)
    for at, entry in enumerate(table):
        for other in (min(entry + 1, mark), max(entry - 1, 0), mark, 0, mark - 1):
            test_table(block, table[:at] + [other] + table[at + 1 :])


def one_rule(cost):
    return block_of(1, 3, [(cost, '0', '1')], ['2'], [0, 1, 2])


def filled_tables():
    title('input E: the fill; the test, then with each element raised, lowered, marked, 0 and large')
    fill_and_test(E)
    title('the test on zeros')
    test_table(E, [0] * 10)
    title('<0> to <1> at cost 255')
    fill_and_test(one_rule(255))
    title('one abstract label')
    fill_and_test(block_of(3, 2, [(7, '0A-', '1-A'), (0, '---', '---')], ['101']))
    title('no rules')
    fill_and_test(block_of(2, 2, [], ['1-'], [0, 1]))
    title('cycles at no cost, with and without a way to the goal')
    fill_and_test(cycles())
    title('three goals')
    fill_and_test(block_of(2, 3, [(4, '01', '-0'), (3, '1A', 'A1')], ['AA', '2-', '02'], [0, 1, 2]))
    title('a goal of dashes')
    fill_and_test(block_of(2, 2, [(1, '0-', '1-')], ['00', '--'], [0, 1]))
    title('a map that is not onto')
    fill_and_test(block_of(2, 3, [(1, 'PO', 'OP'), (2, '1P', '2-')], ['22'], [0, 0, 2]))
    title('input E over 0, 1, 4294967294 and the mark: the fill; the test, on zeros too')
    for contents in (0, 1, reference.MARK - 1, reference.MARK):
        _, filled = fill_table(E, [contents] * 10)
        test_table(E, filled)
        test_table(E, [0] * 8 + [contents] * 2)


def estimates(table):
    for state in itertools.product(range(3), repeat=3):
        look_up(E, state, table)


def looked_up_estimates():
    failing = [9, 8, 7, 6, 5, reference.MARK - 1, reference.MARK, 2, 1, 0]
    title("the estimates of <0,0,0>, .., <2,2,2> by input E's table")
    estimates(E_TABLE + [0, 0])
    title('and by a table that fails the test')
    test_table(E, failing)
    estimates(failing)


def entries_around_limits():
    mark = reference.MARK
    entries = [0, 1, 2, 254, 255, 256, 257, mark - 257, mark - 256, mark - 255, mark - 2, mark - 1, mark]
    for cost in (0, 1, 255):
        title(f'<0> to <1> at cost {cost}: the test for each entry of <1> and of <0>')
        for v, u in itertools.product(entries, entries):
            test_table(one_rule(cost), [u, v, 0])
    title('for each entry of the goal the test')
    for goal in entries:
        test_table(one_rule(1), [0, 0, goal])


def short_tables():
    table = E_TABLE + [0, 0]
    title('the fill of input E into 0 to 10 elements, then with fault 7')
    for faults in (set(), {'variable'}):
        for length in range(11):
            fill_table(faulty(faults), [UNWRITTEN] * length)
    title('the test on the first 0 to 10 elements, then with fault 7')
    for faults in (set(), {'variable'}):
        for length in range(11):
            test_table(faulty(faults), table[:length])
    title('the estimate of <1,2,0> by the first 0 to 10 elements, with every set of faults 7, 8')
    for k in range(4):
        faults = subset(k, ['variable', 'state'])
        state = [1, 2, 3 if 'state' in faults else 0]
        for length in range(11):
            look_up(faulty(faults), state, table[:length])
    title('the estimate of none, two, three and four labels, by ten elements and by seven')
    for length in (10, 7):
        for count in (0, 2, 3, 4):
            look_up(E, [1, 2, 0, 0][:count], table[:length])


def tables():
    filled_tables()
    looked_up_estimates()
    entries_around_limits()
    short_tables()


@functools.lru_cache(maxsize=8)
def listing(block, start, steps):
    return reference.Listing(reference.exercise_of(block), start, steps)


def find_and_compare(block, start, steps, limit, allowance, table, plan, maps=()):
    """The search by its rounds, compared with the listing of all open lists, which has no rounds, and whose plan has no
    table. A plan that is replayed has the same cost and goal."""
    value, out = reference.find_plan(block, maps, start, steps, limit, allowance, table, plan)
    if isinstance(value, tuple):
        status, length, cost, visits, *goal = value
        every = listing(tuple(block), tuple(start), steps)
        single = [(reference.abstraction(tuple(variant)), part) for variant, part in variants(block, maps, table)]
        unbounded = every.visits(lambda state: max(ranks.estimate(state, part) for ranks, part in single), limit)
        if status == 'spent':
            assert unbounded > allowance == visits and out == plan
        else:
            cheapest = every.plan if every.plan and every.plan[1] <= limit else ([], 0)
            assert unbounded == visits <= allowance
            assert (status == 'found') == (every.plan is not None and every.plan[1] <= limit)
            assert (out, cost) == (cheapest[0] + plan[len(cheapest[0]) :], cheapest[1])
        if status == 'found':
            assert reference.replay(block, start, out[:length], start)[0] == ('done', cost, *goal)
    return value, out


def find_plan(block, start, steps, limit, allowance, table, plan, maps=()):
    value, out = find_and_compare(block, start, steps, limit, allowance, table, plan, maps)
    query = [packed_bytes(block), packed_bytes(maps), packed_bytes(start), steps, limit, allowance]
    return line('find_plan', [*query, packed_entries(table), packed_bytes(plan)], value, packed_bytes(out))


def search(block, start, steps, limit, allowance, table, room=12, maps=()):
    return find_plan(block, start, steps, limit, allowance, table, [170] * room, maps)


def search_e(steps, limit, allowance, table=E_TABLE):
    search(E, [1, 2, 0], steps, limit, allowance, table)


def searches_of_e():
    title('input E from <1,2,0>: D = 8, B = 100, V = 100; V = 9; B = 4; D = 2; on zeros; D = 65; then from the goal')
    for limits in [(8, 100, 100), (8, 100, 9), (8, 4, 100), (2, 100, 100), (8, 100, 100, [0] * 8), (65, 100, 100)]:
        search_e(*limits)
    search(E, [2, 1, 0], 8, 100, 100, E_TABLE)
    title('D = 66, D = 4294967304, D = 18446744073709551615')
    for steps in (66, 2**32 + 8, 2**64 - 1):
        search_e(steps, 100, 100)
    title('V from 0 to 11; on zeros from 0 to 20; for B = 4 from 0 to 7; for D = 2 from 0 to 12')
    cases = [(8, 100, E_TABLE, 11), (8, 100, [0] * 8, 20), (8, 4, E_TABLE, 7), (2, 100, E_TABLE, 12)]
    for steps, limit, contents, most in cases:
        for allowance in range(most + 1):
            search_e(steps, limit, allowance, contents)
    title('B from 0 to 7; on zeros')
    for contents in (E_TABLE, [0] * 8):
        for limit in range(8):
            search_e(8, limit, 100, contents)
    title('D from 0 to 9; on zeros')
    for contents in (E_TABLE, [0] * 8):
        for steps in range(10):
            search_e(steps, 100, 100, contents)
    title(
        'from the goal; from <0,1,2>, whose estimate is 2; from <0,0,0>, which is marked; from <0,0,0> on zeros:'
        ' B = 0, 1, 2 with V = 0 and V = 100, then B = 100 with V = 0, 1, 100'
    )
    pairs = [*itertools.product((0, 1, 2), (0, 100)), (100, 0), (100, 1), (100, 100)]
    for start, contents in [([2, 1, 0], E_TABLE), ([0, 1, 2], E_TABLE), ([0, 0, 0], E_TABLE), ([0, 0, 0], [0] * 8)]:
        for limit, allowance in pairs:
            search(E, start, 8, limit, allowance, contents)


def search_twice(block, start, steps=6, limit=100):
    """On the filled table, and on zeros; both have at least six elements."""
    length = max(6, block[2] ** block[0])
    for contents in (reference.fill_table(block, [], [UNWRITTEN] * length)[1], [0] * length):
        search(block, start, steps, limit, 100, contents)


def searches_of_one_position():
    title('a short way to the goal that costs more, on a filled table and on zeros')
    search_twice(block_of(1, 3, [(5, '0', '2'), (1, '0', '1'), (1, '1', '2')], ['2'], [0, 1, 2]), [0])
    title('two rules to one state, and no way to the goal')
    search_twice(block_of(1, 4, [(1, '0', '1'), (1, '0', '1'), (1, '1', '2')], ['3'], list(range(4))), [0])
    title('three steps and one at the same cost')
    edges = [(0, '0', '1'), (0, '1', '2'), (2, '2', '3'), (2, '0', '3')]
    search_twice(block_of(1, 4, edges, ['3'], list(range(4))), [0])
    title('cycles at no cost, with and without a way to the goal')
    for start in (0, 1, 4):
        search_twice(cycles(), [start])


def search_with_large_figures(first):
    mark = reference.MARK
    block = block_of(1, 4, [(1, '0', '1'), (255, '1', '2')], ['3'], list(range(4)))
    limits = [(6, mark - 2, 100), (6, mark - 1, 100), (6, mark, 100), (1, mark, 100), (0, mark, 100)]
    for steps, limit, allowance in limits + [(6, mark, 3), (6, mark, 2), (6, mark, 1)]:
        search(block, [0], steps, limit, allowance, [first, mark - 1, mark - 1, 0])


def searches_with_large_figures():
    title(
        'figures of 4294967294, 4294967295 and 4294967550: B = 4294967293, 4294967294, 4294967295, then with D = 1'
        ' and 0, then with V = 3, 2, 1'
    )
    search_with_large_figures(reference.MARK - 1)
    title('the same where the first estimate is 0')
    search_with_large_figures(0)
    title('and where it is the mark, by a table that fails the test')
    search_with_large_figures(reference.MARK)


def search_deep(contents, needed):
    """64 steps, with each of steps, cost, visits and room at what is needed, and beyond it."""
    for steps, limit, allowance, room in [
        (64, 16320, needed, 70),
        (64, 16320, needed, 64),
        (64, 16320, needed, 63),
        (65, 16320, needed, 70),
        (63, 16320, needed, 70),
        (64, 16319, needed, 70),
        (64, 16320, needed - 1, 70),
    ]:
        search(DEEP, [0] * 7, steps, limit, allowance, contents, room)


def large_searches():
    title('64 steps of cost 255: into 70, 64 and 63 bytes; D = 65; D = 63; B = 16319; V too small')
    search_deep(reference.fill_table(DEEP, [], [UNWRITTEN] * 128)[1], 65)
    title('on zeros')
    search_deep([0] * 128, 2145)
    title('sixteen positions and labels, five steps: D = 12, D = 4, B = 14, V = 20')
    turn = block_of(16, 16, [(3, 'ABCDEFGHIJKLMNOP', 'BCDEFGHIJKLMNOPA')], ['56789abcdef01234'])
    for steps, limit, allowance in [(12, 15, 21), (4, 15, 21), (12, 14, 21), (12, 15, 20)]:
        search(turn, list(range(16)), steps, limit, allowance, [0])


def faulty_searches():
    longer = E_TABLE + [UNWRITTEN] * 2
    title('three steps into 0, 2, 3 and 4 bytes; then by 0, 7, 8 and 9 elements; then both too short')
    for room, length in [(0, 10), (2, 10), (3, 10), (4, 10), (3, 0), (3, 7), (3, 8), (3, 9), (2, 7)]:
        search(E, [1, 2, 0], 3, 100, 100, longer[:length], room)
    title('input E from <1,2,0>, with every set of faults 7, 8, 10, 11, 12, 13')
    for k in range(64):
        faults = subset(k, ['variable', 'state', 'limit', 'buffer', 'table', 'test'])
        start = [1, 2, 3 if 'state' in faults else 0]
        failing = longer[:5] + [2 if 'test' in faults else 1] + longer[6:]
        steps = 65 if 'limit' in faults else 8
        room, length = (7 if fault in faults else 8 for fault in ('buffer', 'table'))
        search(faulty(faults), start, steps, 100, 100, failing[:length], room)


def searches():
    searches_of_e()
    searches_of_one_position()
    searches_with_large_figures()
    large_searches()
    faulty_searches()


# The largest block there is, with zeros behind its head.
LARGEST = [16, 16, 1, 64, 8] + [0] * 2256

# Input E's text.
E_TEXT = ('\n'.join(INPUT_E.split()) + '\n').encode()


def replaced(text, start, stop, by=b''):
    """A text with a part replaced; where the part ends before it begins, what stands between comes twice."""
    return text[:start] + by + text[stop:]


def text_of(block):
    """A block as text, a frame a line by its head, whatever that holds; no line is empty."""
    n, labels, _, rules, _ = block[:5]
    lengths = itertools.chain([5, labels], [1 + 2 * n] * rules, itertools.repeat(n))
    rest, lines = bytes(block), []
    while rest:
        length = max(next(lengths), 1)
        lines.append(rest[:length].hex().upper().encode() + b'\n')
        rest = rest[length:]
    return b''.join(lines)


def faulty_text(k):
    """Input E's text and the buffer's length, with a set of faults."""
    names = ['character', 'head line', 'head', 'line', 'buffer', 'map', 'term', 'variable']
    changes = {'character': (113, b'a'), 'head': (9, b'9'), 'map': (12, b'2'), 'term': (109, b'3')}
    changes['variable'] = 26, b'11'
    faults, text = subset(k, names), E_TEXT
    for fault in faults & changes.keys():
        place, by = changes[fault]
        text = replaced(text, place, place + len(by), by)
    text = text[2 if 'head line' in faults else 0 : 33] + text[48 if 'line' in faults else 33 :]
    return text, 52 if 'buffer' in faults else 56


def reading(text, room=56):
    read_exercise(text, [170] * room)


def readings(*edits):
    for edit in edits:
        reading(replaced(E_TEXT, *edit))


def faulty_texts():
    title("input E's text")
    reading(E_TEXT)
    title(
        'a lower-case digit, a head line of eight digits, a head out of limits, a line missing, a buffer of 52 bytes,'
        ' map byte 2, term 3, an unbound variable'
    )
    for fault in range(8):
        reading(*faulty_text(1 << fault))
    title('every set of these faults')
    for k in range(256):
        reading(*faulty_text(k))


def texts_with_other_characters():
    title(
        "in the map's line a digit left out, a digit more; in the head line; a digit moved from the map's line to rule"
        " 0's, from rule 0's to the map's"
    )
    readings((16, 17), (17, 17, b'0'), (9, 10), (10, 10, b'0'), (16, 18, b'\n1'), (17, 19, b'0\n'))
    title(
        'a carriage return before the first line feed, before the last, for the last; a blank before, in, behind the'
        " map's line, for a digit; a zero byte for a digit, behind the text; lower case in the head line"
    )
    readings((10, 10, b'\r'), (114, 114, b'\r'), (114, 115, b'\r'))
    readings((11, 11, b' '), (13, 13, b' '), (17, 17, b' '), (13, 14, b' '))
    readings((13, 14, b'\0'), (115, 115, b'\0'), (1, 2, b'a'))
    for heading, place in [("each character as the first digit of rule 0's cost", 18), ('as the second', 19)]:
        title(heading)
        for character in range(256):
            reading(replaced(E_TEXT, place, place + 1, bytes([character])))


def texts_with_other_lines():
    title(
        'the last line unended; no text; one line feed, two; an empty line behind the text, in front of it, within it;'
        ' the head line alone'
    )
    within = replaced(E_TEXT, 33, 33, b'\n')
    for text in (E_TEXT[:-1], b'', b'\n', b'\n\n', E_TEXT + b'\n', b'\n' + E_TEXT, within, E_TEXT[:11]):
        reading(text)
    title(
        "behind the text a goal's line, a query's, a goal's unended, a goal's with a lower-case digit, with an odd"
        ' number'
    )
    for more in (b'020100\n', b'010200080000006400000064\n', b'020100', b'02010a\n', b'02010\n'):
        reading(E_TEXT + more)
    lines = reference.lines_of(E_TEXT)
    for i in range(9):
        before, own, behind = lines[:i], lines[i], lines[i + 1 :]
        title(f'line {i} left out, doubled, exchanged with the next, without its first pair, with a pair more')
        exchanged = [*behind[:1], own, *behind[1:]]
        for changed in (behind, [own, own, *behind], exchanged, [own[2:], *behind], [b'00' + own, *behind]):
            reading(b''.join(before + changed))
    title('each line feed but the last moved to the front by two digits, by one, to the back by one, by two')
    for at in itertools.accumulate(map(len, lines[:8])):
        joined = replaced(E_TEXT, at - 1, at)
        for by in (-2, -1, 1, 2):
            reading(replaced(joined, at - 1 + by, at - 1 + by, b'\n'))


def texts_edited_everywhere():
    edits_of = {
        'each character left out': lambda at: (at, at + 1),
        'each doubled': lambda at: (at + 1, at),
        'a line feed for each': lambda at: (at, at + 1, b'\n'),
        'a line feed before each': lambda at: (at, at, b'\n'),
        'the digit 0 for each': lambda at: (at, at + 1, b'0'),
        'the text cut before each': lambda at: (at, 115),
        'the text from each on': lambda at: (0, at),
    }
    for heading, edit in edits_of.items():
        title(heading)
        readings(*(edit(at) for at in range(115)))


def texts_with_other_heads():
    title('a head line of twelve digits, of eight; both with a head out of limits; another head line in front')
    readings((10, 10, b'00'), (8, 10), (9, 10, b'900'), (0, 10, b'00030206'), (0, 0, b'0303020600\n'))
    title('the head line alone: n from 1 to 16, K from 1 to 16')
    for n, k in itertools.product(range(1, 17), range(1, 17)):
        reading(text_of([n, 16, k, 0, 1]))
    title('the head line alone: n, L, K, R, G around their limits')
    for x in range(3):
        for head in heads_around(x):
            reading(text_of(head))


def texts_into_short_buffers():
    title("input E's text into 0 to 56 bytes")
    for room in range(57):
        reading(E_TEXT, room)
    title('the smallest exercise, into 56, 7, 6 bytes')
    for room in (56, 7, 6):
        reading(b'0101010001\n00\n00\n', room)


def read_largest(*edit, room=2300):
    reading(replaced(text_of(LARGEST), *edit), room)


def largest_texts():
    title('the largest, into 2300, 2261, 2260 bytes; its last line missing, one more, unended')
    for room in (2300, 2261, 2260):
        read_largest(0, 0, room=room)
    for edit in [(4563, 4596), (4596, 4563), (4595, 4596)]:
        read_largest(*edit)
    title("its last map byte, the last goal's last term, the last rule's last term changed: good and bad")
    for place, pair in [(41, b'01'), (4593, b'FF'), (4593, b'20'), (4329, b'0F'), (4329, b'10')]:
        read_largest(place, place + 2, pair)
    title(
        'line feeds up to 40,000 characters; the last a lower-case digit, a digit; the head out of limits; the head'
        ' line unpaired'
    )
    for place, by in [(39999, b'\n'), (39999, b'a'), (39999, b'0'), (9, b'9'), (9, b'\n')]:
        reading(replaced(E_TEXT.ljust(40000, b'\n'), place, place + 1, by))


def texts():
    faulty_texts()
    texts_with_other_characters()
    texts_with_other_lines()
    texts_edited_everywhere()
    texts_with_other_heads()
    texts_into_short_buffers()
    largest_texts()


def query_bytes(start, steps, limit, allowance):
    return bytes([*start, steps]) + limit.to_bytes(4, 'big') + allowance.to_bytes(4, 'big')


def query_line(*asked):
    return query_bytes(*asked).hex().upper().encode() + b'\n'


# A query of input E that finds its plan, and input E with this query.
E_QUERY = query_line([1, 2, 0], 8, 100, 100)
E_SESSION = E_TEXT + E_QUERY


def queries(*lines):
    """Input E with these query lines."""
    par(E_TEXT + b''.join(lines))


def queries_within(start, *triples):
    queries(*(query_line(start, *triple) for triple in triples))


def sessions_replaced(*edits):
    for edit in edits:
        par(replaced(E_SESSION, *edit))


def sessions_with_limits():
    title('input E from <1,2,0>: D = 8, B = 100, V = 100; V = 9; B = 4; D = 2; D = 65; then from the goal')
    triples = [(8, 100, 100), (8, 100, 9), (8, 4, 100), (2, 100, 100), (65, 100, 100)]
    queries(*(query_line([1, 2, 0], *triple) for triple in triples), query_line([2, 1, 0], 8, 100, 100))
    title('the first of them alone, twice; no queries')
    for count in (1, 2, 0):
        queries(*[E_QUERY] * count)
    title('D = 0, 1, 3, 64, 65, 255; B = 0, 5, 1280, 83886080, 4294967295; V = 0, 10, 2560, 167772160, 4294967295')
    queries_within([1, 2, 0], *((steps, 100, 100) for steps in (0, 1, 3, 64, 65, 255)))
    queries_within([1, 2, 0], *((8, limit, 100) for limit in (0, 5, 1280, 83886080, 4294967295)))
    queries_within([1, 2, 0], *((8, 100, allowance) for allowance in (0, 10, 2560, 167772160, 4294967295)))
    title('from <2,1,0> and from <0,0,0>: D = 0; B = 0; V = 0, 1; all three 0')
    for start in ([2, 1, 0], [0, 0, 0]):
        queries_within(start, (0, 100, 100), (8, 0, 100), (8, 100, 0), (8, 100, 1), (0, 0, 0))


def sessions_with_other_lines():
    first = E_QUERY
    title('the last query line unended, alone, behind another; an unended part of it')
    for lines in ([first[:-1]], [first, first[:-1]], [first, first[:1]]):
        queries(*lines)
    title('an empty line before a query, between two, behind one; three empty lines')
    for lines in ([b'\n', first], [first, b'\n', first], [first, b'\n'], [b'\n'] * 3):
        queries(*lines)
    title(
        'before a query one with lower case, a carriage return at its end, a blank in front, behind, a zero byte'
        ' behind, a digit more, a digit less'
    )
    ended = [first[:-2] + b'a', first[:-1] + b'\r', b' ' + first[:-1], first[:-1] + b' ', first[:-1] + b'\0']
    for query in ended + [first[:-1] + b'0', first[:-2]]:
        queries(query + b'\n', first)
    title(
        "before a query one with a pair more, a pair less, a goal's line, the head line, two in one line, a label 3,"
        ' labels 255'
    )
    ended = [first[:-1] + b'00', first[:-3], b'020100', b'0303020601', first[:-1] * 2]
    for query in ended + [query_line(start, 8, 100, 100)[:-1] for start in ([1, 2, 3], [255] * 3)]:
        queries(query + b'\n', first)


def faulty_query(faults):
    query = query_line([3 if 'state' in faults else 1, 2, 0], 65 if 'limit' in faults else 8, 100, 100)
    pair = b'6a' if 'character' in faults else b'64'
    return query[:22] + (b'00' if 'length' in faults else b'') + pair + b'\n'


def faulty_queries():
    title('queries with every set of these faults: a lower-case digit, a pair more, a label 3, D = 65')
    queries(*(faulty_query(subset(k, ['character', 'length', 'state', 'limit'])) for k in range(16)))


def sessions_with_other_exercises():
    title(
        "no input; one line feed, two; the head line alone, unended, with only the map's line behind; all lines but"
        ' the last; the last unended'
    )
    for data in (b'', b'\n', b'\n\n', E_TEXT[:11], E_TEXT[:10], E_TEXT[:18], E_TEXT[:108], E_TEXT[:114]):
        par(data)
    title("a carriage return in the head line, in the map's line, in the last of the exercise")
    sessions_replaced((10, 10, b'\r'), (17, 17, b'\r'), (114, 114, b'\r'))
    title(
        "an empty line in front, within, behind the exercise; the map's line, a rule's, the goal's left out; the"
        " goal's doubled"
    )
    sessions_replaced((0, 0, b'\n'), (33, 33, b'\n'), (115, 115, b'\n'), (11, 18), (18, 33), (108, 115), (115, 108))
    title('one rule less, one more, one goal more, one label more by the head')
    sessions_replaced((7, 8, b'5'), (7, 8, b'7'), (9, 10, b'2'), (3, 4, b'4'))
    title(
        'lower case behind a head line of eight digits, of twelve, behind a head out of limits, in the line behind the'
        ' exercise'
    )
    sessions_replaced((8, 14, b'\n10a'), (10, 14, b'00\n00a'), (9, 14, b'9\n00a'), (115, 115, b'0a\n'))
    title(
        'a lower-case digit, a head line of eight digits, a head out of limits, a line missing, map byte 2, term 3,'
        ' an unbound variable'
    )
    for fault in (1, 2, 4, 8, 32, 64, 128):
        par(faulty_text(fault)[0] + E_QUERY)
    title('every set of these faults, the last three slowest')
    for k in range(128):
        par(faulty_text(k // 16 * 32 + k % 16)[0] + E_QUERY)


def session(block, *all_asked):
    """An exercise, and queries of a start and limits."""
    par(text_of(block) + b''.join(query_line(*asked) for asked in all_asked))


# Four positions of which each turns from 0 to 1 and back; no state meets the goal.
FLIPPED = [(1, '-' * i + a + '-' * (3 - i), '-' * i + b + '-' * (3 - i)) for i in range(4) for a, b in ('01', '10')]
FLIPS = block_of(4, 3, FLIPPED, ['2222'])


def large_sessions():
    title('64 steps of cost 255: D = 64, B = 16320, V = 65; V = 64; B = 16319; D = 63; then 63 steps')
    start = [0] * 7
    bounds = [(64, 16320, 65), (64, 16320, 64), (64, 16319, 65), (63, 16320, 65)]
    session(DEEP, *((start, *bound) for bound in bounds), ([0] * 6 + [1], 63, 16065, 64))
    title('no plan within 11 steps, after 81140 visits: V = 100000, 81140, 81139, 70000')
    session(FLIPS, *(([0] * 4, 11, 100, allowance) for allowance in (100000, 81140, 81139, 70000)))
    title('a table of 16384 entries: from <0,0,0,0,0,0,0>; from <3,2,1,0,1,2,3>, with D = 13; from the goal')
    raised = [(label + 2, f'{label}------', f'{label + 1}------') for label in range(3)]
    ring = block_of(7, 4, [(1, 'ABCDEFG', 'BCDEFGA'), *raised], ['3333333'], [0, 1, 2, 3])
    starts = [(start, 64), ([3, 2, 1, 0, 1, 2, 3], 64), ([3, 2, 1, 0, 1, 2, 3], 13), ([3] * 7, 64)]
    session(ring, *((start, steps, 1000, 1000) for start, steps in starts))
    title('the largest exercise, from <0,..,0>, which is a goal, and from <0,..,0,15>')
    session(LARGEST, ([0] * 16, 8, 100, 100), ([0] * 15 + [15], 8, 100, 100))


def long_sessions():
    title(
        'a query, an empty line and a long one, 32768, 32769, 32770, 40000 bytes in all; the long line unended, 32768'
        ' and 32769 bytes in all'
    )
    long = E_SESSION + b'\n'
    for length in (32768, 32769, 32770, 40000):
        par(long.ljust(length - 1, b'0') + b'\n')
    for length in (32768, 32769):
        par(long.ljust(length, b'0'))


def sessions():
    sessions_with_limits()
    sessions_with_other_lines()
    faulty_queries()
    sessions_with_other_exercises()
    large_sessions()
    long_sessions()


# Goal k is <k,1>: it is a step away from <k,0>, and cannot be reached from any other state.
EIGHT_GOALS = block_of(2, 8, [(2, 'A0', 'A1'), (1, 'A1', 'A2')], [f'{k}1' for k in range(8)], list(range(8)))

# Goals of which many a state meets several, and some states none: with constants, variables and dashes.
MIXED_GOALS = ['-1-', '10-', '20A', 'B0B', 'AA-', '0-A', 'A2A', '-AA']

# Each of these is the cheapest from some states by the rules of input E, and some steps away.
FAR_GOALS = ['22-', '002', '021', 'AA-']


def with_goals(block, goals):
    """A block of three positions with other goals."""
    without = block[: len(block) - 3 * block[4]]
    return without[:4] + [len(goals)] + without[5:] + block_of(3, 3, [], goals)[8:]


def all_states(n, labels):
    return [list(state) for state in itertools.product(range(labels), repeat=n)]


def goals_of_states():
    title('goal k is <k,1>, for k from 0 to 7: <0,0>, .., <7,2>')
    for k, last in itertools.product(range(8), range(3)):
        test_goals(EIGHT_GOALS, [k, last])
    for goals in (MIXED_GOALS, MIXED_GOALS[::-1]):
        title('goals ' + ', '.join(f'<{",".join(goal)}>' for goal in goals) + ': <0,0,0>, .., <2,2,2>')
        for state in all_states(3, 3):
            test_goals(block_of(3, 3, [], goals), state)
    title('<1,0> twice; <-,-> before <1,0>, behind it: on <0,0>, .., <1,1>')
    for goals in (['10', '10'], ['--', '10'], ['10', '--']):
        for state in all_states(2, 2):
            test_goals(block_of(2, 2, [], goals), state)
    title('sixteen positions, eight goals that ask for 8 to 15 at the last: on each label there')
    last_labels = block_of(16, 16, [], ['-' * 15 + label for label in '89abcdef'])
    for label in range(16):
        test_goals(last_labels, [7] * 15 + [label])


def goals_of_replays():
    def replay_all(block, start, *lists):
        for rules in lists:
            replay(block, start, rules, [170] * 4)

    title('goal k is <k,1>: from <k,0> the empty list; 0, to the goal; 0 1, past it; 0 0, stuck there; 1, stuck')
    for k in range(8):
        replay_all(EIGHT_GOALS, [k, 0], [], [0], [0, 1], [0, 0], [1])
    title('from the goal: the empty list; 1, away from it; 0, stuck there')
    for k in range(8):
        replay_all(EIGHT_GOALS, [k, 1], [], [1], [0])
    title('goals <2>, <0>, <3>, <0>, and <0> to <1> to <2> to <3> to <4>: from <0> no step to four, then stuck in each')
    chain = block_of(1, 5, [(2**k, f'{k}', f'{k + 1}') for k in range(4)], ['2', '0', '3', '0'])
    replay_all(chain, [0], *(list(range(length)) for length in range(5)))
    replay_all(chain, [0], [1], [0, 0], [0, 1, 1], [0, 1, 2, 2], [0, 1, 2, 3, 0])
    title('<0> to <1> and back, goals <1>, <0>: from <0> no step to five')
    turns = block_of(1, 2, [(1, '0', '1'), (1, '1', '0')], ['1', '0'])
    replay_all(turns, [0], *(([0, 1] * 3)[:length] for length in range(6)))
    title("input E's rules with eight goals, from <1,2,0>: every list of at most two rules")
    lists = itertools.chain.from_iterable(itertools.product(range(6), repeat=length) for length in range(3))
    replay_all(with_goals(E, MIXED_GOALS), [1, 2, 0], *map(list, lists))


def race(costs):
    """From <0> rule k leads to goal 7 - k, at its cost."""
    rules = [(cost, '0', f'{8 - k}') for k, cost in enumerate(costs)]
    return block_of(1, 9, rules, [f'{label}' for label in range(1, 9)], list(range(9)))


def goals_of_searches():
    title('goal k is <k,1>: from <k,0>, <k,1> and <k,2>; then from <7,0> with D = 0, B = 1, V = 1')
    table = reference.fill_table(EIGHT_GOALS, [], [UNWRITTEN] * 64)[1]
    for k, last in itertools.product(range(8), range(3)):
        search(EIGHT_GOALS, [k, last], 4, 100, 100, table)
    for limits in [(0, 100, 100), (4, 1, 100), (4, 100, 1)]:
        search(EIGHT_GOALS, [7, 0], *limits, table)
    title('<0> to goal 7 - k by rule k, for k from 0 to 7: rule k is the cheapest; then all cost the same')
    for k in range(8):
        search_twice(race([2 if rule == k else 3 for rule in range(8)]), [0])
    search_twice(race([3] * 8), [0])
    title('goal 0 by one rule of cost 5, goal 1 by two of cost 2: D = 2; D = 1; B = 4; B = 3')
    ways = block_of(1, 4, [(5, '0', '3'), (2, '0', '1'), (2, '1', '2')], ['3', '2'], list(range(4)))
    for limits in [(2, 100), (1, 100), (2, 4), (2, 3)]:
        search_twice(ways, [0], *limits)
    title('one abstract label: goal 0 is <3>, goal 1 is <2>, and <0> to <1> to <2> to <3>; from <0>, .., <3>')
    chain = block_of(1, 4, [(1, f'{k}', f'{k + 1}') for k in range(3)], ['3', '2'])
    for start in range(4):
        search(chain, [start], 4, 100, 100, [0])
    title('the last state meets goals 1 and 2; all three')
    for first in ('02', '11'):
        search_twice(block_of(2, 3, [(1, 'A0', 'A1')], [first, '-1', 'AA'], [0, 1, 2]), [1, 0])
    title("input E's rules with four goals: from <0,0,0>, .., <2,2,2>")
    for start in all_states(3, 3):
        search_twice(with_goals(E, FAR_GOALS), start, 4)


def goals_of_sessions():
    title('goal k is <k,1>: from <k,0>, <k,1> and <k,2>; then from <7,0> with D = 0, B = 1, V = 1, D = 65')
    states = [[k, last] for k, last in itertools.product(range(8), range(3))]
    limits = [(0, 100, 100), (4, 1, 100), (4, 100, 1), (65, 100, 100)]
    session(EIGHT_GOALS, *((state, 4, 100, 100) for state in states), *(([7, 0], *limit) for limit in limits))
    title("input E's rules with eight goals, with four: from <0,0,0>, .., <2,2,2>")
    for goals in (MIXED_GOALS, FAR_GOALS):
        session(with_goals(E, goals), *((start, 4, 100, 100) for start in all_states(3, 3)))
    title('64 steps of cost 255, to goal 7')
    ends = ['1000001', '1111111'] * 3 + ['1111110', '1000000']
    session(DEEP[:4] + [8] + DEEP[5:-7] + [int(label) for end in ends for label in end], ([0] * 7, 64, 16320, 65))


def goals():
    goals_of_states()
    goals_of_replays()
    goals_of_searches()
    goals_of_sessions()


def rings():
    """A ring turns where the next one to the end is 1 and all behind that are 0; the last turns always."""
    rules = []
    for ring in range(14):
        before, behind = '-' * (13 - ring), ('1' + '0' * (ring - 1)) if ring else ''
        rules += [(1, before + old + behind, before + new + '-' * ring) for old, new in ('01', '10')]
    return block_of(14, 2, rules, ['0' * 14], [0, 1])


def random_term(random, labels, label_share, variable_share):
    kind = random.random()
    if kind < label_share:
        return random.randrange(labels)
    return 16 + random.randrange(3) if kind < label_share + variable_share else 255


def random_right(random, left, place, labels):
    """A right term that has a binding or needs none."""
    kind, free = random.random(), left[place] == 255
    if kind < (0.25 if free else 0.6):
        return random.randrange(labels)
    return 255 if free or kind > 0.9 else random.choice(left)


def random_block(random, n, labels, abstracts, rules, goals):
    """A block that is accepted; many of its rules cost nothing, or the same, and few states meet its goals."""
    out = [n, labels, abstracts, rules, goals] + [label % abstracts for label in range(labels)]
    for _ in range(rules):
        out.append(random.randrange(random.choice([1, 4, 4, 256])))
        left = [random_term(random, labels, 0.25, 0.25) for _ in range(n)]
        out += left + [random_right(random, left, place, labels) for place in range(n)]
    return out + [random_term(random, labels, 0.75, 0.1) for _ in range(n * goals)]


def random_small_block(random):
    """A block for a table of at most 4,096 entries."""
    n, labels = random.randint(1, 6), random.choice([1, 2, 2, 3, 3, 4, 4])
    abstracts = random.randint(1, labels) if random.random() < 0.15 else labels
    return random_block(random, n, labels, abstracts, random.randint(0, 12), random.randint(1, 3))


# Further maps for input E, each K and a byte for each label: another pair of labels counts as one, none does, a third
# pair, all three; and its own map once more.
E_MAPS = [[2, 0, 0, 1], [3, 0, 1, 2], [2, 0, 1, 0], [1, 0, 0, 0], [2, 0, 1, 1]]

# What turns back a call that is lent maps, in the order in which it is looked for.
ORDER = [3, 4, 5, 6, 7, 14, 15, 8, 10, 11, 16, 12, 13]


def first_fault(faults):
    return next((number for number in ORDER if number in faults), None)


def refusal_of(answer):
    return answer if isinstance(answer, int) and not isinstance(answer, bool) else None


def joined(records):
    return [byte for record in records for byte in record]


def entries_of(block, maps):
    """How many entries all tables have together."""
    return sum(variant[2] ** variant[0] for variant, _ in variants(block, maps, []))


def filled(block, maps=()):
    """All tables behind one another, filled."""
    return reference.fill_table(block, maps, [UNWRITTEN] * entries_of(block, maps))[1]


def call_all(block, maps, state, table, refusal=None):
    """The four calls that are lent maps. All are refused with the number, or none where there is no number."""
    answers = [
        fill_table(block, [UNWRITTEN] * len(table), maps)[0],
        test_table(block, table, maps),
        look_up(block, state, table, maps),
        search(block, state, 5, 100, 100, table, 6, maps),
    ]
    refusals = [refusal_of(answer) for answer in answers]
    assert refusals == [refusal] * 4, (answers, refusal)


def maps_of_e():
    title('input E with none to five further maps: the four calls by what is filled, and two elements behind it')
    for count in range(6):
        maps = joined(E_MAPS[:count])
        table = filled(E, maps if count <= 3 else [])
        call_all(E, maps, [1, 2, 0], [*table, 0, 0], 14 if count > 3 else None)
    title('each choice of at most three of five maps, in each order: the fill into 60 elements, and the search by it')
    for count in range(4):
        for records in itertools.permutations(E_MAPS, count):
            _, table = fill_table(E, [UNWRITTEN] * 60, joined(records))
            search(E, [1, 2, 0], 8, 100, 100, table, 12, joined(records))
    title('each of them twice, three times: the fill into 120 elements, and the search by it')
    for count, record in itertools.product((2, 3), E_MAPS):
        _, table = fill_table(E, [UNWRITTEN] * 120, record * count)
        search(E, [1, 2, 0], 8, 100, 100, table, 12, record * count)


def lengths_of_maps():
    def lend(block, state, maps, lengths):
        width = 1 + block[1]
        for length in lengths:
            is_accepted = length % width == 0 and length <= 3 * width
            call_all(block, maps[:length], state, [0] * 60, None if is_accepted else 14)

    title('input E: the first 0 to 18 bytes of further maps')
    lend(E, [1, 2, 0], joined(E_MAPS), range(19))
    title('one label: the first 0 to 9 bytes')
    lend(block_of(2, 1, [(1, 'A-', '0-')]), [0, 0], [1, 0] * 5, range(10))
    title('sixteen labels: none; a byte; a byte less than one to four maps have, as many, one more')
    sixteen = block_of(1, 16, [(1, '0', 'f'), (2, 'f', '7')], ['7'])
    around = [0, 1, *(17 * count + more for count in range(1, 5) for more in (-1, 0, 1))]
    lend(sixteen, [0], [12, *range(12), 0, 1, 2, 3] * 5, around)
    title('input E: as many bytes as 256, 257, 65536 and 65537 maps have')
    for length in (1024, 1028, 262144, 262148):
        call_all(E, [0] * length, [1, 2, 0], [0] * 8, 14)


def numbers_in_maps():
    def lend(block, place, record, refusal):
        """The map at a place among three, the others being good."""
        maps = [[2] + [0, 1] * (block[1] // 2) + [0] * (block[1] % 2)] * 3
        maps[place] = record
        call_all(block, joined(maps), [0] * block[0], [0] * 80, refusal)

    title('input E: K of the first, second, third map is 0, 1, 2, 3, 4, 5, 16, 17, 127, 128, 255')
    for place, k in itertools.product(range(3), [*range(6), 16, 17, 127, 128, 255]):
        lend(E, place, [k, 0, 0, 0], None if 1 <= k <= 3 else 15)
    title('sixteen labels: K of the first, second, third map is 0, 1, 15, 16, 17')
    for place, k in itertools.product(range(3), (0, 1, 15, 16, 17)):
        lend(block_of(1, 16, [(1, '0', 'f')], ['7']), place, [k] + [0] * 16, None if 1 <= k <= 16 else 15)
    title('input E: each byte of the first, second, third map, whose K is 2, is 0, 1, 2, 3, 15, 16, 127, 128, 255')
    for place, at, byte in itertools.product(range(3), range(1, 4), [*range(4), 15, 16, 127, 128, 255]):
        maps = [[2, 0, 1, 0] for _ in range(3)]
        maps[place][at] = byte
        assert test_table(E, [0] * 32, joined(maps)) == (True if byte < 2 else 15)
    title("each byte of a map: 1, which is below the block's K, where K is 1; 2, which is not, where K is 3")
    for at, (k, byte, refusal) in itertools.product(range(3), [(1, 1, 15), (3, 2, None)]):
        lend(E, 0, [k, *(byte if label == at else 0 for label in range(3))], refusal)
    title("each byte of a map: 2, which is below the block's K, where K is 2; then where K is 3")
    for at, (k, refusal) in itertools.product(range(3), [(2, 15), (3, None)]):
        lend(reference.remapped(E, E_MAPS[1]), 0, [k, *(2 if label == at else 0 for label in range(3))], refusal)


# Positions, then the K of each map, the block's own first: with 16,384 entries together or somewhat fewer, and with
# more. 65,536 entries are none in 16 bits, and 16 to the power 16 are none in 64.
WITHIN = ['14 2', '13 2 2', '12 2 2 2 2', '3 16 16 16 16', '6 5 3', '6 5 3 1 1', '4 11 6 4 3', '5 6 6 3 3']
WITHIN += ['16 1 1 1 1']
ABOVE = ['14 2 1', '14 1 2', '13 2 2 1', '13 1 2 2', '12 2 2 2 3', '7 4 1', '7 1 4', '6 5 4', '6 5 3 2', '4 11 6 4 4']
ABOVE += ['5 6 6 4', '8 3 3 3', '4 11 7', '9 1 3', '15 1 2', '7 4 4 4 4', '14 2 2 2 2', '16 1 2', '16 1 2 2 2']
ABOVE += ['16 1 4', '8 1 16', '16 1 8', '16 1 16', '16 1 16 16 16', '16 1 1 1 16']


def large_maps():
    def exercise(text):
        """An exercise without rules, its further maps, and how many entries there are together. All labels count as
        one, and the others are not used."""
        n, own, *further = map(int, text.split())
        labels = max(own, *further, 2)
        maps = joined([k] + [0] * labels for k in further)
        return [n, labels, own, 0, 1] + [0] * (labels + n), maps, sum(k**n for k in (own, *further))

    for text in WITHIN:
        block, maps, entries = exercise(text)
        title(f'positions, then the K of each map: {text}: no table; one entry fewer than needed; as many; one more')
        assert entries == entries_of(block, maps) <= reference.MOST_ENTRIES
        for length in (0, entries - 1, entries, entries + 1):
            call_all(block, maps, [0] * block[0], [0] * length, 12 if length < entries else None)
    for text in ABOVE:
        block, maps, entries = exercise(text)
        title(f'{text}: no table; 16,384 entries')
        assert entries > reference.MOST_ENTRIES
        for length in (0, reference.MOST_ENTRIES):
            call_all(block, maps, [0] * block[0], [0] * length, 15)


def tables_by_maps():
    title('input E with one to three further maps: by 0, 7, 8, .. entries, up to one more than needed')
    for count in range(1, 4):
        maps = joined(E_MAPS[:count])
        table = [*filled(E, maps), 0]
        needed = len(table) - 1
        for length in [0, 7, 8, 15, 16, 17, 42, 43, 44, 50, 51, 52]:
            if length <= needed + 1:
                call_all(E, maps, [1, 2, 0], table[:length], 12 if length < needed else None)
    title('with one: the test with each entry raised, lowered, marked, 0 and large')
    mark, table = reference.MARK, filled(E, E_MAPS[0])
    for at, entry in enumerate(table):
        for other in (min(entry + 1, mark), max(entry - 1, 0), mark, 0, mark - 1):
            test_table(E, table[:at] + [other] + table[at + 1 :], E_MAPS[0])
    title("with three: the goal's entry is 1 in every set of tables; all four calls")
    maps = joined(E_MAPS[:3])
    table = filled(E, maps)
    goals = [place for place, entry in enumerate(table) if entry == 0]
    for k in range(16):
        failing = list(table)
        for place in subset(k, goals):
            failing[place] = 1
        fill_table(E, failing, maps)
        assert test_table(E, failing, maps) == (k == 0)
        look_up(E, [2, 1, 0], failing, maps)
        answer = search(E, [1, 2, 0], 5, 100, 100, failing, 6, maps)
        assert (answer == 13) == (k > 0)
    title('with two of as many entries: the tables of each order by each order of the maps')
    orders = [joined(order) for order in itertools.permutations([E_MAPS[0], E_MAPS[2]])]
    for lent, other in itertools.product(orders, orders):
        assert test_table(E, filled(E, other), lent) == (lent == other)
        search(E, [1, 2, 0], 5, 100, 100, filled(E, other), 6, lent)


def estimates_by_maps():
    title('input E with none to three further maps: the estimates of <0,0,0>, .., <2,2,2> by what is filled')
    for count in range(4):
        maps = joined(E_MAPS[:count])
        for state in all_states(3, 3):
            look_up(E, state, filled(E, maps), maps)
    title('four tables that fail: of <1,2,0> each entry the largest; the mark in every set; nearly the mark in each')
    maps, places = joined(E_MAPS[:3]), [6, 8 + 2, 16 + 15, 43 + 4]
    values = [[5, 6, 7, 8], [6, 7, 8, 5], [7, 8, 5, 6], [8, 5, 6, 7], [0, 0, 0, 0], [3, 3, 3, 3]]
    values += [[reference.MARK if k >> place & 1 else place for place in range(4)] for k in range(16)]
    values += [[reference.MARK - 1 if place == at else 7 for place in range(4)] for at in range(4)]
    for entries in values:
        table = [9] * 51
        for place, entry in zip(places, entries):
            table[place] = entry
        assert look_up(E, [1, 2, 0], table, maps) == ('entry', max(entries))


# From <0> two ways lead on: to <4> and <5>, from where none leads to the goal, and to <1>, <2> and <3>, the goal.
DEAD_END_WAYS = [(1, '0', '4'), (1, '4', '5'), (1, '5', '4'), (1, '0', '1'), (1, '1', '2'), (3, '2', '3')]
DEAD_END = block_of(1, 6, DEAD_END_WAYS, ['3'])



def moves(n, *steps):
    """Rules by which what stands at a position moves to an empty one (label 0), to and fro, for each reach and cost."""
    rules = []
    for reach, cost in steps:
        for i in range(n - reach):
            before, between, behind = ('-' * count for count in (i, reach - 1, n - 1 - reach - i))
            sides = [before + pair[0] + between + pair[1] + behind for pair in ('A0', '0A')]
            rules += [(cost, *sides), (cost, *sides[::-1])]
    return rules


# Five slots and three boxes: a step to the next slot at cost 1, over one slot at cost 3. By its own map all boxes count
# as one; each further map tells one of them from the others.
SLOTS = reference.remapped(block_of(5, 4, moves(5, (1, 1), (2, 3)), ['32100']), [2, 0, 1, 1, 1])
SLOTS_MAPS = [[3, 0, 1, 2, 2], [3, 0, 2, 1, 2], [3, 0, 2, 2, 1]]


def searches_by_maps():
    title('a way that ends nowhere: no further maps; a map that tells all labels first, second, third; from each start')
    telling, blind = [6, *range(6)], [1] + [0] * 6
    for maps in [[], *(joined([blind] * place + [telling] + [blind] * (2 - place)) for place in range(3))]:
        for start in range(6):
            search(DEAD_END, [start], 5, 100, 100, filled(DEAD_END, maps), 6, maps)
    title('five slots with none to three further maps, by what is filled, by zeros: V is large, as needed, one less')
    for start, count in itertools.product(([1, 2, 3, 0, 0], [0, 3, 1, 2, 0], [2, 0, 0, 3, 1]), range(4)):
        maps = joined(SLOTS_MAPS[:count])
        for table in (filled(SLOTS, maps), [0] * entries_of(SLOTS, maps)):
            *_, visits = search(SLOTS, start, 6, 100, 100000, table, 6, maps)[:4]
            search(SLOTS, start, 6, 100, visits, table, 6, maps)
            search(SLOTS, start, 6, 100, visits - 1, table, 6, maps)
    title('by all four: B from 0 to 12; D from 0 to 7; one table filled, and zeros in the others')
    maps, start = joined(SLOTS_MAPS), [1, 2, 3, 0, 0]
    table = filled(SLOTS, maps)
    for limit in range(13):
        search(SLOTS, start, 6, limit, 100000, table, 6, maps)
    for steps in range(8):
        search(SLOTS, start, steps, 100, 100000, table, 7, maps)
    bounds = list(itertools.accumulate([32, 243, 243, 243], initial=0))
    for first, last in itertools.pairwise(bounds):
        alone = [0] * first + table[first:last] + [0] * (len(table) - last)
        search(SLOTS, start, 6, 100, 100000, alone, 6, maps)


def searches_with_large_entries():
    mark = reference.MARK
    block = block_of(1, 4, [(1, '0', '1'), (255, '1', '2')], ['3'])
    telling, blind = [4, *range(4)], [1] + [0] * 4
    for place in range(3):
        maps = joined([blind] * place + [telling] + [blind] * (2 - place))
        title(f'figures around 4294967295 by further map {place}: the first estimate is large, 0, the mark; B, D, V')
        for first in (mark - 1, 0, mark):
            table = [0] * (1 + place) + [first, mark - 1, mark - 1, 0] + [0] * (2 - place)
            limits = [(6, mark - 2, 100), (6, mark - 1, 100), (6, mark, 100), (1, mark, 100), (0, mark, 100)]
            for steps, limit, allowance in limits + [(6, mark, 3), (6, mark, 2), (6, mark, 1)]:
                search(block, [0], steps, limit, allowance, table, 6, maps)


def random_lending(random, most_positions, most_goals, count):
    """Positions and labels, an exercise with them, and so many further maps."""
    n, labels = random.randint(1, most_positions), random.randint(1, 4)
    sizes = random.randint(1, labels), random.randint(0, 6), random.randint(1, most_goals)
    block = random_block(random, n, labels, *sizes)
    numbers = [random.randint(1, labels) for _ in range(count)]
    return n, labels, block, joined([k, *(random.randrange(k) for _ in range(labels))] for k in numbers)


def random_maps():
    title('random exercises with none to three further maps: the fill, the test, an estimate, a search by it, on zeros')
    random = Random(2)
    for number in range(48):
        n, labels, block, maps = random_lending(random, 3, 2, number % 4)
        state = [random.randrange(labels) for _ in range(n)]
        call_all(block, maps, state, filled(block, maps))
        search(block, state, 5, 100, 1000, [0] * entries_of(block, maps), 6, maps)


def faulty_arguments(faults, extra=(1,), wrong=(5, 4)):
    """Input E, two further maps, a state and their tables, with faults; further bytes for 14, a place and a byte there
    for 15."""
    names = {3: 'head', 4: 'length', 5: 'map', 6: 'term', 7: 'variable'}
    maps = joined(E_MAPS[:2])
    table = filled(E, maps)
    if 15 in faults:
        maps[wrong[0] - 1] = wrong[1]
    contents = [1 if 13 in faults and entry == 0 else entry for entry in table]
    block = faulty({name for number, name in names.items() if number in faults})
    state = [1, 2, 3 if 8 in faults else 0]
    return block, maps + list(extra) * (14 in faults), state, contents[: 42 if 12 in faults else 43]


def faulty_maps():
    title('input E with two further maps, and every set of faults 7, 14, 15, 12: the fill, the test')
    for k in range(16):
        faults = subset(k, [7, 14, 15, 12])
        block, maps, _, contents = faulty_arguments(faults)
        assert refusal_of(fill_table(block, contents, maps)[0]) == first_fault(faults)
        assert refusal_of(test_table(block, contents, maps)) == first_fault(faults)
    title('7, 14, 15, 8, 12: the estimate')
    for k in range(32):
        faults = subset(k, [7, 14, 15, 8, 12])
        block, maps, state, contents = faulty_arguments(faults)
        assert refusal_of(look_up(block, state, contents, maps)) == first_fault(faults)
    title('7, 14, 15, 8, 10, 11, 12, 13: the search')
    for k in range(256):
        faults = subset(k, [7, 14, 15, 8, 10, 11, 12, 13])
        block, maps, state, contents = faulty_arguments(faults)
        steps, room = 65 if 10 in faults else 6, 5 if 11 in faults else 6
        assert refusal_of(search(block, state, steps, 100, 100, contents, room, maps)) == first_fault(faults)
    title('each of 3 to 7 with 14, with 15, with both: the four calls')
    for number, further in itertools.product(range(3, 8), [{14}, {15}, {14, 15}]):
        block, maps, state, contents = faulty_arguments({number, *further})
        call_all(block, maps, state, contents, number)
    title('14 by one byte, by two maps more; 15 by K of 0, by K of 4, by a byte: each, both, with 8 and 12')
    for extra, wrong in itertools.product([(1,), (1, 0, 0, 0) * 2], [(1, 0), (5, 4), (8, 3)]):
        for faults in ({14}, {15}, {14, 15}, {14, 8, 12}, {15, 8, 12}):
            block, maps, state, contents = faulty_arguments(faults, extra, wrong)
            call_all(block, maps, state, contents, first_fault(faults))
    title('15 by too many entries, and a byte more; with a state of three labels; with both')
    wide = [14, 2, 1, 0, 1] + [0] * 16
    for more, count in itertools.product(([], [0]), (14, 3)):
        call_all(wide, [2, 0, 1, *more], [0] * count, [0], 14 if more else 15)


def maps():
    maps_of_e()
    lengths_of_maps()
    numbers_in_maps()
    large_maps()
    tables_by_maps()
    estimates_by_maps()
    searches_by_maps()
    searches_with_large_entries()
    random_maps()
    faulty_maps()


def taken_apart(record):
    """What an answer record says, as a single search tells it: its answer and its plan, in a buffer of zeros."""
    status, *rest = record
    if status == 255:
        return rest[0], rest[9:73]
    goal = [rest.pop(0)] if status == 0 else []
    cost, visits = (int.from_bytes(rest[at : at + 4], 'big') for at in (1, 5))
    return (['found', 'no plan', 'spent'][status], rest[0], cost, visits, *goal), rest[9:73]


def find_plans(block, queries, table, answers, maps=()):
    """Many searches in one call. Each record tells what a single search does; its other bytes are 0."""
    answer, after = reference.find_plans(block, maps, queries, table, answers)
    if isinstance(answer, tuple):
        width, (_, length) = block[0] + 9, answer
        asked = [queries[at : at + width] for at in range(0, len(queries), width)]
        records = [after[at : at + 75] for at in range(0, length, 75)]
        assert len(asked) == len(records)
        for query, record in zip(asked, records):
            start, (steps, *numbers) = query[: block[0]], query[block[0] :]
            limits = [int.from_bytes(numbers[at : at + 4], 'big') for at in (0, 4)]
            told = find_and_compare(block, start, steps, *limits, table, [0] * 64, maps)
            used = {0: 75, 255: 2}.get(record[0], 10)
            assert taken_apart(record) == told and not any(record[used:]), (record, told)
    arguments = [packed_bytes(part) for part in (block, maps, queries)]
    return line('find_plans', [*arguments, packed_entries(table), packed_bytes(answers)], answer, packed_bytes(after))


def queries_of(asked):
    return [byte for each in asked for byte in query_bytes(*each)]


def batch(block, asked, table, maps=(), room=None):
    """Queries of a start and limits in one call; where no room is given, with three bytes behind the answers."""
    answers = [170] * (75 * len(asked) + 3 if room is None else room)
    return find_plans(block, queries_of(asked), table, answers, maps)


def batch_of_e(asked, count, room):
    """So many queries of input E, those behind the given ones zeros throughout: from <0,0,0>, which is marked."""
    queries = queries_of(asked)
    return find_plans(E, queries + [0] * (12 * count - len(queries)), E_TABLE, [170] * room)


# Queries of input E: a plan, spent, no plan at this cost, none in so few steps, D is too large, at the goal, no label,
# no path.
E_ASKED = [([1, 2, 0], *limits) for limits in [(8, 100, 100), (8, 100, 9), (8, 4, 100), (2, 100, 100), (65, 100, 100)]]
E_ASKED += [(start, 8, 100, 100) for start in ([2, 1, 0], [1, 2, 3], [0, 0, 0])]


def batches_of_e():
    title('eight queries of input E: in one call, in reverse; on zeros')
    for table in (E_TABLE, [0] * 8):
        batch(E, E_ASKED, table)
        batch(E, E_ASKED[::-1], table)
    title('each of them alone, and behind each')
    for asked in E_ASKED:
        batch(E, [asked], E_TABLE)
    for pair in itertools.product(E_ASKED, E_ASKED):
        batch(E, pair, E_TABLE)
    title('from each state of input E: D = 8, B = 100, V = 100; V = 5')
    for allowance in (100, 5):
        batch(E, [(start, 8, 100, allowance) for start in all_states(3, 3)], E_TABLE)


def numbers_of_queries():
    title('input E: no records, 1, 2, 3, 255, 256')
    for count in (0, 1, 2, 3, 255, 256):
        answer = batch(E, list(itertools.islice(itertools.cycle(E_ASKED), count)), E_TABLE)
        assert answer == (('done', 75 * count) if count else 16)
    title('eight queries, and zeros up to 255, 256, 257, 258, 511, 512, 513 records')
    for count in (255, 256, 257, 258, 511, 512, 513):
        assert (batch_of_e(E_ASKED, count, 75 * count) == 16) == (count > 256)
    title('one position: 255, 256, 257, 65535, 65536, 65537, 65792 and 131072 records of zeros')
    for count in (255, 256, 257, 65535, 65536, 65537, 65792, 131072):
        find_plans(DEAD_END, [0] * (10 * count), [0], [170] * (75 * count))


def lengths_of_queries():
    def lend(block, asked, table, lengths):
        queries = queries_of(asked)
        for length in lengths:
            answer = find_plans(block, queries[:length], table, [170] * (75 * len(asked)))
            assert (answer != 16) == (length > 0 and length % (block[0] + 9) == 0)

    title('input E: the first 0 to 38 bytes of queries, into room for four answers')
    lend(E, E_ASKED[:4], E_TABLE, range(39))
    title('one position: the first 0 to 32 bytes')
    lend(DEAD_END, [([start], 5, 100, 100) for start in range(4)], [0], range(33))
    title('sixteen positions: the first 0, 1, 9, 10, 16, 17, 24, 25, 26, 49, 50, 51, 74, 75, 76 bytes')
    lend(TURNED, TURNED_ASKED, [0], [0, 1, 9, 10, 16, 17, 24, 25, 26, 49, 50, 51, 74, 75, 76])
    title('input E: a byte less than 256 records have, as many, one more; of zeros behind the first eight')
    lend(E, E_ASKED + [([0] * 3, 0, 0, 0)] * 249, E_TABLE, [3071, 3072, 3073])


# Sixteen positions and labels, and a rule that turns a state by one position; the goal is five steps away from the
# first start.
TURNED = block_of(16, 16, [(3, 'ABCDEFGHIJKLMNOP', 'BCDEFGHIJKLMNOPA')], ['56789abcdef01234'])
TURNED_ASKED = [(list(range(16)), *limits) for limits in [(12, 15, 21), (4, 15, 21), (12, 14, 21), (12, 15, 20)]]
TURNED_ASKED += [([5, *range(1, 16)], 64, 15, 21), ([*range(15), 16], 64, 15, 21)]


def rooms_for_answers():
    title('input E, one query: into 0, 1, 2, 10, 11, 14, 64, 73, 74, 75, 76, 150 bytes')
    for room in (0, 1, 2, 10, 11, 14, 64, 73, 74, 75, 76, 150):
        assert (batch(E, E_ASKED[:1], E_TABLE, (), room) == 16) == (room < 75)
    title('two and three: into two bytes less than they need, one less, as many, one more, 75 more')
    for count, more in itertools.product((2, 3), (-2, -1, 0, 1, 75)):
        assert (batch(E, E_ASKED[:count], E_TABLE, (), 75 * count + more) == 16) == (more < 0)
    title('256, of zeros behind the first eight: likewise, and into 0, 75, 1024 bytes')
    for room in (19198, 19199, 19200, 19201, 19275, 0, 75, 1024):
        assert (batch_of_e(E_ASKED, 256, room) == 16) == (room < 19200)
    title('a query that is refused, alone: into 2, 74, 75 bytes')
    for room in (2, 74, 75):
        batch(E, E_ASKED[4:5], E_TABLE, (), room)
    title('what the buffer held: zeros, 1, 255, and bytes that count up')
    for stale in ([0] * 605, [1] * 605, [255] * 605, [byte % 256 for byte in range(605)]):
        find_plans(E, queries_of(E_ASKED), E_TABLE, stale)


def refused_queries():
    good = [([1, 2, 0], 8, 100, 100), ([2, 1, 0], 8, 100, 100), ([1, 2, 0], 2, 100, 100), ([1, 0, 2], 8, 100, 3)]

    def spoilt(asked, faults):
        start, steps, *limits = asked
        return [3, *start[1:]] if 8 in faults else start, 65 if 10 in faults else steps, *limits

    title('four queries of which each set has a label 3, D = 65, both')
    for faults, k in itertools.product([{8}, {10}, {8, 10}], range(1, 16)):
        places = subset(k, range(4))
        batch(E, [spoilt(asked, faults if place in places else {}) for place, asked in enumerate(good)], E_TABLE)
    title('256 queries of zeros, the first, the 128th, the last, all with a label 3; with D = 65')
    zero = [0] * 3, 0, 0, 0
    for faults, places in itertools.product([{8}, {10}], [{0}, {127}, {255}, set(range(256))]):
        batch(E, [spoilt(zero, faults if place in places else {}) for place in range(256)], E_TABLE)
    title('at each position a label 2, 3, 4, 15, 16, 31, 32, 127, 128, 255')
    labels = (2, 3, 4, 15, 16, 31, 32, 127, 128, 255)
    starts = [[label if i == place else 0 for i in range(3)] for place in range(3) for label in labels]
    batch(E, [(start, 8, 100, 100) for start in starts], E_TABLE)
    title('D = 0, 1, 2, 3, 63, 64, 65, 66, 127, 128, 129, 254, 255; the same from <1,2,3>')
    steps = (0, 1, 2, 3, 63, 64, 65, 66, 127, 128, 129, 254, 255)
    for start in ([1, 2, 0], [1, 2, 3]):
        batch(E, [(start, each, 100, 100) for each in steps], E_TABLE)


def limits_of_queries():
    title('input E, V from 0 to 11 in one call, falling, in turn with 100; on zeros from 0 to 20, falling')
    rising = [([1, 2, 0], 8, 100, allowance) for allowance in range(12)]
    batch(E, rising, E_TABLE)
    batch(E, rising[::-1], E_TABLE)
    batch(E, [each for asked in rising for each in (E_ASKED[0], asked)], E_TABLE)
    rising = [([1, 2, 0], 8, 100, allowance) for allowance in range(21)]
    batch(E, rising, [0] * 8)
    batch(E, rising[::-1], [0] * 8)
    title('ten times as many visits as are needed; one fewer')
    for allowance in (10, 9):
        batch(E, [([1, 2, 0], 8, 100, allowance)] * 10, E_TABLE)
    title('B from 0 to 7, falling; D from 0 to 9, falling')
    for asked in [([1, 2, 0], 8, limit, 100) for limit in range(8)], [([1, 2, 0], d, 100, 100) for d in range(10)]:
        batch(E, asked, E_TABLE)
        batch(E, asked[::-1], E_TABLE)
    title('B = 0, 5, 1280, 327680, 83886080, 4294967295; V = 0, 10, 2560, 655360, 167772160, 4294967295')
    batch(E, [([1, 2, 0], 8, limit, 100) for limit in (0, 5, 1280, 327680, 83886080, 4294967295)], E_TABLE)
    batch(E, [([1, 2, 0], 8, 100, v) for v in (0, 10, 2560, 655360, 167772160, 4294967295)], E_TABLE)
    title('from <2,1,0>, <0,1,2>, <0,0,0>, on zeros too: B = 0, 1, 2, 100 with V = 0, 1, 100')
    starts, pairs = ([2, 1, 0], [0, 1, 2], [0, 0, 0]), list(itertools.product((0, 1, 2, 100), (0, 1, 100)))
    for table in (E_TABLE, [0] * 8):
        batch(E, [(start, 8, *pair) for start in starts for pair in pairs], table)
    mark = reference.MARK
    title('figures of 4294967294, 4294967295 and 4294967550: B around them, D and V small; the first estimate is 0 too')
    block = block_of(1, 4, [(1, '0', '1'), (255, '1', '2')], ['3'], list(range(4)))
    limits = [(6, mark - 2, 100), (6, mark - 1, 100), (6, mark, 100), (1, mark, 100), (0, mark, 100), (6, mark, 2)]
    for first in (mark - 1, 0):
        batch(block, [([0], *limit) for limit in limits], [first, mark - 1, mark - 1, 0])


def batches_of_long_plans():
    ends = ['1000001', '1111111'] * 3 + ['1111110', '1000000']
    block = DEEP[:4] + [8] + DEEP[5:-7] + [int(label) for end in ends for label in end]
    start, near = [0] * 7, [0] * 6 + [1]
    asked = [(start, 64, 16320, 65), (near, 63, 16065, 64), ([1] + [0] * 6, 64, 0, 1), (start, 64, 16319, 65)]
    asked += [(start, 64, 16320, 64), (start, 63, 16320, 65), (start, 65, 16320, 65), ([0] * 6 + [2], 64, 16320, 65)]
    title('64 steps of cost 255 to goal 7 before and behind 63 steps, none; B, V and D too small; D = 65; no label')
    for other in asked:
        batch(block, [asked[0], other], filled(block))
        batch(block, [other, asked[0]], filled(block))
    title('all of them, in reverse; 64 steps three times; on zeros')
    for table in (filled(block), [0] * 128):
        for several in (asked, asked[::-1], asked[:1] * 3):
            batch(block, [(*each[:3], 2145 if each[3] == 65 else each[3]) for each in several], table)
    title('sixteen positions and labels')
    batch(TURNED, TURNED_ASKED, [0])
    batch(TURNED, TURNED_ASKED[::-1], [0])
    title('no plan within 11 steps, after 81140 visits: V = 100000, 81140, 81139, 70000')
    batch(FLIPS, [([0] * 4, 11, 100, allowance) for allowance in (100000, 81140, 81139, 70000)], [0])


def batches_to_goals():
    title('goal k is <k,1>: from <k,0>, <k,1> and <k,2>, for k from 0 to 7, then falling')
    asked = [([k, last], 4, 100, 100) for k, last in itertools.product(range(8), range(3))]
    batch(EIGHT_GOALS, asked, filled(EIGHT_GOALS))
    batch(EIGHT_GOALS, asked[::-1], filled(EIGHT_GOALS))
    title("input E's rules with eight goals, with four: from <0,0,0>, .., <2,2,2>")
    for goals in (MIXED_GOALS, FAR_GOALS):
        block = with_goals(E, goals)
        batch(block, [(start, 4, 100, 100) for start in all_states(3, 3)], filled(block))


def batches_by_maps():
    title('input E with none to five further maps: eight queries by what is filled, on zeros, and elements behind them')
    for count in range(6):
        maps = joined(E_MAPS[:count])
        table = filled(E, maps if count <= 3 else [])
        for contents in (table, [0] * len(table), [*table, 7, 7]):
            answer = batch(E, E_ASKED, contents, maps)
            assert refusal_of(answer) == (14 if count > 3 else None)
    title('from <0,0,0>, .., <2,2,2> by one, two, three')
    for count in range(1, 4):
        maps = joined(E_MAPS[:count])
        batch(E, [(start, 8, 100, 100) for start in all_states(3, 3)], filled(E, maps), maps)
    title('a way that ends nowhere: no further maps; a map that tells all labels first, second, third; from each start')
    telling, blind = [6, *range(6)], [1] + [0] * 6
    for maps in [[], *(joined([blind] * place + [telling] + [blind] * (2 - place)) for place in range(3))]:
        batch(DEAD_END, [([start], 5, 100, 100) for start in range(6)], filled(DEAD_END, maps), maps)
    title('five slots with none to three further maps, by what is filled, by zeros')
    starts = ([1, 2, 3, 0, 0], [0, 3, 1, 2, 0], [2, 0, 0, 3, 1])
    asked = [(start, 6, 100, allowance) for allowance in (100000, 10, 100) for start in starts]
    for count in range(4):
        maps = joined(SLOTS_MAPS[:count])
        batch(SLOTS, asked, filled(SLOTS, maps), maps)
        batch(SLOTS, asked, [0] * entries_of(SLOTS, maps), maps)
    title("input E with three further maps: the goal's entry is 1 in every set of tables; one entry fewer")
    maps = joined(E_MAPS[:3])
    table = filled(E, maps)
    goals = [place for place, entry in enumerate(table) if entry == 0]
    for k in range(16):
        failing = [1 if place in subset(k, goals) else entry for place, entry in enumerate(table)]
        assert refusal_of(batch(E, E_ASKED, failing, maps)) == (13 if k else None)
    assert batch(E, E_ASKED, table[:-1], maps) == 12


def random_batches():
    title('random exercises with none to three further maps, and one to six queries, by what is filled and on zeros')
    random = Random(4)
    for number in range(60):
        n, labels, block, maps = random_lending(random, 4, 8, number % 4)
        asked = []
        for _ in range(random.randint(1, 6)):
            start = [random.randrange(labels + (random.random() < 0.05)) for _ in range(n)]
            limits = random.choice([0, 1, 2, 3, 100]), random.choice([0, 1, 2, 5, 1000])
            asked.append((start, random.choice([0, 1, 2, 3, 4, 5, 65]), *limits))
        for table in (filled(block, maps), [0] * entries_of(block, maps)):
            batch(block, asked, table, maps)


def faulty_batches():
    def lend(faults, reason='part'):
        """A call with faults; 16 is there by one of four reasons, 8 and 10 are faults of the second query alone."""
        block, maps, state, contents = faulty_arguments(faults)
        asked = [([1, 2, 0], 8, 100, 100), (state, 65 if 10 in faults else 8, 100, 100), ([2, 1, 0], 8, 100, 100)]
        queries, answers = queries_of(asked), [170] * 228
        if 16 in faults:
            lent = {'none': [], 'many': queries + [0] * (12 * 254), 'part': queries[:-1], 'room': queries}
            queries, answers = lent[reason], [170] * {'many': 19275, 'room': 224}.get(reason, 228)
        answer = find_plans(block, queries, contents, answers, maps)
        assert refusal_of(answer) == first_fault(set(faults) - {8, 10})

    reasons, numbers = ('none', 'many', 'part', 'room'), [3, 4, 5, 6, 7, 14, 15, 16, 12, 13]
    title('input E with two further maps, and every set of faults 7, 14, 15, 16, 12, 13; with 8 and 10 in a query too')
    for further in ((), (8, 10)):
        for k in range(64):
            lend(subset(k, [7, 14, 15, 16, 12, 13]) | {*further})
    title('8, 10, both in a query, and nothing else')
    for faults in ({8}, {10}, {8, 10}):
        lend(faults)
    title('16 by no records, by 257, by a byte missing, by room for a byte less: alone, and with each other fault')
    for reason, other in itertools.product(reasons, [*numbers, 8, 10]):
        lend({16, other}, reason)
    title('all other pairs of 3, 4, 5, 6, 7, 14, 15, 12, 13')
    for pair in itertools.combinations([number for number in numbers if number != 16], 2):
        lend(set(pair))
    title('16 by two reasons: a part of a record, no room; 257 records, a part more; 257, no room; no records, no room')
    queries = queries_of(E_ASKED[:1])
    for lent, room in [(queries[:-1], 0), ([0] * 3085, 19500), ([0] * 3084, 19200), ([], 0)]:
        assert find_plans(E, lent, E_TABLE, [170] * room) == 16


def batches():
    batches_of_e()
    numbers_of_queries()
    lengths_of_queries()
    rooms_for_answers()
    refused_queries()
    limits_of_queries()
    batches_of_long_plans()
    batches_to_goals()
    batches_by_maps()
    random_batches()
    faulty_batches()


def two_maps():
    """What samples/two_maps.c and rust/examples/two_maps.rs print: seven pancakes, of which the first ones are turned
    over. The exercise's own map tells the last three from the others, the further one odd labels from even ones."""
    fronts = ['ABCDEFG'[:count] for count in range(2, 8)]
    turns = [(1, front.ljust(7, '-'), front[::-1].ljust(7, '-')) for front in fronts]
    block = reference.remapped(block_of(7, 7, turns, ['0123456']), [2, 0, 0, 0, 0, 1, 1, 1])
    for words, maps in [('one map', []), ('two maps', [2, 0, 1, 0, 1, 0, 1, 0])]:
        table = filled(block, maps)
        found, plan = reference.find_plan(block, maps, [4, 6, 2, 5, 1, 3, 0], 64, 100, 2**32 - 1, table, [0] * 64)
        _, steps, cost, visits, _ = found
        rules = ' '.join(map(str, plan[:steps]))
        print(f'{words}, {len(table)} entries: rules {rules}, cost {cost}, {visits} visits')


def many_starts():
    """What samples/many_starts.c and rust/examples/many_starts.rs print: input E from eight starts."""
    starts = [*map(list, itertools.permutations(range(3))), [1, 1, 0], [1, 2, 3]]
    queries = queries_of((start, 64, 100, 1000) for start in starts)
    _, answers = reference.find_plans(E, [], queries, E_TABLE, [0] * (75 * len(starts)))
    for number, start in enumerate(starts):
        told, plan = taken_apart(answers[75 * number : 75 * number + 75])
        if isinstance(told, int):
            print(f'{start}: refused with {told}')
            continue
        status, steps, cost, visits, *_ = told
        print(f'{start}: rules {plan[:steps]}, cost {cost}' if status == 'found' else f'{start}: {status}', end='')
        print(f', {visits} visits')


def fill_order_blocks():
    random = Random(1)
    blocks = [random_small_block(random) for _ in range(150)]
    ones = '1' * 14
    blocks += [counter(14, 1, ones), counter(14, 1, ones, -1), counter(14, 255, ones), rings()]
    # seeds with which many states reach a goal, some of them from far
    large = [(3, 14, 2, 64, 1), (3, 14, 2, 64, 8), (10, 7, 4, 30, 1), (4, 6, 5, 20, 2), (11, 4, 11, 16, 3)]
    large += [(9, 3, 16, 16, 8), (1, 16, 1, 64, 8)]
    for seed, n, labels, rules, goals in large:
        blocks.append(random_block(Random(seed), n, labels, labels, rules, goals))
    return blocks


def fill_order_input():
    """Texts of exercises, with an empty line behind each; kept as crates/fill_order/stdin."""
    for block in fill_order_blocks():
        print(text_of(block).decode())


def fill_order():
    for _ in fill_order_blocks():
        print('in order')


def side_near(random, state, labels):
    """A side that differs from a state at few positions, and holds what the state does at most others."""
    kinds = random.choices('same other variable dash'.split(), [50, 4, 30, 16], k=len(state))
    other = {'other': random.randrange(labels), 'variable': 16 + random.randrange(4), 'dash': 255}
    return [label if kind == 'same' else other[kind] for label, kind in zip(state, kinds)]


def match_parts_blocks():
    """Exercises with goals that are states: these are matched with the left sides and the goals."""
    # the lowest position, the last one, none; a constant that differs behind variables that clash; variables alone
    sides = '10200 01210 01220 -1-2- AB-2A AB-2B AABB0 AA220 A1A20 0BB2B ----- 01AAA'.split()
    blocks = [block_of(5, 3, [(1, side, '-----') for side in sides], ['01220', '01020', 'AA--1'])]
    # each position in turn, with and without others behind it
    sides = ['0' * i + '1' + 15 * '0-A1'[i % 4] for i in range(16)] + ['A' * i + 16 * '1' for i in range(16)]
    blocks.append(block_of(16, 2, [(1, side[:16], 16 * '-') for side in sides], [16 * '0', 15 * '0' + '1']))
    random = Random(3)
    for n in [*range(1, 17), *range(1, 17), 16]:
        labels = random.choice([1, 2, 3, 16])
        states = [[random.randrange(labels) for _ in range(n)] for _ in range(random.randint(1, 4))]
        lefts = [side_near(random, random.choice(states), labels) for _ in range(random.randint(0, 40))]
        goals = states + [side_near(random, states[0], labels) for _ in range(random.randint(0, 4))]
        rules = [byte for left in lefts for byte in [0, *left, *[255] * n]]
        blocks.append([n, labels, 1, len(lefts), len(goals), *[0] * labels, *rules, *itertools.chain(*goals)])
    return blocks


def match_parts_input():
    """Texts of exercises, with an empty line behind each; kept as crates/match_parts/stdin."""
    for block in match_parts_blocks():
        print(text_of(block).decode())


def match_parts():
    """For each goal that is a state two lines, by bytes and by words: for each left side and each goal the lowest
    position whose constant differs, or '-', and '+' where the state matches the side."""
    met = set()
    for block in match_parts_blocks():
        exercise = reference.Exercise(block)
        sides = [left for _, left, _ in exercise.rules] + exercise.goals
        for state in exercise.goals:
            if any(kind != 'label' for kind, *_ in state):
                continue
            labels, line = [label for _, label in state], ''
            for side in sides:
                position = exercise.constant_mismatch(side, labels)
                matched = exercise.match(side, labels) is not None
                assert position is None or not matched
                met.add((position, matched))
                line += ('-' if position is None else f'{position:X}') + ('+' if matched else '.')
            print(line, line, sep='\n')
    assert met == {(None, False), (None, True)} | {(position, False) for position in range(16)}


if __name__ == '__main__':
    parts = [blocks, rules, predecessors, replays, tables, searches, texts, sessions, goals]
    parts += [maps, batches, two_maps, many_starts, fill_order, fill_order_input, match_parts, match_parts_input]
    by_name = {part.__name__: part for part in parts}
    by_name[usage.named('tests/worked.py NAME', by_name)[0]]()
