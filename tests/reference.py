"""An independent reading of the language: blocks, states, matching, applying, goals, relabelling, stepping back,
reversible rules, replay, further maps, tables, search, many searches in one call, exercises as text, and what the
program `par` prints.

It shares nothing with the crates, nor with the model in Rust. The worked exercises (worked.py) and the samples
(samples.py) are made from it.
"""
import functools
import heapq
import itertools
import math

# The mark 'no path'.
MARK = 2**32 - 1

# What stands for a goal's number where no goal is met.
NO_GOAL = 0xFF

# The most entries that all tables have together, and the most maps that are lent beside the block's own.
MOST_ENTRIES = 16384
MOST_MAPS = 3

# The most queries that are answered in one call, and how many bytes an answer takes there.
MOST_QUERIES = 256
ANSWER_LENGTH = 75


class Refused(Exception):
    def __init__(self, number):
        super().__init__(number)
        self.number = number


def frame_lengths(block):
    """How many bytes each frame of a block has by its head: the head itself, the map, each rule, each goal."""
    if len(block) < 5:
        raise Refused(3)
    n, labels, abstracts, rules, goals = block[:5]
    if not (1 <= n <= 16 and 1 <= labels <= 16 and 1 <= abstracts <= labels):
        raise Refused(3)
    if rules > 64 or not 1 <= goals <= 8 or abstracts**n > MOST_ENTRIES:
        raise Refused(3)
    return [5, labels] + [1 + 2 * n] * rules + [n] * goals


class Exercise:
    """A block taken apart. Terms are ('label', x), ('variable', v), ('dash',) or None for no term."""

    def __init__(self, block):
        if len(block) != sum(frame_lengths(block)):
            raise Refused(4)
        self.n, self.labels, self.abstracts, self.rule_count, self.goal_count = block[:5]
        n, width = self.n, 1 + 2 * self.n
        self.known = {}
        rest = list(block[5:])
        self.map, rest = rest[: self.labels], rest[self.labels :]
        self.rules = []
        for _ in range(self.rule_count):
            rule, rest = rest[:width], rest[width:]
            left = [self.term(x) for x in rule[1 : 1 + n]]
            right = [self.term(x) for x in rule[1 + n :]]
            self.rules.append((rule[0], left, right))
        self.goals = []
        for _ in range(self.goal_count):
            goal, rest = rest[:n], rest[n:]
            self.goals.append([self.term(x) for x in goal])
        if any(x >= self.abstracts for x in self.map):
            raise Refused(5)
        sides = [side for _, left, right in self.rules for side in (left, right)] + self.goals
        for term in (term for side in sides for term in side):
            if term is None or (term[0] == 'label' and term[1] >= self.labels):
                raise Refused(6)
        for _, left, right in self.rules:
            if any(term[0] == 'variable' and term not in left for term in right):
                raise Refused(7)

    @staticmethod
    def term(byte):
        if byte < 0x10:
            return ('label', byte)
        if byte < 0x20:
            return ('variable', byte)
        return ('dash',) if byte == 0xFF else None

    def state(self, bytes_):
        if len(bytes_) != self.n or any(x >= self.labels for x in bytes_):
            raise Refused(8)
        return list(bytes_)

    def accept(self, rule, out):
        """Turns back a rule number that is none, and a buffer with no room for a state."""
        if rule >= self.rule_count:
            raise Refused(9)
        if len(out) < self.n:
            raise Refused(11)

    @staticmethod
    def match(side, state):
        """The variables' labels, or None where the side does not match."""
        bound = {}
        for term, label in zip(side, state):
            if term[0] == 'label' and term[1] != label:
                return None
            if term[0] == 'variable' and bound.setdefault(term[1], label) != label:
                return None
        return bound

    @staticmethod
    def constant_mismatch(side, state):
        """The lowest position whose constant differs from the state's label, or None."""
        terms = enumerate(zip(side, state))
        return min((i for i, (term, label) in terms if term[0] == 'label' and term[1] != label), default=None)

    def apply(self, rule, state):
        """The new state, or None where the rule does not apply."""
        _, left, right = self.rules[rule]
        bound = self.match(left, state)
        if bound is None:
            return None
        made = {'label': lambda t, old: t[1], 'variable': lambda t, old: bound[t[1]], 'dash': lambda t, old: old}
        return [made[term[0]](term, old) for term, old in zip(right, state)]

    def leading_to(self, rule, state):
        """The states that the rule takes to the given one: groups of positions, each with the labels that they may
        share."""
        _, left, right = self.rules[rule]
        allowed = {}
        for i, term in enumerate(left):
            group = term if term[0] == 'variable' else i
            allowed.setdefault(group, ([], set(range(self.labels))))[0].append(i)
        for i, (old, new) in enumerate(zip(left, right)):
            group = allowed[old if old[0] == 'variable' else i][1]
            if old[0] == 'label':
                group &= {old[1]}
            if new[0] == 'dash':
                group &= {state[i]}
            elif new[0] == 'variable':
                allowed[new][1].intersection_update({state[i]})
            elif new[1] != state[i]:
                group.clear()
        return [(positions, sorted(labels)) for positions, labels in allowed.values()]

    def step_back(self, rule, state, earlier):
        """The next state after the earlier one (None: from 'first') that the rule takes to the given one, or None.

        Groups stand in the order of their first positions, so the k-th of these states has the digits of k as labels;
        the first above the earlier one is found by halving.
        """
        groups = self.leading_to(rule, state)

        def nth(k):
            made = [0] * self.n
            for positions, labels in reversed(groups):
                k, digit = divmod(k, len(labels))
                for i in positions:
                    made[i] = labels[digit]
            return made

        low, high = 0, math.prod(len(labels) for _, labels in groups)
        count = high
        while earlier is not None and low < high:
            middle = (low + high) // 2
            if nth(middle) <= earlier:
                low = middle + 1
            else:
                high = middle
        return nth(low) if low < count else None

    def reversible(self, rule):
        _, left, right = self.rules[rule]
        sides = list(zip(left, right))
        kept = set(right) | {old for old, new in sides if new[0] == 'dash'}
        return all(
            new[0] == 'dash' or old[0] == 'label' or (old[0] == 'variable' and old in kept) for old, new in sides
        )

    def goal_met(self, state):
        """The lowest number of a goal that the state meets, or NO_GOAL."""
        met = (number for number, goal in enumerate(self.goals) if self.match(goal, state) is not None)
        return min(met, default=NO_GOAL)

    def meets(self, state):
        return self.goal_met(state) != NO_GOAL

    def successors(self, state):
        """The rules that apply to a state, in rising order: (number, cost, new state). States are tuples here."""
        if state not in self.known:
            images = ((number, rule[0], self.apply(number, state)) for number, rule in enumerate(self.rules))
            self.known[state] = [(number, cost, tuple(image)) for number, cost, image in images if image is not None]
        return self.known[state]

    def relabelled(self):
        def byte(term):
            if term[0] == 'label':
                return self.map[term[1]]
            return term[1] if term[0] == 'variable' else 0xFF

        block = [self.n, self.abstracts, self.abstracts, self.rule_count, self.goal_count, *range(self.abstracts)]
        for cost, left, right in self.rules:
            block += [cost, *map(byte, left), *map(byte, right)]
        for goal in self.goals:
            block += map(byte, goal)
        return block


class Abstraction:
    """The relabelled exercise: its states in the order of their ranks, the ranks of those that meet a goal, and each
    step (u, cost, v) of its rules."""

    def __init__(self, exercise):
        self.map = exercise.map
        self.relabelled = Exercise(exercise.relabelled())
        labels = range(exercise.abstracts)
        self.states = [list(state) for state in itertools.product(labels, repeat=exercise.n)]
        self.ranks = {tuple(state): rank for rank, state in enumerate(self.states)}

    def estimate(self, state, table):
        return table[self.ranks[tuple(self.map[label] for label in state)]]

    @functools.cached_property
    def goals(self):
        return [rank for rank, state in enumerate(self.states) if self.relabelled.meets(state)]

    @functools.cached_property
    def steps(self):
        found = []
        for rule, (cost, _, _) in enumerate(self.relabelled.rules):
            images = (self.relabelled.apply(rule, state) for state in self.states)
            found += [(u, cost, self.ranks[tuple(image)]) for u, image in enumerate(images) if image is not None]
        return found

    def least_costs(self):
        """The least cost of a list of rules from each state to a goal: states are settled from the goals backwards,
        the nearest first."""
        before = [[] for _ in self.states]
        for u, cost, v in self.steps:
            before[v].append((cost, u))
        table = [MARK] * len(self.states)
        waiting = [(0, goal) for goal in self.goals]
        while waiting:
            total, v = heapq.heappop(waiting)
            if table[v] == MARK:
                table[v] = total
                for cost, u in before[v]:
                    heapq.heappush(waiting, (total + cost, u))
        return table

    def passes(self, table):
        """The lower-bound test."""
        if any(table[goal] != 0 for goal in self.goals):
            return False
        asked = ((u, cost, v) for u, cost, v in self.steps if table[v] != MARK)
        return all(table[u] != MARK and table[u] <= cost + table[v] for u, cost, v in asked)


class Spent(Exception):
    pass


class Rounds:
    """The rounds of a search, taken literally. The allowance is None for rounds with no allowance."""

    def __init__(self, exercise, start, steps, allowance, estimate):
        self.exercise, self.start, self.estimate = exercise, start, estimate
        self.steps, self.allowance = steps, allowance
        self.visits, self.threshold, self.overshoot = 0, None, None

    def visit(self, rules, path, cost):
        """Visits a list and then its extensions; the plan, its cost and its goal, or None."""
        if self.visits == self.allowance:
            raise Spent
        self.visits += 1
        goal = self.exercise.goal_met(path[-1])
        if goal != NO_GOAL:
            return rules, cost, goal
        for rule, price, state in self.exercise.successors(path[-1]) if len(rules) < self.steps else []:
            if state in path or self.estimate(state) == MARK:
                continue
            figure = cost + price + self.estimate(state)
            if figure <= self.threshold:
                plan = self.visit(rules + [rule], path + [state], cost + price)
                if plan is not None:
                    return plan
            elif self.overshoot is None or figure < self.overshoot:
                self.overshoot = figure
        return None

    def run(self, limit):
        """The status, and the plan with its cost and goal where one is found."""
        first = self.estimate(self.start)
        self.overshoot = None if first == MARK else first
        while self.overshoot is not None and self.overshoot <= limit:
            self.threshold, self.overshoot = self.overshoot, None
            try:
                plan = self.visit([], [self.start], 0)
            except Spent:
                return 'spent', None
            if plan is not None:
                return 'found', plan
        return 'no plan', None


class Listing:
    """All open lists within a number of steps, by rule numbers, a prefix before its extensions. There are no rounds
    here.

    Each has the place of the list that it extends by one rule, its last state, its cost, and whether that state meets
    a goal. The plan is the first of the cheapest lists that reach a goal, with its cost, or None: no table is asked.
    """

    def __init__(self, exercise, start, steps):
        self.lists, self.plan = [], None
        waiting = [((), (start,), 0, 0)]
        while waiting:
            numbers, passed, total, parent = waiting.pop()
            place, reaches = len(self.lists), exercise.meets(passed[-1])
            self.lists.append((parent, passed[-1], total, reaches))
            if reaches and (self.plan is None or total < self.plan[1]):
                self.plan = list(numbers), total
            for number, cost, state in reversed(exercise.successors(passed[-1])) if len(numbers) < steps else []:
                if state not in passed:
                    waiting.append((numbers + (number,), passed + (state,), total + cost, place))

    def visits(self, estimate, limit):
        """How many visits rounds with no allowance make.

        The peak of a list is the largest figure of it and its prefixes. A round visits the lists whose peaks are at
        most the threshold, and the thresholds are the peaks in rising order: the first list on the way to another
        whose figure is above the threshold has that as its peak.
        """
        peaks = []
        for parent, state, cost, _ in self.lists:
            figure = math.inf if estimate(state) == MARK else cost + estimate(state)
            peaks.append(max(figure, peaks[parent]) if peaks else figure)
        last = min((peak for peak, row in zip(peaks, self.lists) if row[3]), default=math.inf)
        count = 0
        for rank, (peak, after) in enumerate(itertools.pairwise([*sorted(peaks), math.inf])):
            if peak < min(last, after) and peak <= limit:
                count += rank + 1
        if last == math.inf or last > limit:
            return count
        visited = [row[3] for peak, row in zip(peaks, self.lists) if peak <= last]
        return count + visited.index(True) + 1


@functools.lru_cache(maxsize=2)
def exercise_of(block):
    return Exercise(block)


@functools.lru_cache(maxsize=8)
def abstraction(block):
    return Abstraction(Exercise(block))


def remapped(block, record):
    """A block with other abstract labels: those of a further map, which is K and a byte for each label."""
    (n, labels, _, *counts), abstracts, mapped = block[:5], record[0], record[1:]
    return [n, labels, abstracts, *counts, *mapped, *block[5 + labels :]]


def accepted_maps(block, maps):
    """The further maps that are lent with a block that is accepted, as records of K and a byte for each label."""
    n, labels, abstracts = block[:3]
    width = 1 + labels
    records = [list(maps[at : at + width]) for at in range(0, len(maps), width)]
    if len(records) > MOST_MAPS or any(len(record) != width for record in records):
        raise Refused(14)
    if any(not 1 <= k <= labels or any(byte >= k for byte in mapped) for k, *mapped in records):
        raise Refused(15)
    if sum(k**n for k in [abstracts, *(record[0] for record in records)]) > MOST_ENTRIES:
        raise Refused(15)
    return records


class Tables:
    """The abstractions of an exercise, that of its own map first, then one for each further map. Their tables stand
    behind one another in one slice, and what is behind the last does not count."""

    def __init__(self, block, maps):
        exercise_of(tuple(block))
        self.blocks = [block, *(remapped(block, record) for record in accepted_maps(block, maps))]
        self.ends = list(itertools.accumulate(abstracts**n for n, _, abstracts, *_ in self.blocks))

    @functools.cached_property
    def abstractions(self):
        return [abstraction(tuple(block)) for block in self.blocks]

    def accept(self, table):
        if len(table) < self.ends[-1]:
            raise Refused(12)

    def pairs(self, table):
        """Each abstraction with its own part of the slice."""
        starts = [0, *self.ends]
        return [(each, table[start:end]) for each, start, end in zip(self.abstractions, starts, self.ends)]

    def least_costs(self):
        return [entry for each in self.abstractions for entry in each.least_costs()]

    def passes(self, table):
        return all(each.passes(part) for each, part in self.pairs(table))

    def estimates(self, table):
        """The estimate of a state, as a function: the largest of its entries. The mark is the largest number."""
        pairs = self.pairs(table)
        return functools.cache(lambda state: max(each.estimate(state, part) for each, part in pairs))


def written(new, out):
    """The buffer with the new bytes at its front, or as it was where there are none."""
    return list(out) if new is None else new + list(out[len(new) :])


def check_block(block):
    """0, or the number that turns the block back."""
    try:
        Exercise(block)
        return 0
    except Refused as r:
        return r.number


def apply_rule(block, rule, state, out):
    """The answer and the contents of the buffer afterwards."""
    try:
        exercise = Exercise(block)
        old = exercise.state(state)
        exercise.accept(rule, out)
        new = exercise.apply(rule, old)
        return ('does not apply' if new is None else 'done'), written(new, out)
    except Refused as r:
        return r.number, list(out)


def test_goals(block, state):
    """The answer, ('goal', its number or NO_GOAL) or a number."""
    try:
        exercise = Exercise(block)
        return 'goal', exercise.goal_met(exercise.state(state))
    except Refused as r:
        return r.number


def relabel_block(block, out):
    """The answer, ('done', length) or a number, and the contents of the buffer afterwards."""
    try:
        new = Exercise(block).relabelled()
        if len(out) < len(new):
            raise Refused(11)
        return ('done', len(new)), written(new, out)
    except Refused as r:
        return r.number, list(out)


def step_back(block, rule, state, earlier, out):
    """The answer and the contents of the buffer afterwards; the earlier state is None for 'first'."""
    try:
        exercise = Exercise(block)
        given = exercise.state(state)
        after = None if earlier is None else exercise.state(earlier)
        exercise.accept(rule, out)
        found = exercise.step_back(rule, given, after)
        return ('none further' if found is None else 'found'), written(found, out)
    except Refused as r:
        return r.number, list(out)


def reversible(block, rule):
    try:
        exercise = Exercise(block)
        if rule >= exercise.rule_count:
            raise Refused(9)
        return exercise.reversible(rule)
    except Refused as r:
        return r.number


def replay(block, start, numbers, out):
    """The answer, ('done', cost, goal or NO_GOAL), ('stuck', index, cost) or a number, and the contents of the buffer
    afterwards."""
    try:
        exercise = Exercise(block)
        state = exercise.state(start)
        if any(number >= exercise.rule_count for number in numbers):
            raise Refused(9)
        if len(numbers) > 4096:
            raise Refused(10)
        if len(out) < exercise.n:
            raise Refused(11)
        cost = 0
        for index, number in enumerate(numbers):
            new = exercise.apply(number, state)
            if new is None:
                return ('stuck', index, cost), written(state, out)
            state = new
            cost += exercise.rules[number][0]
        return ('done', cost, exercise.goal_met(state)), written(state, out)
    except Refused as r:
        return r.number, list(out)


def fill_table(block, maps, table):
    """The answer and the contents of the table afterwards."""
    try:
        tables = Tables(block, maps)
        tables.accept(table)
        return 'filled', written(tables.least_costs(), table)
    except Refused as r:
        return r.number, list(table)


def test_table(block, maps, table):
    try:
        tables = Tables(block, maps)
        tables.accept(table)
        return tables.passes(table)
    except Refused as r:
        return r.number


def look_up(block, maps, state, table):
    """The answer, ('entry', the estimate) or a number."""
    try:
        tables = Tables(block, maps)
        given = exercise_of(tuple(block)).state(state)
        tables.accept(table)
        return 'entry', tables.estimates(table)(tuple(given))
    except Refused as r:
        return r.number


def find_plan(block, maps, start, steps, limit, allowance, table, plan):
    """The answer, (status, steps, cost, visits), with the goal behind that where a plan is found, or a number, and the
    contents of the buffer afterwards."""
    try:
        tables, exercise = Tables(block, maps), exercise_of(tuple(block))
        first = tuple(exercise.state(start))
        if steps > 64:
            raise Refused(10)
        if len(plan) < steps:
            raise Refused(11)
        tables.accept(table)
        if not tables.passes(table):
            raise Refused(13)
        rounds = Rounds(exercise, first, steps, allowance, tables.estimates(table))
        status, found = rounds.run(limit)
        rules, cost, *goal = found or ([], 0)
        return (status, len(rules), cost, rounds.visits, *goal), written(rules, plan)
    except Refused as r:
        return r.number, list(plan)


def query_length(block):
    """How many bytes a query has: a label for each position, the step limit, four for each of the other limits."""
    return block[0] + 1 + 4 + 4


def answer_query(block, maps, query, table):
    """The bytes that tell the answer to a query; it may be refused, but all else is accepted."""
    n = block[0]
    limit, allowance = (int.from_bytes(query[at : at + 4], 'big') for at in (n + 1, n + 5))
    found, plan = find_plan(block, maps, query[:n], query[n], limit, allowance, table, [0] * 64)
    if not isinstance(found, tuple):
        return bytes([255, found])
    status, steps, cost, visits, *goal = found
    number = ['found', 'no plan', 'spent'].index(status)
    return bytes([number, *goal, steps, *cost.to_bytes(4, 'big'), *visits.to_bytes(4, 'big'), *plan[:steps]])


def find_plans(block, maps, queries, table, answers):
    """The answer, ('done', length) or a number, and the contents of the buffer afterwards."""
    try:
        tables, width = Tables(block, maps), query_length(block)
        count, rest = divmod(len(queries), width)
        if rest or not 1 <= count <= MOST_QUERIES or len(answers) < count * ANSWER_LENGTH:
            raise Refused(16)
        tables.accept(table)
        if not tables.passes(table):
            raise Refused(13)
        told = []
        for at in range(0, len(queries), width):
            told += answer_query(block, maps, queries[at : at + width], table).ljust(ANSWER_LENGTH, b'\0')
        return ('done', len(told)), written(told, answers)
    except Refused as r:
        return r.number, list(answers)


def lines_of(text):
    """The lines of a text, each with its line feed; an unended last one has none."""
    *ended, rest = bytes(text).split(b'\n')
    return [line + b'\n' for line in ended] + ([rest] if rest else [])


def frame_of(line):
    """The bytes that the digits of a line stand for."""
    digits = line.removesuffix(b'\n')
    if digits == line or len(digits) % 2 or set(digits) - set(b'0123456789ABCDEF'):
        raise Refused(1)
    return list(bytes.fromhex(digits.decode()))


def read_frames(lines):
    """The frames of a text's lines, and how many bytes each should have by the first of them."""
    frames = [frame_of(line) for line in lines]
    if not frames or len(frames[0]) != 5:
        raise Refused(2)
    return frames, frame_lengths(frames[0])


def read_exercise(text, out):
    """The answer, ('done', length) or a number, and the contents of the buffer afterwards."""
    try:
        frames, lengths = read_frames(lines_of(text))
        if [len(frame) for frame in frames] != lengths:
            raise Refused(2)
        block = sum(frames, [])
        if len(out) < len(block):
            raise Refused(11)
        Exercise(block)
        return ('done', len(block)), written(block, out)
    except Refused as r:
        return r.number, list(out)


def exercise_lines(lines):
    """How many lines `par` takes for the exercise: all that the head asks for, or the head line alone where it
    fails."""
    try:
        return len(read_frames(lines[:1])[1])
    except Refused:
        return 1


def answer_line(block, table, line):
    """The bytes that `par` prints for a query line."""
    try:
        query = frame_of(line)
        if len(query) != query_length(block):
            raise Refused(2)
        return answer_query(block, [], query, table)
    except Refused as r:
        return bytes([255, r.number])


def answer_frames(data):
    """The frames that `par` prints, one a line, for the bytes of its input."""
    if len(data) > 32768:
        return [bytes([255, 2])]
    lines = lines_of(data)
    count = exercise_lines(lines)
    found, block = read_exercise(b''.join(lines[:count]), [0] * 32768)
    if not isinstance(found, tuple):
        return [bytes([255, found])]
    block = block[: found[1]]
    table = abstraction(tuple(block)).least_costs()
    return [answer_line(block, table, line) for line in lines[count:]]


def par(data):
    """What the program `par` prints for the bytes of its input."""
    return b''.join(frame.hex().upper().encode() + b'\n' for frame in answer_frames(data))
