"""A second, plain account of the chain by its rules: a block on the air, what is heard, and the best block, without the search.

A plan is k, p, the send list, B, q, F, the increment and N. It knows no marks and no forced bits: a look tries every start
number and keeps whole paths."""

from functools import lru_cache
from operator import add

FIRST = {7: [0, 1, 3, 4, 6], 9: [0, 4, 5, 6, 8]}
SECOND = {7: [0, 3, 4, 5, 6], 9: [0, 1, 3, 5, 6, 7, 8]}
PHASES = {1: [0, 4], 2: [0, 2, 6, 4], 3: [1, 0, 2, 3, 6, 7, 5, 4]}

# what a contradicted value of Count-first adds to its total, so that the count comes first
ONE_MORE = 1 << 40


class Refused(Exception):
    pass


def needed_width(q):
    return max(q, 3)


def register_values(width, count):
    """The values of the register at the first places."""
    bits, values = 1, []
    for _ in range(count):
        values.append(bits & (1 << width) - 1)
        for _ in range(width):
            bits = (bits << 1 | (bits >> 8 ^ bits >> 4) & 1) & 511
    return values


@lru_cache
def sent_from(plan):
    """For each location, which coded bit is loaded there."""
    _, p, entries, _, _, _, inc, n = plan
    array = [0] * n
    for sent in range(n):
        array[sent * inc % n] = 2 * p * (sent // len(entries)) + entries[sent % len(entries)]
    return array


def code_word(k, block):
    """Two coded bits for each window."""
    b, word = len(block), []
    for t in range(b):
        word += [sum(block[(t + i) % b] for i in taps[k]) % 2 for taps in (FIRST, SECOND)]
    return word


def transmission(plan, table, block):
    """The on-air indices of a block."""
    k, _, _, _, q, f, _, n = plan
    word = code_word(k, block)
    bits = [word[c] for c in sent_from(plan)]
    air = []
    for s in range(n // q):
        x = int("".join(map(str, bits[s * q : s * q + q])), 2)
        air.append((PHASES[q][x] + table[s % f]) % 8 if q <= 3 else x ^ table[s % f])
    return air


class Receiver:
    """The values at the locations, what changes them, and the best block against them by a kind of score."""

    def __init__(self, plan, table, kind="total"):
        self.plan, self.table, self.kind = plan, table, kind
        self.values = [0] * plan[7]

    def hear(self, place, index, weight):
        q, f, n = self.plan[4], self.plan[5], self.plan[7]
        if place >= n // q:
            raise Refused(14)
        if index >= (8 if q <= 3 else 1 << q) or weight > 32767:
            raise Refused(15)
        v = self.table[place % f]
        symbol = (index - v) % 8 if q <= 3 else index ^ v
        if q <= 3:
            if symbol not in PHASES[q]:
                raise Refused(16)
            symbol = PHASES[q].index(symbol)
        for i in range(q):
            self.values[place * q + i] = -weight if symbol >> (q - 1 - i) & 1 else weight

    def note(self, location, value):
        if location >= self.plan[7] or value == -32768:
            raise Refused(17)
        self.values[location] = value

    def blank(self, place):
        q = self.plan[4]
        if place >= self.plan[7] // q:
            raise Refused(14)
        self.values[place * q : place * q + q] = [0] * q

    def own_score(self, block):
        word, score = code_word(self.plan[0], block), 0
        for t, cost in enumerate(costs_of(self.plan, self.kind, self.values)):
            score = joined(self.kind)(score, joined(self.kind)(cost[0][word[2 * t]], cost[1][word[2 * t + 1]]))
        return score

    def is_long(self):
        """Whether a look is too long for the search by this account."""
        return self.plan[3] << 2 * self.plan[0] > 45 << 18

    def is_best(self, score, block):
        """Whether a look shows this; where the plan is too long for that, whether the score is the block's own."""
        return self.own_score(block) == score and (self.is_long() or best(self.plan, self.kind, tuple(self.values)) == (score, block))


def joined(kind):
    """How two scores of a kind become one."""
    return max if kind == "worst" else add


def costs_of(plan, kind, values):
    """For each window, what a 0 and a 1 cost as its first bit, and as its second."""
    costs = [[[0, 0], [0, 0]] for _ in range(plan[3])]
    for c, value in zip(sent_from(plan), values):
        if value != 0:
            cost = costs[c // 2][c % 2]
            weight = abs(value) + (ONE_MORE if kind == "count" else 0)
            cost[value > 0] = joined(kind)(cost[value > 0], weight)
    return costs


@lru_cache(1000)
def best(plan, kind, values):
    """The score and the bits that the tie rule picks. A survivor is one number: its score, and below it its bits."""
    k, b = plan[0], plan[3]
    steps = [step_of(k, b, t, cost, joined(kind)) for t, cost in enumerate(costs_of(plan, kind, values))]
    extended = greater_of(b) if kind == "worst" else add
    survivors = [survivor(k, b, steps, start, extended) for start in range(1 << k - 1)]
    winner = min(survivors, key=lambda x: x >> b)
    return winner >> b, [winner >> t & 1 for t in range(b)]


def greater_of(b):
    """How a survivor is extended where the greater score is kept, above so many bits."""
    mask = (1 << b) - 1
    return lambda way, step: way + (step & mask) if way | mask >= step | mask else (way & mask) + step


def step_of(k, b, t, cost, join):
    """What each window adds to a survivor, the windows of the ways by a 0 first."""
    states, adds = 1 << k - 1, []
    for window in range(2 * states):
        bits = [window >> k - 1 - i & 1 for i in range(k)]
        pair = [sum(bits[i] for i in taps[k]) % 2 for taps in (FIRST, SECOND)]
        adds.append((join(cost[0][pair[0]], cost[1][pair[1]]) << b) + (bits[0] << t))
    return adds[:states], adds[states:]


def survivor(k, b, steps, start, extended):
    """The path that survives from this state round to it. Of equal ways the one by a 0 survives, whatever the other bits."""
    states, mask = 1 << k - 1, (1 << b) - 1
    column = [1 << 80 + b] * states
    column[start] = 0
    for by_0, by_1 in steps:
        ways = [score for score in column for _ in (0, 1)]
        column = [
            zero if zero <= one | mask else one
            for zero, one in zip(map(extended, ways[:states], by_0), map(extended, ways[states:], by_1))
        ]
    return column[start]
